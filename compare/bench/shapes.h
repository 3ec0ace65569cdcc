/* The networks of the benchmark that compare/networks.h does not have. */
#ifndef BENCH_SHAPES_H
#define BENCH_SHAPES_H

#include "../networks.h"

/* The diamond lattice of cells by cells by cells cubic cells of 8 atoms, closed in every direction. */
void make_diamond(network *net, size_t cells);

/* Switches bonds at random, as in Wooten, Winer and Weaire's model but without their relaxation: of a bond a-b, a
 * neighbour c of a and a neighbour d of b, the bonds a-c and b-d become a-d and b-c. Every degree stays. */
void switch_bonds(network *net, size_t times);

/* The same network with one more atom in the middle of each bond. */
void bridge_bonds(network *net);

/* An amorphous 4-and-2 network: centres spread over a closed box at random but evenly, bonded nearest pairs first
 * until each has four bonds or no partner, and an atom in the middle of each bond. */
void make_glass(network *net, size_t centres);

#endif
