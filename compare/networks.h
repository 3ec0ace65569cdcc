/* Networks to try. */
#ifndef COMPARE_NETWORKS_H
#define COMPARE_NETWORKS_H

#include "model.h"

/* A network of n atoms without bonds. */
void network_clear(network *net, size_t n);

/* Bonds two atoms, if they are different, not yet bonded, and both have a free place. */
bool bond(network *net, size_t x, size_t y);

/* Takes a bond away. */
void unbond(network *net, size_t x, size_t y);

/* A cycle of the atoms from first on. */
void make_cycle(network *net, size_t first, size_t length);

/* Layers of so many atoms, each wholly bonded to the next, in a row or closed to a cycle. */
void make_layers(network *net, size_t layers, size_t wide, bool closed);

/* A box of a by b by c atoms, closed in each direction that is set and longer than two. */
void make_box(network *net, const size_t size[3], const bool closed[3]);

/* Atoms bonded when their numbers differ in one binary digit. */
void make_hypercube(network *net, size_t digits);

/* Centres of up to four bonds, each bond with an atom of its own in the middle. */
void make_silica(network *net, size_t centres, size_t bonds);

/* A random network of any of these and other kinds, and its kind's name. */
const char *random_network(network *net);

/* A few atoms joined at random by rows of other atoms: long rings, odd and even. */
void stretched_network(network *net);

#endif
