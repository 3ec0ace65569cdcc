/* Molfiles to try. */
#ifndef COMPARE_MOLFILES_H
#define COMPARE_MOLFILES_H

#include "model.h"

enum { MOLFILE_ROOM = 1 << 20 };

/* What a molfile says of its bonds: atoms numbered from 1, bonds in the file's order. Nothing need be right about it,
 * but that numbers are at most 999. */
typedef struct {
    size_t atoms, bonds;
    uint16_t bond[MOLFILE_BONDS][2];
} connections;

/* A file as it grows. */
typedef struct {
    size_t length;
    uint8_t bytes[MOLFILE_ROOM];
} molfile;

/* The bonds of a network, ascending; of a thousand all but the last. */
void connections_of(const network *net, connections *said);

/* As much as a molfile can say: 250 atoms, each bonded to the four before and the four after it in a circle, all but
 * one of these bonds, in any order. */
void connections_greatest(connections *said);

/* The same bonds in another order, some with their atoms exchanged. */
void connections_shuffle(connections *said);

/* Adds bytes, or a text, to a file. */
void molfile_add_bytes(molfile *file, const void *bytes, size_t count);
void molfile_add(molfile *file, const char *text);

/* The file as an editor saves it. */
void molfile_saved(const connections *said, molfile *file);

/* The file in any layout that says the same: line ends, numbers, what stands beside the columns and after the bonds. */
void molfile_in_any_layout(const connections *said, molfile *file);

#endif
