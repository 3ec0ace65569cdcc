/* The independent model: document 01 and the paper's definitions in the plainest form, a matrix of bonds, tried
 * without any cleverness. It shares nothing with the library but the types of rings.h. */
#ifndef COMPARE_MODEL_H
#define COMPARE_MODEL_H

#include "libc.h"

/* The outline's numbers, written here anew. */
enum {
    MOST_ATOMS = 250,
    ROW = 8,
    FREE = 65535,
    UNREACHED = 255,
    LEAST_LENGTH = 3,
    MOST_LENGTH = 24,
    DEFAULT_LIMIT = 12,
    MOST_RINGS = 1000000,
    MOST_BONDS = 1000,
    HEAD = 9, /* bytes of a file before its bonds */
    BOND = 4, /* bytes of a bond */
    MOLFILE_BONDS = 999, /* most bonds of a molfile */
    LAST_REFUSAL = 32,
};

/* A network: which atoms are bonded, the neighbours of each, and how far apart two atoms are. */
typedef struct {
    size_t atoms;
    bool bonded[MOST_ATOMS][MOST_ATOMS];
    size_t degree[MOST_ATOMS];
    uint16_t neighbour[MOST_ATOMS][MOST_ATOMS];
    uint16_t apart[MOST_ATOMS][MOST_ATOMS]; /* UNREACHED where there is no path */
} network;

/* A ring as it stands in a list: its length, then its atoms. */
typedef struct {
    uint16_t word[MOST_LENGTH + 1];
} ring;

/* How a search of the model ended. */
typedef enum { COMPLETE, TOO_MANY, OUT_OF_STEPS } ending;

/* All shortest-path rings up to a limit, in list order. */
typedef struct {
    ending end;
    size_t count;
    size_t room;
    ring *rings;
} ring_list;

/* ---- model_table.c: tables and networks */

/* The first fault of 7 to 11 in a table of 8n words, n from 1 to 250. */
rings_answer model_faults(size_t n, const uint16_t *table);

/* The network of a table without faults; kept, and not worked out again while the same table is asked for. */
const network *model_network(size_t n, const uint16_t *table);

/* Completes a network of which atoms and bonded are given. */
void network_complete(network *net);

/* The table that shows a network. */
void network_table(const network *net, uint16_t *table);

/* ---- model_rings.c: rings */

/* Tries every cycle of 3 to limit atoms, and tests every pair of each. */
void rings_by_cycles(const network *net, size_t limit, size_t steps, ring_list *list);

/* Joins every two shortest paths from an atom to its antipode, or to the two atoms of its antipodal bond. */
void rings_by_antipodes(const network *net, size_t limit, size_t steps, ring_list *list);

/* Whether k atoms in a circle are everywhere as far apart as the circle says; if not, the first pair. */
bool every_pair_fits(const network *net, const uint16_t *atoms, size_t k, size_t *first, size_t *second);

/* The one writing of a ring: the least of all its readings. */
void one_writing(const uint16_t *atoms, size_t k, uint16_t *writing);

/* Puts rings in list order. */
void sort_rings(ring_list *list);

/* ---- model_kept.c: the rings of the network at hand */

/* Whether two lists hold the same rings in the same order. */
bool same_rings(const ring_list *a, const ring_list *b);

/* The rings of a network up to a limit; kept while the same are asked for. OUT_OF_STEPS if both ways take too long. */
const ring_list *model_rings(const network *net, size_t limit);

/* Keeps a list that was made otherwise, as what model_rings answers for this network and limit. */
void model_keep(const network *net, size_t limit, const ring_list *list);

/* ---- model_calls.c and model_files.c: each call of the library, filling what the buffers must be */

/* The limit that a call uses. */
size_t limit_used(size_t limit);

rings_answer model_validate(size_t n, const uint16_t *table, size_t table_len);
rings_answer model_distances(size_t n, const uint16_t *table, size_t table_len, uint8_t *dist, size_t dist_len);
rings_candidate model_test(size_t n, const uint16_t *table, size_t table_len, const uint16_t *atoms, size_t k,
                           uint8_t *dist, size_t dist_len);
rings_census model_count(size_t n, const uint16_t *table, size_t table_len, size_t limit, size_t allowance,
                         uint8_t *dist, size_t dist_len);
rings_census model_list(size_t n, const uint16_t *table, size_t table_len, size_t limit, size_t allowance,
                        uint8_t *dist, size_t dist_len, uint16_t *list, size_t list_len);
rings_answer model_renumber(size_t n, const uint16_t *table, size_t table_len, const uint16_t *names, size_t names_len,
                            uint16_t *renamed, size_t renamed_len);
rings_reading model_read(const uint8_t *file, size_t file_len, uint16_t *table, size_t table_len);
rings_written model_write(size_t n, const uint16_t *table, size_t table_len, uint8_t *file, size_t file_len);

/* ---- model_molfile.c: the reader of molfiles */

rings_reading model_read_molfile(const uint8_t *file, size_t file_len, uint16_t *table, size_t table_len);

/* ---- model_text.c: what the listing programs print for a file, as one of the model's readers takes it */

typedef rings_reading (*model_reader)(const uint8_t *file, size_t file_len, uint16_t *table, size_t table_len);

/* Whether the model's search ends in time on the network of a file. */
bool model_reports(model_reader read, const uint8_t *file, size_t file_len);

size_t model_report(model_reader read, const uint8_t *file, size_t file_len, uint8_t *out, size_t out_len);

#endif
