/* The search of the benchmark: plain C with the same tests as the library's, and no proof. */
#ifndef BENCH_SEARCH_H
#define BENCH_SEARCH_H

#include "../libc.h"

/* What a search answers: 0, 12 or 13, the rings and the words. */
typedef struct {
    int code;
    size_t rings;
    size_t words;
} search_answer;

/* Fills the distance buffer, counts the rings of 3 to limit atoms, and then writes them if they are within the
 * allowance and fit; without a list (list_len 0 and list null) it only counts. The table must be a network's. */
search_answer c_search(size_t n, const uint16_t *table, size_t limit, size_t allowance, uint8_t *dist, uint16_t *list,
                       size_t list_len);

#endif
