/* Each call of the library once, beside the model, on guarded copies of what it is lent. The words given must be
 * as many as the length beside them says. */
#ifndef COMPARE_CALLS_H
#define COMPARE_CALLS_H

#include "model.h"

/* A table to lend: n as it will be passed, and the words with their number. */
typedef struct {
    size_t n;
    const uint16_t *words;
    size_t length;
} table_lent;

void try_validate(table_lent t);
void try_distances(table_lent t, size_t dist_len);
void try_test(table_lent t, const uint16_t *atoms, size_t k, size_t dist_len);
void try_count(table_lent t, size_t limit, size_t allowance, size_t dist_len);
void try_list(table_lent t, size_t limit, size_t allowance, size_t dist_len, size_t list_len);
void try_renumber(table_lent t, const uint16_t *names, size_t names_len, size_t renamed_len);
void try_read(const uint8_t *file, size_t file_len, size_t table_len);
void try_read_molfile(const uint8_t *file, size_t file_len, size_t table_len);
void try_write(table_lent t, size_t file_len);

/* What the listing programs print, where the model ends in time. */
void try_report(const uint8_t *file, size_t file_len, size_t out_len);
void try_report_molfile(const uint8_t *file, size_t file_len, size_t out_len);

#endif
