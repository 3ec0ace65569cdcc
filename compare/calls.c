/* Each call of the library once, beside the model. */
#include "calls.h"
#include "lend.h"
#include "report.h"

/* A guarded copy of a table. */
static lent lend_table(table_lent t)
{
    return lend_copy("table", 2, t.length, t.words);
}

void try_validate(table_lent t)
{
    lent table = lend_table(t);
    rings_answer got = rings_validate(t.n, lent_to(&table), t.length);
    rings_answer must_be = model_validate(t.n, t.words, t.length);
    same_answer("rings_validate", &got, &must_be);
    lent_check("rings_validate", &table);
}

void try_distances(table_lent t, size_t dist_len)
{
    lent table = lend_table(t), dist = lend("dist", 1, dist_len);
    rings_answer got = rings_distances(t.n, lent_to(&table), t.length, lent_to(&dist), dist_len);
    rings_answer must_be = model_distances(t.n, t.words, t.length, lent_must(&dist), dist_len);
    same_answer("rings_distances", &got, &must_be);
    lent_check("rings_distances", &table);
    lent_check("rings_distances", &dist);
}

void try_test(table_lent t, const uint16_t *atoms, size_t k, size_t dist_len)
{
    lent table = lend_table(t), candidate = lend_copy("ring", 2, k, atoms), dist = lend("dist", 1, dist_len);
    rings_candidate got =
        rings_test(t.n, lent_to(&table), t.length, lent_to(&candidate), k, lent_to(&dist), dist_len);
    rings_candidate must_be = model_test(t.n, t.words, t.length, atoms, k, lent_must(&dist), dist_len);
    same_candidate("rings_test", &got, &must_be);
    lent_check("rings_test", &table);
    lent_check("rings_test", &candidate);
    lent_check("rings_test", &dist);
}

void try_count(table_lent t, size_t limit, size_t allowance, size_t dist_len)
{
    lent table = lend_table(t), dist = lend("dist", 1, dist_len);
    rings_census got = rings_count(t.n, lent_to(&table), t.length, limit, allowance, lent_to(&dist), dist_len);
    rings_census must_be = model_count(t.n, t.words, t.length, limit, allowance, lent_must(&dist), dist_len);
    same_census("rings_count", &got, &must_be);
    lent_check("rings_count", &table);
    lent_check("rings_count", &dist);
}

void try_list(table_lent t, size_t limit, size_t allowance, size_t dist_len, size_t list_len)
{
    lent table = lend_table(t), dist = lend("dist", 1, dist_len), list = lend("list", 2, list_len);
    rings_census got = rings_list(t.n, lent_to(&table), t.length, limit, allowance, lent_to(&dist), dist_len,
                                  lent_to(&list), list_len);
    rings_census must_be = model_list(t.n, t.words, t.length, limit, allowance, lent_must(&dist), dist_len,
                                      lent_must(&list), list_len);
    same_census("rings_list", &got, &must_be);
    for (int k = LEAST_LENGTH; k <= MOST_LENGTH; k++)
        tally.listings_with[k] += must_be.counts[k] > 0;
    lent_check("rings_list", &table);
    lent_check("rings_list", &dist);
    lent_check("rings_list", &list);
}

void try_renumber(table_lent t, const uint16_t *names, size_t names_len, size_t renamed_len)
{
    lent table = lend_table(t), name = lend_copy("names", 2, names_len, names);
    lent renamed = lend("renamed", 2, renamed_len);
    rings_answer got =
        rings_renumber(t.n, lent_to(&table), t.length, lent_to(&name), names_len, lent_to(&renamed), renamed_len);
    rings_answer must_be =
        model_renumber(t.n, t.words, t.length, names, names_len, lent_must(&renamed), renamed_len);
    same_answer("rings_renumber", &got, &must_be);
    lent_check("rings_renumber", &table);
    lent_check("rings_renumber", &name);
    lent_check("rings_renumber", &renamed);
    tally.renumberings++;
}

void try_read(const uint8_t *file, size_t file_len, size_t table_len)
{
    lent bytes = lend_copy("file", 1, file_len, file), table = lend("table", 2, table_len);
    rings_reading got = rings_read(lent_to(&bytes), file_len, lent_to(&table), table_len);
    rings_reading must_be = model_read(file, file_len, lent_must(&table), table_len);
    same_reading("rings_read", &got, &must_be);
    lent_check("rings_read", &bytes);
    lent_check("rings_read", &table);
}

/* Counts a molfile by its answer, and an accepted one by its layout. */
static void count_molfile(const uint8_t *file, size_t file_len, const rings_reading *must_be)
{
    tally.molfiles.answers[must_be->answer.code]++;
    if (must_be->answer.code != 0)
        return;
    size_t lines = 0, crlf = 0;
    for (size_t i = 0; i < file_len; i++) {
        lines += file[i] == '\n' || i + 1 == file_len;
        crlf += i > 0 && file[i] == '\n' && file[i - 1] == '\r';
    }
    size_t needed = 4 + must_be->atoms + must_be->bonds;
    tally.molfiles.with_crlf += crlf > 0;
    tally.molfiles.without_last_end += lines == needed && file[file_len - 1] != '\n';
    tally.molfiles.with_more_lines += lines > needed;
}

void try_read_molfile(const uint8_t *file, size_t file_len, size_t table_len)
{
    lent bytes = lend_copy("file", 1, file_len, file), table = lend("table", 2, table_len);
    rings_reading got = rings_read_molfile(lent_to(&bytes), file_len, lent_to(&table), table_len);
    rings_reading must_be = model_read_molfile(file, file_len, lent_must(&table), table_len);
    same_reading("rings_read_molfile", &got, &must_be);
    lent_check("rings_read_molfile", &bytes);
    lent_check("rings_read_molfile", &table);
    count_molfile(file, file_len, &must_be);
}

void try_write(table_lent t, size_t file_len)
{
    lent table = lend_table(t), bytes = lend("file", 1, file_len);
    rings_written got = rings_write(t.n, lent_to(&table), t.length, lent_to(&bytes), file_len);
    rings_written must_be = model_write(t.n, t.words, t.length, lent_must(&bytes), file_len);
    same_written("rings_write", &got, &must_be);
    lent_check("rings_write", &table);
    lent_check("rings_write", &bytes);
}

/* A report's text, beside the one that the model makes of what its reader takes; whether it could be compared. */
static bool try_text(const char *call, size_t (*report)(const uint8_t *, size_t, uint8_t *, size_t), model_reader read,
                     const uint8_t *file, size_t file_len, size_t out_len)
{
    if (!model_reports(read, file, file_len))
        return false;
    lent bytes = lend_copy("file", 1, file_len, file), out = lend("text", 1, out_len);
    size_t got = report(lent_to(&bytes), file_len, lent_to(&out), out_len);
    size_t must_be = model_report(read, file, file_len, lent_must(&out), out_len);
    same_bytes(call, got, must_be);
    lent_check(call, &bytes);
    lent_check(call, &out);
    return true;
}

void try_report(const uint8_t *file, size_t file_len, size_t out_len)
{
    try_text("rings_report", rings_report, model_read, file, file_len, out_len);
}

void try_report_molfile(const uint8_t *file, size_t file_len, size_t out_len)
{
    bool compared =
        try_text("rings_report_molfile", rings_report_molfile, model_read_molfile, file, file_len, out_len);
    tally.molfiles.texts += compared;
}
