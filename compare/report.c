/* The running case, the comparison of answers, and the tallies. */
#include "report.h"

tallies tally;

static const char *case_kind = "";
static uint32_t case_seed;

void report_case(const char *kind, uint32_t seed)
{
    case_kind = kind;
    case_seed = seed;
}

/* Names the case that differs. */
static void differs(void)
{
    printf("compare: DIFFERENCE in the case of seed %lu, %s (again: compare 1 %lu)\n", (unsigned long)case_seed,
           case_kind, (unsigned long)case_seed);
}

void report_number(const char *call, const char *what, long got, long must_be)
{
    differs();
    printf("%s: %s is %ld and must be %ld\n", call, what, got, must_be);
    exit(1);
}

void report_buffer(const char *call, const char *name, long at, long length, unsigned got, unsigned must_be)
{
    differs();
    printf("%s: byte %ld of the buffer `%s` of %ld bytes%s is %u and must be %u\n", call, at, name, length,
           at < 0 || at >= length ? " (outside it)" : "", got, must_be);
    exit(1);
}

void report_model(const char *what)
{
    differs();
    printf("the model itself: %s\n", what);
    exit(1);
}

void report_law(const char *law)
{
    differs();
    printf("the library breaks a law: %s\n", law);
    exit(1);
}

/* One whole number of an answer. */
static void same(const char *call, const char *what, long got, long must_be)
{
    if (got != must_be)
        report_number(call, what, got, must_be);
}

/* One bool of an answer, read as the byte that it is. */
static void same_bool(const char *call, const char *what, const bool *got, bool must_be)
{
    unsigned char byte;
    memcpy(&byte, got, 1);
    same(call, what, byte, must_be ? 1 : 0);
}

/* One f64 of an answer, bit by bit. */
static void same_double(const char *call, const char *what, double got, double must_be)
{
    __UINT64_TYPE__ a, b;
    memcpy(&a, &got, 8);
    memcpy(&b, &must_be, 8);
    same(call, what, (long)a, (long)b);
}

void same_answer(const char *call, const rings_answer *got, const rings_answer *must_be)
{
    same(call, "code", got->code, must_be->code);
    same(call, "row", (long)got->row, (long)must_be->row);
    same(call, "place", (long)got->place, (long)must_be->place);
    tally.refusals[must_be->code]++;
    tally.calls++;
}

void same_census(const char *call, const rings_census *got, const rings_census *must_be)
{
    same_answer(call, &got->answer, &must_be->answer);
    same(call, "limit", (long)got->limit, (long)must_be->limit);
    for (int k = 0; k <= MOST_LENGTH; k++)
        same(call, "a count", got->counts[k], must_be->counts[k]);
    same(call, "total", got->total, must_be->total);
    same(call, "words", (long)got->words, (long)must_be->words);
    same_double(call, "per_atom (as bits)", got->per_atom, must_be->per_atom);
    same_bool(call, "has_mean", &got->has_mean, must_be->has_mean);
    same_double(call, "mean (as bits)", got->mean, must_be->mean);
    tally.listings++;
    tally.rings += must_be->total;
}

void same_candidate(const char *call, const rings_candidate *got, const rings_candidate *must_be)
{
    same_answer(call, &got->answer, &must_be->answer);
    same_bool(call, "yes", &got->yes, must_be->yes);
    same(call, "first", (long)got->first, (long)must_be->first);
    same(call, "second", (long)got->second, (long)must_be->second);
    for (int i = 0; i < MOST_LENGTH; i++)
        same(call, "a word of the writing", got->writing[i], must_be->writing[i]);
    tally.candidates++;
}

void same_reading(const char *call, const rings_reading *got, const rings_reading *must_be)
{
    same_answer(call, &got->answer, &must_be->answer);
    same(call, "atoms", (long)got->atoms, (long)must_be->atoms);
    same(call, "bonds", (long)got->bonds, (long)must_be->bonds);
    same(call, "value", got->value, must_be->value);
    tally.files++;
}

void same_written(const char *call, const rings_written *got, const rings_written *must_be)
{
    same_answer(call, &got->answer, &must_be->answer);
    same(call, "bytes", (long)got->bytes, (long)must_be->bytes);
    tally.files++;
}

void same_bytes(const char *call, size_t got, size_t must_be)
{
    same(call, "bytes", (long)got, (long)must_be);
    tally.calls++;
    tally.reports++;
}

/* Prints what was seen of molfiles. */
static void report_molfiles(void)
{
    printf("molfiles: their texts %zu, laws %zu; accepted %zu (with CR LF %zu, without the last line's end %zu, with "
           "more lines after the bonds %zu); refused, by number:",
           tally.molfiles.texts, tally.molfiles.laws, tally.molfiles.answers[0], tally.molfiles.with_crlf,
           tally.molfiles.without_last_end, tally.molfiles.with_more_lines);
    for (int number = 1; number <= LAST_REFUSAL; number++)
        if (tally.molfiles.answers[number] > 0)
            printf(" %d:%zu", number, tally.molfiles.answers[number]);
    printf("\n");
}

void report_tallies(void)
{
    printf("networks %zu, other tables %zu, files %zu, their texts %zu, renumberings %zu, candidates %zu\n",
           tally.networks, tally.tables, tally.files, tally.reports, tally.renumberings, tally.candidates);
    printf("counts and listings %zu, rings compared %zu; networks searched in both of the model's ways %zu\n",
           tally.listings, tally.rings, tally.both_ways);
    printf("accepted listings that hold a ring of length");
    for (int k = LEAST_LENGTH; k <= MOST_LENGTH; k++)
        printf(" %d:%zu", k, tally.listings_with[k]);
    printf("\ncalls %zu, accepted %zu; refused, by number:", tally.calls, tally.refusals[0]);
    for (int number = 1; number <= LAST_REFUSAL; number++)
        printf(" %d:%zu", number, tally.refusals[number]);
    printf("\n");
    report_molfiles();
}
