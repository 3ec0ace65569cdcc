/* The running case, the comparison of answers, and the tallies that are printed at the end. */
#ifndef COMPARE_REPORT_H
#define COMPARE_REPORT_H

#include "model.h"

/* What a run has compared. */
typedef struct {
    size_t cases, calls, networks, tables, files, renumberings, candidates, listings, reports, rings, both_ways;
    size_t refusals[LAST_REFUSAL + 1];     /* by number; 0: accepted */
    size_t listings_with[MOST_LENGTH + 1]; /* accepted listings that hold a ring of this length */
    struct {
        size_t answers[LAST_REFUSAL + 1]; /* readings by number; 0: accepted */
        size_t with_crlf, without_last_end, with_more_lines; /* accepted ones: a line end CR LF, the last line of all
                                                                without its end, lines after the last bond's */
        size_t texts, laws;
    } molfiles;
} tallies;

extern tallies tally;

/* Names the case that runs from here on. */
void report_case(const char *kind, uint32_t seed);

/* Ends the run: a whole number that the library answered is not what it must be. */
void report_number(const char *call, const char *what, long got, long must_be);

/* Ends the run: a byte of a lent buffer is not what it must be. */
void report_buffer(const char *call, const char *name, long at, long length, unsigned got, unsigned must_be);

/* Ends the run: the two ways of the model, or the model and the document, disagree. */
void report_model(const char *what);

/* Ends the run: two answers of the library break a law. */
void report_law(const char *law);

/* Each compares all of an answer, field by field, and counts the call. */
void same_answer(const char *call, const rings_answer *got, const rings_answer *must_be);
void same_census(const char *call, const rings_census *got, const rings_census *must_be);
void same_candidate(const char *call, const rings_candidate *got, const rings_candidate *must_be);
void same_reading(const char *call, const rings_reading *got, const rings_reading *must_be);
void same_written(const char *call, const rings_written *got, const rings_written *must_be);
void same_bytes(const char *call, size_t got, size_t must_be);

/* Prints the tallies. */
void report_tallies(void);

#endif
