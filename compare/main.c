/* Compares the library with the independent model on many seeded random cases.
 *
 *     compare [CASES [SEED]]
 *
 * Case i has the seed SEED + i, so that `compare 1 SEED` runs a single case again. The run ends with status 1 at the
 * first difference, and with status 1 if a run of 1000 cases or more has not given every refusal, not listed rings of
 * every length, or not met molfiles with every answer and of every layout. */
#include "cases.h"
#include "networks.h"
#include "random.h"
#include "report.h"

enum { QUICK = 2000, FIRST_SEED = 1, MANY = 1000 };

/* One seeded case: two networks with all their calls, damaged tables and files; then the molfiles of a third. */
static void run_case(uint32_t seed)
{
    static network net;
    random_start(seed);
    report_case(random_network(&net), seed);
    case_network(&net);
    case_damaged_table(&net);
    case_random_table();
    case_wrong_sizes(&net);
    case_damaged_file(&net);
    case_random_file();
    stretched_network(&net);
    report_case("stretched", seed);
    case_network(&net);
    report_case(random_network(&net), seed);
    case_molfile(&net);
    case_damaged_molfile(&net);
    case_random_molfile();
    case_molfile_laws(&net);
    tally.cases++;
}

/* Whether all from first to last were met; names those that were not. */
static bool all_met(const size_t *times, int first, int last, const char *what)
{
    bool all = true;
    for (int i = first; i <= last; i++)
        if (times[i] == 0) {
            printf("compare: %s %d was never met\n", what, i);
            all = false;
        }
    return all;
}

/* Whether molfiles with every answer and of every layout were met; names those that were not. */
static bool all_molfiles_met(void)
{
    static const int answers[] = {0, 22, 25, 27, 29, 30, 31, 32};
    bool all = true;
    for (size_t i = 0; i < sizeof answers / sizeof *answers; i++)
        all = all_met(tally.molfiles.answers, answers[i], answers[i], "for a molfile the answer") && all;
    const size_t layouts[] = {tally.molfiles.with_crlf, tally.molfiles.without_last_end,
                              tally.molfiles.with_more_lines};
    return all_met(layouts, 0, 2, "of CR LF, no last end and more lines (0 to 2), in an accepted molfile,") && all;
}

int main(int argc, char **argv)
{
    unsigned long cases = argc > 1 ? strtoul(argv[1], 0, 10) : QUICK;
    unsigned long seed = argc > 2 ? strtoul(argv[2], 0, 10) : FIRST_SEED;
    known_networks();
    known_molfiles();
    for (unsigned long i = 0; i < cases; i++)
        run_case((uint32_t)(seed + i));
    report_tallies();
    if (cases >= MANY) {
        bool refusals = all_met(tally.refusals, 1, LAST_REFUSAL, "refusal");
        bool lengths = all_met(tally.listings_with, LEAST_LENGTH, MOST_LENGTH, "in a listing a ring of length");
        bool molfiles = all_molfiles_met();
        if (!refusals || !lengths || !molfiles)
            return 1;
        puts("every refusal from 1 to 32 was given, and rings of every length from 3 to 24 were listed");
        puts("molfiles had every answer, and those accepted had CR LF, no last line end, and lines after the bonds");
    }
    printf("compare: %zu cases agree\n", tally.cases);
    return 0;
}
