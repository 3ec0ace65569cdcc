/* The benchmark: the library and the C search on the same networks, in one run. Each time is the best of several
 * runs, in milliseconds: the library's distance table alone, its count, its list, and the list in C; the ratio is the
 * library's time to list over C's. Both must give the same list and the same distances. Then the time to read the
 * greatest molfile beside the time to list a silica network; the run ends with status 1 if reading takes longer. */
#include "../molfiles.h"
#include "../random.h"
#include "search.h"
#include "shapes.h"

enum { ALLOWANCE = RINGS_ALLOWANCE };

static network net;
static uint16_t table[MOST_ATOMS * ROW];
static uint8_t dist[MOST_ATOMS * MOST_ATOMS], c_dist[MOST_ATOMS * MOST_ATOMS];
static uint16_t *list, *c_list;

/* What is timed: the calls on the network at hand. */
typedef enum { DISTANCES, COUNT, LIST, C_LIST, CALLS } call;

/* Makes one call, and gives what it answered. */
static search_answer run(call which, size_t limit)
{
    size_t n = net.atoms, room = RINGS_LIST_WORDS(ALLOWANCE);
    if (which == C_LIST)
        return c_search(n, table, limit, ALLOWANCE, c_dist, c_list, room);
    if (which == DISTANCES)
        return (search_answer){rings_distances(n, table, 8 * n, dist, n * n).code, 0, 0};
    rings_census got = which == COUNT ? rings_count(n, table, 8 * n, limit, ALLOWANCE, dist, n * n)
                                      : rings_list(n, table, 8 * n, limit, ALLOWANCE, dist, n * n, list, room);
    return (search_answer){got.answer.code, got.total, got.words};
}

/* The time now, in milliseconds. */
static double now(void)
{
    struct timespec t;
    clock_gettime(CLOCK_MONOTONIC, &t);
    return (double)t.tv_sec * 1e3 + (double)t.tv_nsec / 1e6;
}

/* The best time of each call: they take turns, twelve times at least, and more while they are short. */
static void best(size_t limit, double least[CALLS], search_answer said[CALLS])
{
    double sum = 0;
    for (int which = 0; which < CALLS; which++)
        least[which] = 1e30;
    for (int runs = 0; runs < 12 || (sum < 300 && runs < 200); runs++)
        for (int which = 0; which < CALLS; which++) {
            double began = now();
            said[which] = run((call)which, limit);
            double took = now() - began;
            sum += took;
            least[which] = took < least[which] ? took : least[which];
        }
}

/* Whether the library and C have answered and filled the same. */
static bool agree(const search_answer said[CALLS])
{
    size_t n = net.atoms;
    for (int which = COUNT; which < CALLS; which++)
        if (said[which].code != said[C_LIST].code || said[which].rings != said[C_LIST].rings ||
            said[which].words != said[C_LIST].words)
            return false;
    return memcmp(list, c_list, said[C_LIST].words * sizeof(uint16_t)) == 0 && memcmp(dist, c_dist, n * n) == 0;
}

/* Measures the network at hand at one limit, and prints a line. */
static void measure(const char *name, size_t limit)
{
    double least[CALLS];
    search_answer said[CALLS];
    network_complete(&net);
    network_table(&net, table);
    best(limit, least, said);
    if (!agree(said)) {
        printf("%s, limit %zu: the library and C differ\n", name, limit);
        exit(1);
    }
    printf("%-28s %5zu %5zu ", name, net.atoms, limit);
    if (said[LIST].code != 0)
        printf("%10s", "refused 12");
    else
        printf("%10zu", said[LIST].rings);
    printf(" %11.3f %11.3f %11.3f %11.3f %6.2f\n", least[DISTANCES], least[COUNT], least[LIST], least[C_LIST],
           least[LIST] / least[C_LIST]);
}

/* Measures the network at hand at both limits. */
static void both_limits(const char *name)
{
    measure(name, 12);
    measure(name, 24);
}

/* A box of six by six by six, open or closed. */
static void make_cube(bool closed)
{
    const size_t size[3] = {6, 6, 6};
    const bool ways[3] = {closed, closed, closed};
    make_box(&net, size, ways);
}

/* A random network of 250 atoms with eight bonds each, but for the last few. */
static void make_random_rows(void)
{
    network_clear(&net, 250);
    for (size_t tries = 0; tries < 100000; tries++)
        bond(&net, random_below(250), random_below(250));
}

/* The networks of the table. */
static void shapes(void)
{
    make_glass(&net, 64), both_limits("silica, amorphous");
    make_diamond(&net, 2), bridge_bonds(&net), both_limits("silica, beta-cristobalite");
    make_diamond(&net, 3), switch_bonds(&net, 54), both_limits("silicon, bonds switched");
    make_cube(false), both_limits("cube 6x6x6");
    make_cube(true), both_limits("torus 6x6x6");
    make_random_rows(), both_limits("random, degree 8");
    make_hypercube(&net, 7), both_limits("7-cube");
    make_layers(&net, 62, 4, false), both_limits("62 layers of 4 in a row");
    make_layers(&net, 24, 4, true), both_limits("24 layers of 4 in a cycle");
    make_layers(&net, 25, 4, true), both_limits("25 layers of 4 in a cycle");
    make_layers(&net, 50, 4, true), both_limits("50 layers of 4 in a cycle");
}

/* The times to read the greatest molfile and to list the network at hand at limit 24, in turns, each the best; prints a
 * line, and gives whether reading takes no longer. */
static bool reading_keeps_up(const char *name)
{
    static connections said;
    static molfile file;
    static uint16_t read[MOST_ATOMS * ROW];
    double least[2] = {1e30, 1e30};
    connections_greatest(&said);
    molfile_saved(&said, &file);
    network_complete(&net);
    network_table(&net, table);
    for (int runs = 0; runs < 50; runs++) {
        double began = now();
        rings_reading answer = rings_read_molfile(file.bytes, file.length, read, MOST_ATOMS * ROW);
        double between = now();
        search_answer listed = run(LIST, 24);
        double ended = now();
        if (answer.answer.code != 0 || answer.bonds != said.bonds || listed.code != 0) {
            printf("%s: the molfile or the network is refused\n", name);
            exit(1);
        }
        least[0] = between - began < least[0] ? between - began : least[0];
        least[1] = ended - between < least[1] ? ended - between : least[1];
    }
    printf("%-28s %5zu %5d %11.3f %11.3f %6.3f\n", name, net.atoms, 24, least[1], least[0], least[0] / least[1]);
    if (least[0] <= least[1])
        return true;
    puts("reading takes longer than listing");
    return false;
}

int main(void)
{
    bool kept_up;
    list = malloc(RINGS_LIST_WORDS(ALLOWANCE) * sizeof(uint16_t));
    c_list = malloc(RINGS_LIST_WORDS(ALLOWANCE) * sizeof(uint16_t));
    random_start(1);
    puts("times in milliseconds, each the best of several runs; ratio: list / list in C");
    printf("%-28s %5s %5s %10s %11s %11s %11s %11s %6s\n", "network", "atoms", "limit", "rings", "distances", "count",
           "list", "list in C", "ratio");
    shapes();
    puts("\nhow the time grows with the number of atoms");
    for (size_t centres = 8; centres <= 80; centres += 8)
        make_glass(&net, centres), measure("silica, amorphous", 24);
    make_glass(&net, 83), measure("silica, amorphous", 24);
    puts("\nreading a molfile of 250 atoms and 999 bonds; ratio: reading / list");
    printf("%-28s %5s %5s %11s %11s %6s\n", "network", "atoms", "limit", "list", "reading", "ratio");
    make_glass(&net, 64), kept_up = reading_keeps_up("silica, amorphous");
    make_diamond(&net, 2), bridge_bonds(&net), kept_up = reading_keeps_up("silica, beta-cristobalite") && kept_up;
    return kept_up ? 0 : 1;
}
