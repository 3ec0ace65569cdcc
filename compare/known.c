/* The networks whose rings document 01 prints: the model must find exactly those, and the library must agree with
 * the model. With them the outline's list "Run", and networks with very many rings. */
#include "cases.h"
#include "networks.h"
#include "random.h"
#include "report.h"

/* A network by its bonds, and the words of its list, both ended by -1. */
typedef struct {
    const char *name;
    size_t atoms;
    const int *bonds;
    size_t limit;
    const int *list;
} known;

static const int one_atom[] = {-1};
static const int fig1[] = {0, 1, 0, 4, 1, 2, 1, 3, 2, 5, 3, 5, 3, 6, 4, 5, 5, 6, -1};
static const int p4[] = {0, 1, 1, 2, 2, 3, 3, 4, 4, 5, 0, 5, 0, 3, -1};
static const int p5[] = {0, 1, 1, 2, 2, 3, 3, 4, 4, 5, 5, 6, 6, 7, 0, 7, 8, 0, 8, 4, -1};
static const int p6[] = {1, 2, 2, 3, 3, 4, 4, 5, 5, 6, 6, 7, 7, 8, 1, 8, 0, 1, 0, 5, -1};
static const int p7[] = {0, 1, 1, 2, 2, 3, 3, 4, 4, 5, 5, 6, 0, 6, 7, 3, 7, 6, -1};
static const int p8[] = {0, 1, 0, 2, 0, 4, 1, 3, 1, 5, 2, 3, 2, 6, 3, 7, 4, 5, 4, 6, 5, 7, 6, 7, -1};
static const int p9[] = {0, 1, 0, 2, 0, 3, 1, 2, 1, 3, 2, 3, -1};
static const int p10[] = {0, 1, 1, 2, 0, 2, 3, 4, 4, 5, 3, 5, -1};
static const int p11[] = {0, 1, 1, 2, 2, 3, 3, 4, 0, 4, -1};

static const int none[] = {-1};
static const int fig1_rings[] = {3, 3, 5, 6, 4, 1, 2, 5, 3, 5, 0, 1, 2, 5, 4, 5, 0, 1, 3, 5, 4, -1};
static const int fig1_short[] = {3, 3, 5, 6, 4, 1, 2, 5, 3, -1};
static const int p4_rings[] = {4, 0, 1, 2, 3, 4, 0, 3, 4, 5, -1};
static const int p5_rings[] = {6, 0, 1, 2, 3, 4, 8, 6, 0, 7, 6, 5, 4, 8, -1};
static const int p6_rings[] = {6, 0, 1, 2, 3, 4, 5, 6, 0, 1, 8, 7, 6, 5, -1};
static const int p7_rings[] = {5, 3, 4, 5, 6, 7, 6, 0, 1, 2, 3, 7, 6, -1};
static const int p8_rings[] = {4, 0, 1, 3, 2, 4, 0, 1, 5, 4, 4, 0, 2, 6, 4, 4, 1, 3, 7, 5, 4, 2, 3, 7, 6, 4, 4, 5, 7, 6,
                               6, 0, 1, 3, 7, 6, 4, 6, 0, 1, 5, 7, 6, 2, 6, 0, 2, 3, 7, 5, 4, 6, 1, 3, 2, 6, 4, 5, -1};
static const int p9_rings[] = {3, 0, 1, 2, 3, 0, 1, 3, 3, 0, 2, 3, 3, 1, 2, 3, -1};
static const int p10_rings[] = {3, 0, 1, 2, 3, 3, 4, 5, -1};
static const int p11_rings[] = {5, 0, 1, 2, 3, 4, -1};

static const known knowns[] = {
    {"P1", 1, one_atom, 12, none},        {"P2", 7, fig1, 0, fig1_rings},     {"P3", 7, fig1, 4, fig1_short},
    {"P4", 6, p4, 12, p4_rings},          {"P5", 9, p5, 12, p5_rings},        {"P6", 9, p6, 12, p6_rings},
    {"P7", 8, p7, 12, p7_rings},          {"P8", 8, p8, 12, p8_rings},        {"P9", 4, p9, 12, p9_rings},
    {"P10", 6, p10, 12, p10_rings},       {"P11", 5, p11, 5, p11_rings},      {"P11", 5, p11, 4, none},
};

static network net;
static uint16_t words[MOST_ATOMS * ROW];

/* The table of the network made last. */
static table_lent table_of(const char *name)
{
    report_case(name, 0);
    network_complete(&net);
    network_table(&net, words);
    return (table_lent){net.atoms, words, ROW * net.atoms};
}

/* One network of the document. */
static void try_known(const known *k)
{
    uint8_t dist[MOST_ATOMS];
    uint16_t list[64];
    network_clear(&net, k->atoms);
    for (size_t i = 0; k->bonds[i] >= 0; i += 2)
        bond(&net, (size_t)k->bonds[i], (size_t)k->bonds[i + 1]);
    table_lent t = table_of(k->name);
    rings_census found = model_list(t.n, words, t.length, k->limit, MOST_RINGS, dist, t.n * t.n, list, 64);
    size_t length = 0;
    while (k->list[length] >= 0 && length < found.words && list[length] == k->list[length])
        length++;
    if (k->list[length] >= 0 || length != found.words)
        report_model("the rings are not those of the document");
    try_count(t, k->limit, MOST_RINGS, t.n * t.n);
    try_list(t, k->limit, MOST_RINGS, t.n * t.n, found.words);
    case_candidates(t, &net, model_rings(model_network(t.n, words), limit_used(k->limit)));
}

/* A cycle of the network at hand that is no shortest-path ring, though near misses take it for one: from every place,
 * in both directions. */
static void try_near_miss(const char *name, size_t n, const int *bonds, size_t first, size_t length)
{
    uint16_t atoms[MOST_LENGTH];
    size_t i, j;
    network_clear(&net, n);
    for (i = 0; bonds[i] >= 0; i += 2)
        bond(&net, (size_t)bonds[i], (size_t)bonds[i + 1]);
    table_lent t = table_of(name);
    for (size_t start = 0; start < 2 * length; start++) {
        for (size_t at = 0; at < length; at++)
            atoms[at] = (uint16_t)(first + (start < length ? start + at : start + length - at) % length);
        if (every_pair_fits(&net, atoms, length, &i, &j))
            report_model("a near miss is taken for a ring");
        try_test(t, atoms, length, n * n);
    }
}

/* A cycle, at a limit. */
static void try_cycle(size_t length, size_t limit, size_t rings)
{
    network_clear(&net, length);
    make_cycle(&net, 0, length);
    table_lent t = table_of("a cycle");
    if (model_rings(&net, limit)->count != rings)
        report_model("the cycle's rings are not those of the document");
    try_list(t, limit, 1, t.n * t.n, 25);
}

/* Fig. 1 at the edges of its allowance and its words, and the two smallest faults. */
static void try_edges(void)
{
    static const uint8_t file[] = {'B', 'N', 'W', 1, 0, 255, 255, 0, 0};
    network_clear(&net, 7);
    for (size_t i = 0; fig1[i] >= 0; i += 2)
        bond(&net, (size_t)fig1[i], (size_t)fig1[i + 1]);
    table_lent t = table_of("Fig. 1");
    try_list(t, 0, 3, 49, 21);
    try_list(t, 0, 4, 49, 20);
    try_list(t, 0, 4, 49, 21);
    t.n = 0;
    try_validate(t);
    t.n = MOST_ATOMS + 1;
    try_validate(t);
    network_clear(&net, 2);
    t = table_of("two atoms, bonded in one row");
    words[0] = 1;
    try_validate(t);
    try_read(file, sizeof file, 16);
}

/* Layers of four in a cycle: 8 layers have more than 65,535 rings, 10 layers more than the greatest allowance. */
static void try_layers(void)
{
    static ring_list found;
    make_layers(&net, 8, 4, true);
    table_lent t = table_of("eight layers of four");
    rings_by_antipodes(&net, 8, ~(size_t)0, &found);
    model_keep(&net, 8, &found);
    try_count(t, 8, found.count, t.n * t.n);
    try_list(t, 8, found.count, t.n * t.n, found.count * 9);
    try_list(t, 8, found.count - 1, t.n * t.n, found.count * 9);
    make_layers(&net, 10, 4, true);
    t = table_of("ten layers of four");
    rings_by_antipodes(&net, 10, ~(size_t)0, &found);
    model_keep(&net, 10, &found);
    try_count(t, 10, MOST_RINGS, t.n * t.n);
    try_list(t, 10, MOST_RINGS, t.n * t.n, 100);
}

void known_networks(void)
{
    random_start(0);
    for (size_t i = 0; i < sizeof knowns / sizeof *knowns; i++)
        try_known(&knowns[i]);
    try_near_miss("P5's cycle of 8", 9, p5, 0, 8);
    try_near_miss("P6's cycle of 8", 9, p6, 1, 8);
    try_near_miss("P7's cycle of 7", 8, p7, 0, 7);
    try_cycle(24, 24, 1);
    try_cycle(24, 23, 0);
    try_cycle(25, 24, 0);
    try_edges();
    try_layers();
}
