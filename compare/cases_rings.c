/* Cases of a network as it stands: its rings, candidates, renumberings and files. */
#include "cases.h"
#include "random.h"
#include "report.h"

/* Copies a ring of the list from another place on, and perhaps backwards. */
static size_t turned_ring(const ring_list *found, uint16_t *atoms)
{
    const ring *r = &found->rings[random_below(found->count)];
    size_t k = r->word[0], start = random_below(k), back = random_below(2);
    for (size_t i = 0; i < k; i++)
        atoms[i] = r->word[1 + (back ? start + k - i : start + i) % k];
    return k;
}

/* Walks at random over atoms not yet met, as far as it goes; mostly gives a part of the walk that is closed. */
static size_t random_walk(const network *net, uint16_t *atoms)
{
    bool met[MOST_ATOMS] = {false};
    size_t k = 0, closed = 0, x = random_below(net->atoms);
    while (k < MOST_LENGTH && x < net->atoms) {
        atoms[k++] = (uint16_t)x;
        met[x] = true;
        if (k >= 3 && net->bonded[x][atoms[0]] && (closed == 0 || random_once_in(2)))
            closed = k;
        size_t start = random_below(net->degree[x] + 1), next = net->atoms;
        for (size_t i = 0; i < net->degree[x]; i++) {
            uint16_t y = net->neighbour[x][(start + i) % net->degree[x]];
            if (!met[y])
                next = y;
        }
        x = next;
    }
    return closed > 0 && !random_once_in(6) ? closed : k;
}

/* Any atoms in any number. */
static size_t random_atoms(const network *net, uint16_t *atoms)
{
    size_t k = random_below(30);
    for (size_t i = 0; i < k; i++)
        atoms[i] = (uint16_t)random_below(net->atoms + (random_once_in(8) ? 1 : 0));
    return k;
}

/* Changes one atom of a candidate: to none of the network, to one that it has, or to any. */
static void spoil(const network *net, uint16_t *atoms, size_t k)
{
    if (k == 0)
        return;
    uint16_t other[4] = {(uint16_t)net->atoms, FREE, atoms[random_below(k)], (uint16_t)random_below(net->atoms)};
    atoms[random_below(k)] = other[random_below(4)];
}

void case_candidates(table_lent t, const network *net, const ring_list *found)
{
    uint16_t atoms[32];
    for (int times = 0; times < 6; times++) {
        size_t k = found->count > 0 && random_once_in(2) ? turned_ring(found, atoms)
                   : random_once_in(4)                   ? random_atoms(net, atoms)
                                                         : random_walk(net, atoms);
        while (random_once_in(4))
            spoil(net, atoms, k);
        try_test(t, atoms, k, t.n * t.n);
    }
}

/* A limit that the model can search in time, at most the one wished for. */
static size_t affordable(const network *net, size_t wish)
{
    size_t limit = wish;
    while (model_rings(net, limit_used(limit))->end == OUT_OF_STEPS)
        limit = limit == 0 ? DEFAULT_LIMIT - 3 : limit > 6 ? limit * 3 / 4 : limit - 1;
    return limit;
}

/* Counts and lists, with allowances and list lengths on both sides of what is needed. */
static void try_rings(table_lent t, size_t limit, const ring_list *found)
{
    size_t words = 0, total = found->count, n = t.n;
    for (size_t i = 0; i < total; i++)
        words += found->rings[i].word[0] + 1u;
    try_count(t, limit, MOST_RINGS, n * n);
    try_list(t, limit, total > 0 ? total : 1, n * n, words);
    if (random_once_in(2))
        try_list(t, limit, random_from(total > 0 ? total : 1, MOST_RINGS), n * n, words + random_below(40));
    if (total > 0)
        try_list(t, limit, MOST_RINGS, n * n, random_once_in(2) ? words - 1 : random_below(words));
    if (total > 1) {
        size_t few = random_once_in(2) ? total - 1 : random_from(1, total - 1);
        if (random_once_in(2))
            try_count(t, limit, few, n * n);
        else
            try_list(t, limit, few, n * n, random_below(words + 10));
    }
}

/* Renumbers a network; its rings, carried over and written anew, must be those of the new table. */
static void try_carried(table_lent t, size_t limit, const ring_list *found)
{
    static ring_list carried;
    static uint16_t renamed[MOST_ATOMS * ROW];
    uint16_t names[MOST_ATOMS], atoms[MOST_LENGTH];
    random_order(names, t.n);
    try_renumber(t, names, t.n, t.length);
    if (!random_once_in(3))
        return;
    carried.count = found->count;
    carried.rings = realloc(carried.rings, (found->count + 1) * sizeof(ring));
    for (size_t i = 0; i < found->count; i++) {
        carried.rings[i] = found->rings[i];
        size_t k = found->rings[i].word[0];
        for (size_t j = 0; j < k; j++)
            atoms[j] = names[found->rings[i].word[1 + j]];
        one_writing(atoms, k, carried.rings[i].word + 1);
    }
    sort_rings(&carried);
    model_renumber(t.n, t.words, t.length, names, t.n, renamed, t.length);
    const ring_list *fresh = model_rings(model_network(t.n, renamed), limit_used(limit));
    if (fresh->end == OUT_OF_STEPS)
        return;
    if (!same_rings(fresh, &carried))
        report_model("a renumbering does not carry rings to rings");
    try_list((table_lent){t.n, renamed, t.length}, limit, MOST_RINGS, t.n * t.n, fresh->count * (MOST_LENGTH + 1));
}

/* Writes a network, and reads and reports what the model wrote. */
static void try_file(table_lent t)
{
    static uint8_t file[HEAD + BOND * MOST_BONDS];
    rings_written written = model_write(t.n, t.words, t.length, file, sizeof file);
    try_write(t, written.bytes);
    try_write(t, written.bytes + random_below(50));
    try_write(t, written.bytes - 1);
    try_write(t, random_below(written.bytes));
    try_read(file, written.bytes, t.length);
    try_read(file, written.bytes, t.length + random_below(50));
    try_read(file, written.bytes, t.length - 1);
    try_report(file, written.bytes, RINGS_REPORT_BYTES);
}

void case_network(const network *net)
{
    static uint16_t words[MOST_ATOMS * ROW];
    static const size_t wishes[] = {0, 3, 4, 5, 6, 7, 8, 10, 12, 16, 20, 23, 24};
    network_table(net, words);
    table_lent t = {net->atoms, words, ROW * net->atoms};
    try_validate(t);
    try_distances(t, t.n * t.n);
    size_t wish = random_once_in(2) ? 24 : wishes[random_below(sizeof wishes / sizeof *wishes)];
    size_t limit = affordable(net, wish);
    const ring_list *found = model_rings(net, limit_used(limit));
    try_rings(t, limit, found);
    case_candidates(t, net, found);
    try_carried(t, limit, found);
    try_file(t);
    tally.networks++;
}
