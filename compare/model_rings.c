/* The model's rings, found in two ways that know nothing of each other. */
#include "model.h"
#include "report.h"

/* A search that is under way. */
typedef struct {
    const network *net;
    size_t limit;
    size_t steps;
    ring_list *list;
    uint16_t path[MOST_LENGTH];
    bool on_path[MOST_ATOMS];
} search;

bool every_pair_fits(const network *net, const uint16_t *atoms, size_t k, size_t *first, size_t *second)
{
    for (size_t i = 0; i < k; i++)
        for (size_t j = i + 1; j < k; j++) {
            size_t one_way = j - i, other_way = k - (j - i);
            if (net->apart[atoms[i]][atoms[j]] != (one_way < other_way ? one_way : other_way)) {
                *first = i;
                *second = j;
                return false;
            }
        }
    return true;
}

/* Whether a reading of k atoms comes before another. */
static bool reads_before(const uint16_t *a, const uint16_t *b, size_t k)
{
    for (size_t i = 0; i < k; i++)
        if (a[i] != b[i])
            return a[i] < b[i];
    return false;
}

void one_writing(const uint16_t *atoms, size_t k, uint16_t *writing)
{
    uint16_t reading[MOST_LENGTH];
    for (size_t start = 0; start < k; start++)
        for (int back = 0; back < 2; back++) {
            for (size_t i = 0; i < k; i++)
                reading[i] = atoms[(back ? start + k - i : start + i) % k];
            if ((start == 0 && !back) || reads_before(reading, writing, k))
                memcpy(writing, reading, k * sizeof(uint16_t));
        }
}

/* Keeps k atoms in a circle if every pair fits. */
static void keep_if_ring(search *s, const uint16_t *atoms, size_t k)
{
    size_t first, second;
    ring_list *list = s->list;
    if (!every_pair_fits(s->net, atoms, k, &first, &second))
        return;
    if (list->count == MOST_RINGS) {
        list->end = TOO_MANY;
        return;
    }
    if (list->count == list->room) {
        list->room = list->room * 2 + 64;
        list->rings = realloc(list->rings, list->room * sizeof(ring));
    }
    ring *kept = &list->rings[list->count++];
    memset(kept, 0, sizeof *kept);
    kept->word[0] = (uint16_t)k;
    one_writing(atoms, k, kept->word + 1);
}

/* Counts one step; false once the search is to end. */
static bool step(search *s)
{
    if (s->list->end == COMPLETE && s->steps-- == 0)
        s->list->end = OUT_OF_STEPS;
    return s->list->end == COMPLETE;
}

/* Every way on from a path of len atoms: closes it where it can be closed, and lengthens it. */
static void lengthen(search *s, size_t len)
{
    uint16_t first = s->path[0], last = s->path[len - 1];
    for (size_t i = 0; i < s->net->degree[last]; i++) {
        uint16_t y = s->net->neighbour[last][i];
        if (y <= first || s->on_path[y])
            continue;
        if (!step(s))
            return;
        s->path[len] = y;
        s->on_path[y] = true;
        if (len + 1 >= 3 && s->net->bonded[y][first] && s->path[1] < y)
            keep_if_ring(s, s->path, len + 1);
        if (len + 1 < s->limit)
            lengthen(s, len + 1);
        s->on_path[y] = false;
    }
}

void rings_by_cycles(const network *net, size_t limit, size_t steps, ring_list *list)
{
    static search s;
    memset(&s, 0, sizeof s);
    s.net = net, s.limit = limit, s.steps = steps, s.list = list;
    list->end = COMPLETE;
    list->count = 0;
    for (size_t first = 0; first < net->atoms && list->end == COMPLETE; first++) {
        s.path[0] = (uint16_t)first;
        lengthen(&s, 1);
    }
    sort_rings(list);
}

/* Shortest paths from one atom to another, above the first atom. */
typedef struct {
    size_t count;
    size_t room;
    uint16_t (*path)[MOST_LENGTH];
} path_list;

/* Gathers every shortest path to an atom that goes on from the path's first len atoms. */
static void gather(search *s, path_list *paths, uint16_t to, size_t len)
{
    uint16_t last = s->path[len - 1];
    if (last == to) {
        if (paths->count == paths->room) {
            paths->room = paths->room * 2 + 16;
            paths->path = realloc(paths->path, paths->room * sizeof *paths->path);
        }
        memcpy(paths->path[paths->count++], s->path, len * sizeof(uint16_t));
        return;
    }
    for (size_t i = 0; i < s->net->degree[last]; i++) {
        uint16_t y = s->net->neighbour[last][i];
        if (y <= s->path[0] || s->net->apart[y][to] + 1 != s->net->apart[last][to])
            continue;
        if (!step(s))
            return;
        s->path[len] = y;
        gather(s, paths, to, len + 1);
    }
}

/* The shortest paths from the first atom to another. */
static void gather_from(search *s, path_list *paths, size_t first, size_t to)
{
    paths->count = 0;
    s->path[0] = (uint16_t)first;
    gather(s, paths, (uint16_t)to, 1);
}

/* Joins one path with the way back over another; `skip` is 1 where both end at the same atom. */
static void join(search *s, const uint16_t *out, const uint16_t *back, size_t apart, size_t skip)
{
    uint16_t circle[2 * MOST_LENGTH];
    size_t k = 0;
    for (size_t i = 0; i <= apart; i++)
        circle[k++] = out[i];
    for (size_t i = apart + 1 - skip; i > 1; i--)
        circle[k++] = back[i - 1];
    if (step(s))
        keep_if_ring(s, circle, k);
}

/* The even rings with antipodes first and t, and the odd ones with first opposite the bonds t-u, u above t. */
static void opposite(search *s, size_t first, size_t t)
{
    static path_list to_t, to_u;
    size_t apart = s->net->apart[first][t];
    if (t <= first || apart == UNREACHED || 2 * apart > s->limit)
        return;
    gather_from(s, &to_t, first, t);
    if (apart >= 2)
        for (size_t p = 0; p < to_t.count; p++)
            for (size_t q = p + 1; q < to_t.count && s->list->end == COMPLETE; q++)
                join(s, to_t.path[p], to_t.path[q], apart, 1);
    if (2 * apart + 1 > s->limit)
        return;
    for (size_t u = t + 1; u < s->net->atoms; u++) {
        if (!s->net->bonded[t][u] || s->net->apart[first][u] != apart)
            continue;
        gather_from(s, &to_u, first, u);
        for (size_t p = 0; p < to_t.count; p++)
            for (size_t q = 0; q < to_u.count && s->list->end == COMPLETE; q++)
                join(s, to_t.path[p], to_u.path[q], apart, 0);
    }
}

void rings_by_antipodes(const network *net, size_t limit, size_t steps, ring_list *list)
{
    static search s;
    memset(&s, 0, sizeof s);
    s.net = net, s.limit = limit, s.steps = steps, s.list = list;
    list->end = COMPLETE;
    list->count = 0;
    for (size_t first = 0; first < net->atoms; first++)
        for (size_t t = 0; t < net->atoms && list->end == COMPLETE; t++)
            opposite(&s, first, t);
    sort_rings(list);
}

/* List order: the shorter first, equal lengths by the first atom that differs. */
static int list_order(const void *a, const void *b)
{
    const ring *x = a, *y = b;
    for (size_t i = 0; i <= x->word[0]; i++)
        if (x->word[i] != y->word[i])
            return x->word[i] < y->word[i] ? -1 : 1;
    return 0;
}

void sort_rings(ring_list *list)
{
    if (list->count > 1)
        qsort(list->rings, list->count, sizeof(ring), list_order);
}
