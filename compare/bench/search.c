/* The search of the benchmark. By length, by first atom, by neighbours in row order, a path is lengthened by one atom
 * at a time. An atom may follow if it is above the first; as far from the first as the ring says; as far from its
 * antipodes, where they are placed; above the second, if its place is the last; and if some atom would still fit just
 * past half the ring. A whole path is a ring if every pair fits. */
#include "search.h"

enum { ROW = 8, MOST_LENGTH = 24 };

/* What does not change during one search. */
typedef struct {
    size_t n, k, allowance;
    const uint16_t *table;
    const uint8_t *dist;
    uint16_t *list;
    size_t list_len;
} given;

/* What has been found so far. */
typedef struct {
    size_t rings, words;
    bool over;
} found;

/* The shorter way round. */
static size_t around(size_t k, size_t d)
{
    return d < k - d ? d : k - d;
}

/* Whether y at place `at` is as far from the atom at place i as the ring says. */
static bool pair_fits(const given *g, const uint16_t *path, size_t at, size_t y, size_t i)
{
    return g->dist[path[i] * g->n + y] == around(g->k, at - i);
}

/* Whether y at place `at` fits each of the first `many` atoms. */
static bool fits_before(const given *g, const uint16_t *path, size_t many, size_t at, size_t y)
{
    for (size_t i = 0; i < many; i++)
        if (!pair_fits(g, path, at, y, i))
            return false;
    return true;
}

/* Whether every pair of a whole path fits. */
static bool every_pair(const given *g, const uint16_t *path)
{
    for (size_t j = 0; j < g->k; j++)
        if (!fits_before(g, path, j, j, path[j]))
            return false;
    return true;
}

/* The first atom from `from` on at a distance, in a row of the distance buffer, or n: two at a time, as the library. */
static size_t next_at(const uint8_t *row, size_t n, size_t way, size_t from)
{
    for (; from + 1 < n; from += 2) {
        if (row[from] == way)
            return from;
        if (row[from + 1] == way)
            return from + 1;
    }
    return from < n && row[from] == way ? from : n;
}

/* The first atom from `from` on that fits just past half the ring once a follows, or 0; `from` past that place. */
static size_t look_ahead(const given *g, const uint16_t *path, size_t len, size_t a, size_t from)
{
    if (g->k / 2 < len)
        return from;
    size_t at = g->k / 2 + 1, way = around(g->k, at - len);
    const uint8_t *row = g->dist + a * g->n;
    for (size_t y = next_at(row, g->n, way, from); y < g->n; y = next_at(row, g->n, way, y + 1))
        if (fits_before(g, path, len, at, y))
            return y;
    return 0;
}

/* Whether a fits the atoms that stand across the ring from it, as far as they are placed. */
static bool across(const given *g, const uint16_t *path, size_t len, size_t a)
{
    size_t half = g->k / 2;
    if (len <= half)
        return true;
    if (!pair_fits(g, path, len, a, len - half))
        return false;
    return half + half == g->k || pair_fits(g, path, len, a, len - half - 1);
}

/* Whether a may follow: 0 if not, or where the next look ahead starts. */
static size_t may_follow(const given *g, const uint16_t *path, size_t len, size_t a, size_t from)
{
    if (a <= path[0] || !pair_fits(g, path, len, a, 0) || !across(g, path, len, a))
        return 0;
    if (len + 1 == g->k && a <= path[1])
        return 0;
    return look_ahead(g, path, len, a, from);
}

/* Notes a ring: counted, and written where it fits. */
static found note(const given *g, const uint16_t *path, found f)
{
    if (f.rings == g->allowance) {
        f.over = true;
        return f;
    }
    if (f.words + g->k < g->list_len) {
        uint16_t *to = g->list + f.words;
        to[0] = (uint16_t)g->k;
        for (size_t i = 0; i < g->k; i++)
            to[1 + i] = path[i];
    }
    f.rings++;
    f.words += g->k + 1;
    return f;
}

/* Lengthens the path, which lacks `left` atoms, by one atom after another until it is whole. */
static found grow(const given *g, uint16_t *path, size_t left, size_t from, found f)
{
    if (f.over)
        return f;
    if (left == 0)
        return path[1] < path[g->k - 1] && every_pair(g, path) ? note(g, path, f) : f;
    size_t len = g->k - left;
    const uint16_t *row = g->table + path[len - 1] * ROW;
    for (size_t i = 0; i < ROW && row[i] < g->n; i++) {
        size_t next = may_follow(g, path, len, row[i], from);
        if (next != 0) {
            path[len] = row[i];
            f = grow(g, path, left - 1, next, f);
        }
    }
    return f;
}

/* Every ring of 3 to limit atoms, shorter ones first. */
static found each_length(given g, size_t limit)
{
    found f = {0, 0, false};
    uint16_t path[MOST_LENGTH];
    for (g.k = 3; g.k <= limit; g.k++)
        for (size_t first = 0; first < g.n; first++) {
            path[0] = (uint16_t)first;
            f = grow(&g, path, g.k - 1, first + 1, f);
        }
    return f;
}

/* One level of a row: the atoms at d give d + 1 to their neighbours that have no entry. How many were filled. */
static size_t level(size_t n, const uint16_t *table, uint8_t *row, uint8_t d)
{
    size_t filled = 0;
    for (size_t v = 0; v < n; v++)
        if (row[v] == d)
            for (size_t p = 0; p < ROW && table[v * ROW + p] != RINGS_FREE; p++)
                if (row[table[v * ROW + p]] == RINGS_NO_PATH) {
                    row[table[v * ROW + p]] = (uint8_t)(d + 1);
                    filled++;
                }
    return filled;
}

/* Fills the distance buffer level by level from each atom, with no queue and no scratch memory, as the library does. */
static void distances(size_t n, const uint16_t *table, uint8_t *dist)
{
    memset(dist, RINGS_NO_PATH, n * n);
    for (size_t from = 0; from < n; from++) {
        dist[from * n + from] = 0;
        for (uint8_t d = 0; level(n, table, dist + from * n, d) > 0; d++)
            ;
    }
}

search_answer c_search(size_t n, const uint16_t *table, size_t limit, size_t allowance, uint8_t *dist, uint16_t *list,
                       size_t list_len)
{
    given g = {n, 0, allowance, table, dist, 0, 0};
    distances(n, table, dist);
    found counted = each_length(g, limit);
    if (counted.over)
        return (search_answer){12, 0, 0};
    if (list == 0)
        return (search_answer){0, counted.rings, counted.words};
    if (list_len < counted.words)
        return (search_answer){13, 0, 0};
    g.list = list;
    g.list_len = list_len;
    each_length(g, limit);
    return (search_answer){0, counted.rings, counted.words};
}
