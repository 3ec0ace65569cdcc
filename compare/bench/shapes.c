/* The networks of the benchmark. */
#include "shapes.h"
#include "../random.h"

void make_diamond(network *net, size_t cells)
{
    static const size_t corner[4][3] = {{0, 0, 0}, {0, 2, 2}, {2, 0, 2}, {2, 2, 0}};
    static const size_t way[4][3] = {{1, 1, 1}, {1, 3, 3}, {3, 1, 3}, {3, 3, 1}}; /* 3: one back */
    static size_t site[MOST_ATOMS][3];
    size_t count = 0, side = 4 * cells;
    for (size_t odd = 0; odd < 2; odd++)
        for (size_t cell = 0; cell < cells * cells * cells; cell++)
            for (int c = 0; c < 4; c++, count++) {
                size_t at[3] = {cell / cells / cells, cell / cells % cells, cell % cells};
                for (int axis = 0; axis < 3; axis++)
                    site[count][axis] = 4 * at[axis] + corner[c][axis] + odd;
            }
    network_clear(net, count);
    for (size_t x = 0; x < count / 2; x++)
        for (int w = 0; w < 4; w++)
            for (size_t y = count / 2; y < count; y++) {
                bool there = true;
                for (int axis = 0; axis < 3; axis++) {
                    size_t step = way[w][axis] == 3 ? side - 1 : 1;
                    there = there && site[y][axis] == (site[x][axis] + step) % side;
                }
                if (there)
                    bond(net, x, y);
            }
}

/* A random neighbour of an atom. */
static size_t any_neighbour(const network *net, size_t x)
{
    for (;;) {
        size_t y = random_below(net->atoms);
        if (net->bonded[x][y])
            return y;
    }
}

void switch_bonds(network *net, size_t times)
{
    while (times > 0) {
        size_t a = random_below(net->atoms), b = any_neighbour(net, a);
        size_t c = any_neighbour(net, a), d = any_neighbour(net, b);
        if (c == b || d == a || c == d || net->bonded[a][d] || net->bonded[b][c])
            continue;
        unbond(net, a, c);
        unbond(net, b, d);
        bond(net, a, d);
        bond(net, b, c);
        times--;
    }
}

void bridge_bonds(network *net)
{
    static network old;
    old = *net;
    size_t bonds = 0, middle = old.atoms;
    for (size_t x = 0; x < old.atoms; x++)
        bonds += old.degree[x];
    network_clear(net, old.atoms + bonds / 2);
    for (size_t x = 0; x < old.atoms; x++)
        for (size_t y = x + 1; y < old.atoms; y++)
            if (old.bonded[x][y]) {
                bond(net, x, middle);
                bond(net, y, middle++);
            }
}

/* The square of the distance of two points in a closed box of side 1000. */
static size_t square_apart(const size_t *a, const size_t *b)
{
    size_t sum = 0;
    for (int axis = 0; axis < 3; axis++) {
        size_t d = a[axis] > b[axis] ? a[axis] - b[axis] : b[axis] - a[axis];
        d = d > 500 ? 1000 - d : d;
        sum += d * d;
    }
    return sum;
}

/* Spreads points: each is the one of twenty random ones that is farthest from all before it. */
static void spread_points(size_t (*point)[3], size_t count)
{
    for (size_t i = 0; i < count; i++) {
        size_t best = 0;
        for (int tries = 0; tries < 20; tries++) {
            size_t p[3] = {random_below(1000), random_below(1000), random_below(1000)}, nearest = 1000000;
            for (size_t j = 0; j < i; j++)
                if (square_apart(p, point[j]) < nearest)
                    nearest = square_apart(p, point[j]);
            if (tries == 0 || nearest > best) {
                best = nearest;
                memcpy(point[i], p, sizeof p);
            }
        }
    }
}

void make_glass(network *net, size_t centres)
{
    static size_t point[MOST_ATOMS][3];
    spread_points(point, centres);
    network_clear(net, centres);
    for (;;) {
        size_t nearest = ~(size_t)0, a = 0, b = 0;
        for (size_t x = 0; x < centres; x++)
            for (size_t y = x + 1; y < centres; y++)
                if (!net->bonded[x][y] && net->degree[x] < 4 && net->degree[y] < 4 &&
                    square_apart(point[x], point[y]) < nearest)
                    nearest = square_apart(point[x], point[y]), a = x, b = y;
        if (nearest == ~(size_t)0)
            break;
        bond(net, a, b);
    }
    bridge_bonds(net);
}
