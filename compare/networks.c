/* Networks to try: shapes, and random ones made from them. */
#include "networks.h"
#include "random.h"

void network_clear(network *net, size_t n)
{
    memset(net, 0, sizeof *net);
    net->atoms = n;
}

bool bond(network *net, size_t x, size_t y)
{
    if (x == y || net->bonded[x][y] || net->degree[x] == ROW || net->degree[y] == ROW)
        return false;
    net->bonded[x][y] = net->bonded[y][x] = true;
    net->degree[x]++, net->degree[y]++;
    return true;
}

void unbond(network *net, size_t x, size_t y)
{
    if (!net->bonded[x][y])
        return;
    net->bonded[x][y] = net->bonded[y][x] = false;
    net->degree[x]--, net->degree[y]--;
}

void make_cycle(network *net, size_t first, size_t length)
{
    for (size_t i = 0; i < length; i++)
        bond(net, first + i, first + (i + 1) % length);
}

void make_layers(network *net, size_t layers, size_t wide, bool closed)
{
    network_clear(net, layers * wide);
    for (size_t layer = 0; layer + (closed ? 0 : 1) < layers; layer++)
        for (size_t i = 0; i < wide; i++)
            for (size_t j = 0; j < wide; j++)
                bond(net, layer * wide + i, (layer + 1) % layers * wide + j);
}

void make_box(network *net, const size_t size[3], const bool closed[3])
{
    size_t stride[3] = {size[1] * size[2], size[2], 1};
    network_clear(net, size[0] * size[1] * size[2]);
    for (size_t x = 0; x < net->atoms; x++)
        for (int axis = 0; axis < 3; axis++) {
            size_t at = x / stride[axis] % size[axis];
            if (at + 1 < size[axis])
                bond(net, x, x + stride[axis]);
            else if (closed[axis] && size[axis] > 2)
                bond(net, x, x - at * stride[axis]);
        }
}

void make_hypercube(network *net, size_t digits)
{
    network_clear(net, (size_t)1 << digits);
    for (size_t x = 0; x < net->atoms; x++)
        for (size_t digit = 0; digit < digits; digit++)
            bond(net, x, x ^ ((size_t)1 << digit));
}

void make_silica(network *net, size_t centres, size_t bonds)
{
    size_t open[MOST_ATOMS] = {0};
    network_clear(net, centres + bonds);
    for (size_t middle = centres; middle < centres + bonds; middle++)
        for (int tries = 0; tries < 50; tries++) {
            size_t x = random_below(centres), y = random_below(centres);
            if (x == y || open[x] == 4 || open[y] == 4)
                continue;
            open[x]++, open[y]++;
            bond(net, x, middle);
            bond(net, y, middle);
            break;
        }
}

/* Random bonds until the tries are used up; no atom gets more than `most`. */
static void scatter_bonds(network *net, size_t tries, size_t most)
{
    while (tries-- > 0) {
        size_t x = random_below(net->atoms), y = random_below(net->atoms);
        if (net->degree[x] < most && net->degree[y] < most)
            bond(net, x, y);
    }
}

/* A number of atoms, small ones as likely as large ones. */
static size_t random_size(size_t most)
{
    size_t top = random_from(1, most);
    return random_once_in(3) ? random_from(1, top) : random_from(1, top < 24 ? top : 24);
}

/* Cycles, alone or with chords and outside atoms that may cut them short. */
static void make_rings(network *net)
{
    size_t length = random_from(3, 30), outside = random_below(6);
    network_clear(net, length + outside);
    make_cycle(net, 0, length);
    for (size_t x = length; x < length + outside; x++) {
        bond(net, x, random_below(x));
        bond(net, x, random_below(x));
    }
    scatter_bonds(net, random_below(3), ROW);
}

/* Parts that no bond joins. */
static void make_parts(network *net)
{
    network_clear(net, random_from(4, MOST_ATOMS));
    for (size_t first = 0; first < net->atoms;) {
        size_t rest = net->atoms - first, length = random_from(1, rest < 14 ? rest : 14);
        if (length >= 3)
            make_cycle(net, first, length);
        for (size_t tries = random_below(length * 2); tries > 0; tries--)
            bond(net, first + random_below(length), first + random_below(length));
        first += length;
    }
}

/* A row of atoms, the longest distances that there are, with a few more bonds. */
static void make_chain(network *net)
{
    network_clear(net, random_once_in(2) ? MOST_ATOMS : random_size(MOST_ATOMS));
    for (size_t x = 0; x + 1 < net->atoms; x++)
        bond(net, x, x + 1);
    scatter_bonds(net, random_below(4), ROW);
}

/* A box of random sides, at most 250 atoms. */
static void make_random_box(network *net)
{
    size_t size[3] = {random_from(1, 7), random_from(1, 6), random_from(1, 6)};
    while (size[0] * size[1] * size[2] > MOST_ATOMS)
        size[0]--;
    bool closed[3] = {random_once_in(2), random_once_in(2), random_once_in(2)};
    make_box(net, size, closed);
}

/* The same network with its atoms in another order. */
static void shuffle(network *net)
{
    static network old;
    uint16_t order[MOST_ATOMS];
    old = *net;
    random_order(order, net->atoms);
    for (size_t x = 0; x < old.atoms; x++) {
        net->degree[order[x]] = old.degree[x];
        for (size_t y = 0; y < old.atoms; y++)
            net->bonded[order[x]][order[y]] = old.bonded[x][y];
    }
}

/* Takes a few bonds away. */
static void thin(network *net)
{
    for (size_t times = random_below(net->atoms + 1); times > 0; times--)
        unbond(net, random_below(net->atoms), random_below(net->atoms));
}

const char *random_network(network *net)
{
    const char *kind;
    switch (random_below(10)) {
    case 0:
        kind = "random", network_clear(net, random_size(MOST_ATOMS));
        scatter_bonds(net, random_below(net->atoms * 6), random_from(1, ROW));
        break;
    case 1:
        kind = "dense", network_clear(net, random_from(3, 12));
        scatter_bonds(net, random_from(5, 200), ROW);
        break;
    case 2:
        kind = "box", make_random_box(net);
        break;
    case 3: {
        size_t centres = random_from(2, 83);
        kind = "silica", make_silica(net, centres, random_from(centres, 2 * centres));
        break;
    }
    case 4:
        kind = "parts", make_parts(net);
        break;
    case 5:
        kind = "rings", make_rings(net);
        break;
    case 6: {
        size_t wide = random_from(1, 4);
        kind = "layers", make_layers(net, random_from(3, random_once_in(4) ? 62 : 12), wide, random_once_in(2));
        break;
    }
    case 7:
        kind = "hypercube", make_hypercube(net, random_below(8));
        break;
    case 8:
        kind = "chain", make_chain(net);
        break;
    default:
        kind = "full rows", network_clear(net, random_from(9, MOST_ATOMS));
        scatter_bonds(net, net->atoms * 40, ROW);
        break;
    }
    if (random_once_in(2))
        shuffle(net);
    if (random_once_in(4))
        thin(net);
    network_complete(net);
    return kind;
}

void stretched_network(network *net)
{
    size_t joints = random_from(2, 6), stretch = random_from(3, 14), last = joints;
    network_clear(net, MOST_ATOMS);
    for (size_t rows = random_from(joints, joints + 3); rows > 0; rows--) {
        size_t from = random_below(joints), to = random_below(joints);
        for (size_t between = random_below(stretch); between > 0 && last < MOST_ATOMS; between--) {
            bond(net, from, last);
            from = last++;
        }
        bond(net, from, to);
    }
    net->atoms = last;
    shuffle(net);
    network_complete(net);
}
