/* The model's tables: the first fault, the network that a table shows, and distances. */
#include "model.h"

/* The number of the fault at one place, 7 to 10, or 0: each cause as the outline words it, smallest first. */
static int fault_at(size_t n, const uint16_t *row, size_t atom, size_t place)
{
    uint16_t word = row[place];
    if (word != FREE && word >= n)
        return 7;
    if (word == FREE)
        return 0;
    for (size_t earlier = 0; earlier < place; earlier++)
        if (row[earlier] == FREE)
            return 8;
    if (word == atom)
        return 9;
    if (place > 0 && word <= row[place - 1])
        return 10;
    return 0;
}

/* Whether an atom stands in a row. */
static bool stands_in(const uint16_t *row, size_t atom)
{
    for (size_t place = 0; place < ROW; place++)
        if (row[place] == atom)
            return true;
    return false;
}

rings_answer model_faults(size_t n, const uint16_t *table)
{
    for (size_t x = 0; x < n; x++)
        for (size_t place = 0; place < ROW; place++) {
            int number = fault_at(n, table + x * ROW, x, place);
            if (number != 0)
                return (rings_answer){(uint8_t)number, x, place};
        }
    for (size_t x = 0; x < n; x++)
        for (size_t place = 0; place < ROW; place++) {
            uint16_t y = table[x * ROW + place];
            if (y != FREE && !stands_in(table + (size_t)y * ROW, x))
                return (rings_answer){11, x, place};
        }
    return (rings_answer){0, 0, 0};
}

/* Breadth first from one atom: its distance to every other. */
static void spread(network *net, size_t from)
{
    uint16_t queue[MOST_ATOMS];
    size_t head = 0, tail = 0;
    for (size_t y = 0; y < net->atoms; y++)
        net->apart[from][y] = UNREACHED;
    net->apart[from][from] = 0;
    queue[tail++] = (uint16_t)from;
    while (head < tail) {
        uint16_t x = queue[head++];
        for (size_t i = 0; i < net->degree[x]; i++) {
            uint16_t y = net->neighbour[x][i];
            if (net->apart[from][y] == UNREACHED) {
                net->apart[from][y] = (uint16_t)(net->apart[from][x] + 1);
                queue[tail++] = y;
            }
        }
    }
}

void network_complete(network *net)
{
    for (size_t x = 0; x < net->atoms; x++) {
        net->degree[x] = 0;
        for (size_t y = 0; y < net->atoms; y++)
            if (net->bonded[x][y])
                net->neighbour[x][net->degree[x]++] = (uint16_t)y;
    }
    for (size_t x = 0; x < net->atoms; x++)
        spread(net, x);
}

const network *model_network(size_t n, const uint16_t *table)
{
    static network net;
    static uint16_t shown[MOST_ATOMS * ROW];
    size_t bytes = n * ROW * sizeof(uint16_t);
    if (net.atoms == n && memcmp(shown, table, bytes) == 0)
        return &net;
    memcpy(shown, table, bytes);
    net.atoms = n;
    memset(net.bonded, 0, sizeof net.bonded);
    for (size_t x = 0; x < n; x++)
        for (size_t place = 0; place < ROW; place++)
            if (table[x * ROW + place] != FREE)
                net.bonded[x][table[x * ROW + place]] = true;
    network_complete(&net);
    return &net;
}

void network_table(const network *net, uint16_t *table)
{
    for (size_t x = 0; x < net->atoms; x++) {
        size_t place = 0;
        for (size_t y = 0; y < net->atoms; y++)
            if (net->bonded[x][y])
                table[x * ROW + place++] = (uint16_t)y;
        while (place < ROW)
            table[x * ROW + place++] = FREE;
    }
}
