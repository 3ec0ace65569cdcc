/* Cases of tables that are damaged, random, or lent with wrong sizes. */
#include "cases.h"
#include "random.h"
#include "report.h"

enum { ROOM = MOST_ATOMS * ROW + 64, WIDE = MOST_ATOMS * MOST_ATOMS + 2, LONGEST = HEAD + BOND * MOST_BONDS };

/* A word to spoil a table with. */
static uint16_t bad_word(size_t n)
{
    switch (random_below(4)) {
    case 0:
        return FREE;
    case 1:
        return (uint16_t)(n + random_below(3));
    case 2:
        return (uint16_t)random_below(65536);
    default:
        return (uint16_t)random_below(n);
    }
}

/* Damages a table: a word changed, two places exchanged, a place repeated, or a bond taken out of one row. */
static void damage(size_t n, uint16_t *words)
{
    size_t row = random_below(n), place = random_below(ROW), other = random_below(ROW);
    uint16_t *r = words + row * ROW, kept = r[place];
    switch (random_below(5)) {
    case 0:
        r[place] = bad_word(n);
        break;
    case 1:
        r[place] = r[other];
        r[other] = kept;
        break;
    case 2:
        r[place] = r[other];
        break;
    case 3:
        r[place] = (uint16_t)row;
        break;
    default:
        for (size_t i = place; i + 1 < ROW; i++)
            r[i] = r[i + 1];
        r[ROW - 1] = FREE;
        break;
    }
}

/* Every call that checks the table, with sizes as they must be. */
static void try_all(table_lent t)
{
    uint16_t names[MOST_ATOMS], atoms[3];
    size_t square = t.n * t.n;
    random_order(names, t.n);
    for (int i = 0; i < 3; i++)
        atoms[i] = (uint16_t)random_below(t.n + 1);
    try_validate(t);
    try_distances(t, square);
    try_test(t, atoms, random_below(4), square);
    try_count(t, LEAST_LENGTH, MOST_RINGS, square);
    try_list(t, LEAST_LENGTH, MOST_RINGS, square, random_below(100));
    if (random_once_in(2))
        names[random_below(t.n)] = (uint16_t)random_below(t.n + 1);
    if (random_once_in(4))
        names[random_below(t.n)] = FREE;
    try_renumber(t, names, t.n, t.length);
    try_write(t, random_once_in(2) ? LONGEST : random_below(100));
    tally.tables++;
}

void case_damaged_table(const network *net)
{
    static uint16_t words[ROOM];
    network_table(net, words);
    for (size_t times = random_from(1, 3); times > 0; times--)
        damage(net->atoms, words);
    try_all((table_lent){net->atoms, words, ROW * net->atoms});
}

void case_random_table(void)
{
    static uint16_t words[ROOM];
    size_t n = random_from(1, 5), filled = random_below(4);
    for (size_t x = 0; x < n; x++) {
        size_t place = 0;
        for (size_t y = 0; y < n; y++)
            if (random_below(3) < filled && (x != y || random_once_in(20)))
                words[x * ROW + place++] = (uint16_t)y;
        while (place < ROW)
            words[x * ROW + place++] = random_once_in(40) ? (uint16_t)random_below(n + 1) : FREE;
    }
    try_all((table_lent){n, words, ROW * n});
}

/* A value now and then wrong: beside what is right, at an edge, or far off. */
static size_t perhaps(size_t right, size_t edge)
{
    static const size_t far[] = {0, 1, 2, 25, 251, 65536, (size_t)1 << 32, ((size_t)1 << 61) + 1, ~(size_t)0};
    if (!random_once_in(5))
        return right;
    switch (random_below(4)) {
    case 0:
        return right + 1;
    case 1:
        return right > 0 ? right - 1 : 0;
    case 2:
        return edge;
    default:
        return far[random_below(sizeof far / sizeof *far)];
    }
}

/* A length now and then wrong, at most `most`. */
static size_t perhaps_length(size_t right, size_t most)
{
    size_t length = perhaps(right, right / 2);
    return length > most ? most : length;
}

void case_wrong_sizes(const network *net)
{
    static uint16_t words[ROOM], names[MOST_ATOMS + 2], atoms[MOST_LENGTH + 2];
    size_t n = net->atoms, square = n * n;
    network_table(net, words);
    if (random_once_in(3))
        damage(n, words);
    random_order(names, n);
    for (size_t i = 0; i < MOST_LENGTH + 2; i++)
        atoms[i] = (uint16_t)random_below(n);
    for (int times = 0; times < 3; times++) {
        table_lent t = {perhaps(n, MOST_ATOMS + 1), words, 0};
        t.length = perhaps_length(random_once_in(4) && t.n <= MOST_ATOMS ? ROW * t.n : ROW * n, ROOM);
        size_t dist = perhaps_length(random_once_in(4) && t.n <= MOST_ATOMS ? t.n * t.n : square, WIDE);
        size_t limit = perhaps(LEAST_LENGTH, MOST_LENGTH + 1), allowance = perhaps(MOST_RINGS, 0);
        limit = limit == 0 || (limit > LEAST_LENGTH && limit <= MOST_LENGTH) ? LEAST_LENGTH : limit;
        try_validate(t);
        try_distances(t, dist);
        try_test(t, atoms, random_below(MOST_LENGTH + 2), dist);
        try_count(t, limit, allowance, dist);
        try_list(t, limit, allowance, dist, random_below(200));
        try_renumber(t, names, perhaps_length(n, MOST_ATOMS + 1), perhaps_length(ROW * n, ROOM));
        try_write(t, perhaps_length(LONGEST, LONGEST + 100));
    }
    tally.tables++;
}
