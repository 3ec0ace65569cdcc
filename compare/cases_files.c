/* Cases of network files: damaged ones and random ones. */
#include "cases.h"
#include "random.h"
#include "report.h"

enum { ROOM = HEAD + BOND * (MOST_BONDS + 100), TABLE = MOST_ATOMS * ROW };

/* Sets two bytes of a file to a number, lower byte first. */
static void put(uint8_t *file, size_t at, size_t number)
{
    file[at] = (uint8_t)number;
    file[at + 1] = (uint8_t)(number >> 8);
}

/* Damages a count of the head: to an edge or to anything. */
static void damage_count(uint8_t *file)
{
    static const size_t edges[] = {0, 1, 2, 249, 250, 251, 256, 999, 1000, 1001, 32767, 32768, 65535, 65286};
    size_t at = random_once_in(2) ? 5 : 7;
    put(file, at, random_once_in(3) ? random_below(65536) : edges[random_below(sizeof edges / sizeof *edges)]);
}

/* Damages one bond: an atom changed, its atoms exchanged, or the bond put in another's place. */
static void damage_bond(uint8_t *file, size_t bonds, size_t n)
{
    uint8_t kept[BOND];
    uint8_t *one = file + HEAD + BOND * random_below(bonds), *other = file + HEAD + BOND * random_below(bonds);
    memcpy(kept, one, BOND);
    switch (random_below(5)) {
    case 0:
        put(one, random_once_in(2) ? 0 : 2, random_below(n + 2));
        break;
    case 1:
        put(one, random_once_in(2) ? 0 : 2, random_below(65536));
        break;
    case 2:
        memcpy(one, kept + 2, 2);
        memcpy(one + 2, kept, 2);
        break;
    case 3:
        memcpy(one, other, BOND);
        memcpy(other, kept, BOND);
        break;
    default:
        memcpy(one, other, BOND);
        break;
    }
}

void case_damaged_file(const network *net)
{
    static uint8_t file[ROOM];
    static uint16_t words[TABLE];
    size_t n = net->atoms;
    network_table(net, words);
    size_t length = model_write(n, words, ROW * n, file, ROOM).bytes;
    for (size_t times = random_from(1, 3); times > 0; times--)
        switch (random_below(6)) {
        case 0:
            file[random_below(5)] = (uint8_t)random_below(256);
            break;
        case 1:
            damage_count(file);
            break;
        case 2:
            length = random_once_in(2) ? random_below(length + 1) : length + random_below(6);
            break;
        case 3:
            file[random_below(length + 1)] ^= (uint8_t)(1u << random_below(8));
            break;
        default:
            if (length >= HEAD + BOND)
                damage_bond(file, (length - HEAD) / BOND, n);
            break;
        }
    try_read(file, length, random_once_in(4) ? random_below(ROW * n + 2) : TABLE);
    try_read(file, random_below(12), TABLE);
    try_report(file, length, RINGS_REPORT_BYTES + random_below(50));
    try_report(file, length, random_once_in(2) ? RINGS_REPORT_BYTES - 1 : random_below(200));
}

void case_random_file(void)
{
    static uint8_t file[ROOM];
    size_t n = random_from(2, 40), bonds = 0, often = random_from(1, 12);
    for (size_t x = 0; x < n; x++)
        for (size_t y = x + 1; y < n && bonds < MOST_BONDS; y++)
            if (random_once_in(often)) {
                put(file, HEAD + BOND * bonds, x);
                put(file, HEAD + BOND * bonds + 2, y);
                bonds++;
            }
    memcpy(file, "BNW\1", 5);
    put(file, 5, n);
    put(file, 7, bonds);
    if (bonds > 0 && random_once_in(4))
        damage_bond(file, bonds, n);
    try_read(file, HEAD + BOND * bonds, ROW * n + random_below(3));
    try_report(file, HEAD + BOND * bonds, RINGS_REPORT_BYTES);
}
