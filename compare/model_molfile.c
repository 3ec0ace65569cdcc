/* The model's reader of molfiles: the whole file is cut into lines, and only then judged, rule by rule in the order of
 * the request. A bond is judged against all bonds before it, with no count kept. */
#include "model.h"

enum { HEADER_LINES = 3, BEFORE_ATOMS = 4, COUNTS_COLUMNS = 39, BOND_COLUMNS = 6, VERSION_AT = 34, NO_NUMBER = -1 };

/* A line without its end. */
typedef struct {
    const uint8_t *bytes;
    size_t length;
} line;

/* A file as lines. */
typedef struct {
    line *line;
    size_t count;
} lines;

/* The bonds judged so far, as their lines have them. */
typedef struct {
    int atoms[MOLFILE_BONDS][2];
    size_t count;
} bonds_read;

/* Cuts a file into its lines. */
static lines cut(const uint8_t *file, size_t file_len)
{
    lines all = {malloc((file_len + 1) * sizeof(line)), 0};
    for (size_t start = 0, next; start < file_len; start = next) {
        size_t stop = start;
        while (stop < file_len && file[stop] != '\n')
            stop++;
        next = stop + 1;
        if (stop < file_len && stop > start && file[stop - 1] == '\r')
            stop--;
        all.line[all.count++] = (line){file + start, stop - start};
    }
    return all;
}

/* The number in three columns: so many spaces, then digits only, one at least. */
static int number(const uint8_t *columns)
{
    for (int spaces = 0; spaces < 3; spaces++) {
        int value = 0;
        bool fits = true;
        for (int i = 0; i < 3; i++) {
            bool digit = columns[i] >= '0' && columns[i] <= '9';
            fits = fits && (i < spaces ? columns[i] == ' ' : digit);
            value = i < spaces ? 0 : 10 * value + columns[i] - '0';
        }
        if (fits)
            return value;
    }
    return NO_NUMBER;
}

/* The checks before the bond lines, and the two counts as far as they can be read. */
static int judge_head(const lines *all, size_t table_len, int *atoms, int *bonds)
{
    if (all->count <= HEADER_LINES || all->line[HEADER_LINES].length < COUNTS_COLUMNS)
        return 29;
    const uint8_t *counts = all->line[HEADER_LINES].bytes;
    if (memcmp(counts + VERSION_AT, "V2000", 5) != 0)
        return 30;
    *atoms = number(counts);
    *bonds = number(counts + 3);
    if (*atoms == NO_NUMBER || *bonds == NO_NUMBER)
        return 31;
    if (*atoms < 1 || *atoms > MOST_ATOMS)
        return 22;
    if (table_len < ROW * (size_t)*atoms)
        return 25;
    return all->count < BEFORE_ATOMS + (size_t)*atoms ? 29 : 0;
}

/* How many of the bonds so far are on an atom. */
static size_t bonds_on(const bonds_read *bonds, int atom)
{
    size_t on = 0;
    for (size_t i = 0; i < bonds->count; i++)
        on += bonds->atoms[i][0] == atom || bonds->atoms[i][1] == atom;
    return on;
}

/* Whether a pair is among the bonds so far, either way round. */
static bool seen(const bonds_read *bonds, int x, int y)
{
    for (size_t i = 0; i < bonds->count; i++) {
        const int *pair = bonds->atoms[i];
        if ((pair[0] == x && pair[1] == y) || (pair[0] == y && pair[1] == x))
            return true;
    }
    return false;
}

/* The checks of the next bond, which joins the others if it has no fault. */
static int judge_bond(const lines *all, int atoms, bonds_read *bonds)
{
    size_t at = BEFORE_ATOMS + (size_t)atoms + bonds->count;
    if (at >= all->count || all->line[at].length < BOND_COLUMNS)
        return 29;
    int x = number(all->line[at].bytes), y = number(all->line[at].bytes + 3);
    if (x == NO_NUMBER || y == NO_NUMBER)
        return 31;
    if (x < 1 || x > atoms || y < 1 || y > atoms || x == y || seen(bonds, x, y))
        return 32;
    if (bonds_on(bonds, x) >= ROW || bonds_on(bonds, y) >= ROW)
        return 27;
    bonds->atoms[bonds->count][0] = x;
    bonds->atoms[bonds->count][1] = y;
    bonds->count++;
    return 0;
}

/* The table that the bonds define. */
static void fill_table(int atoms, const bonds_read *bonds, uint16_t *table)
{
    static network net;
    memset(&net, 0, sizeof net);
    net.atoms = (size_t)atoms;
    for (size_t i = 0; i < bonds->count; i++) {
        int x = bonds->atoms[i][0] - 1, y = bonds->atoms[i][1] - 1;
        net.bonded[x][y] = net.bonded[y][x] = true;
    }
    network_table(&net, table);
}

rings_reading model_read_molfile(const uint8_t *file, size_t file_len, uint16_t *table, size_t table_len)
{
    static bonds_read read;
    rings_reading result;
    int atoms = 0, bonds = 0;
    memset(&result, 0, sizeof result);
    lines all = cut(file, file_len);
    int code = judge_head(&all, table_len, &atoms, &bonds);
    if (code != 0) {
        result.value = code == 22 ? atoms : 0;
    } else {
        read.count = 0;
        while (code == 0 && read.count < (size_t)bonds)
            code = judge_bond(&all, atoms, &read);
        result.answer.place = code == 0 ? 0 : read.count;
    }
    result.answer.code = (uint8_t)code;
    if (code == 0) {
        result.atoms = (size_t)atoms;
        result.bonds = (size_t)bonds;
        fill_table(atoms, &read, table);
    }
    free(all.line);
    return result;
}
