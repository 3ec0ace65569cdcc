/* Cases of molfiles: in any layout, damaged, and with any bonds. */
#include "cases.h"
#include "molfiles.h"
#include "random.h"
#include "report.h"

enum { TABLE = MOST_ATOMS * ROW };

static connections said;
static molfile file;

/* Reads the file at hand into tables on both sides of what n atoms need, and reports it. */
static void try_file(size_t n)
{
    try_read_molfile(file.bytes, file.length, ROW * n);
    try_read_molfile(file.bytes, file.length, random_once_in(2) ? ROW * n + 5 : TABLE);
    try_read_molfile(file.bytes, file.length, random_once_in(2) && n > 0 ? ROW * n - 1 : random_below(ROW * n + 1));
    if (random_once_in(2))
        try_report_molfile(file.bytes, file.length, RINGS_REPORT_BYTES + random_below(50));
    if (random_once_in(8))
        try_report_molfile(file.bytes, file.length, random_once_in(2) ? RINGS_REPORT_BYTES - 1 : random_below(200));
}

void case_molfile(const network *net)
{
    connections_of(net, &said);
    connections_shuffle(&said);
    molfile_in_any_layout(&said, &file);
    if (model_read_molfile(file.bytes, file.length, (uint16_t[TABLE]){0}, TABLE).answer.code != 0)
        report_model("a whole molfile is refused");
    try_file(net->atoms);
}

/* A place in the file at hand: near its beginning, near its end, or anywhere. */
static size_t any_place(void)
{
    size_t near = file.length < 200 ? file.length : 200;
    switch (random_below(3)) {
    case 0:
        return random_below(near);
    case 1:
        return file.length - 1 - random_below(near);
    default:
        return random_below(file.length);
    }
}

/* A byte that may matter, or any. */
static uint8_t any_byte(void)
{
    static const char telling[] = "  \n\n\r\t0123456789-+V";
    return (uint8_t)(random_once_in(4) ? random_below(256) : (size_t)telling[random_below(sizeof telling - 1)]);
}

/* Puts `more` bytes in place of the `fewer` from a place on. */
static void replace(size_t at, size_t fewer, const uint8_t *more, size_t count)
{
    static uint8_t after[MOLFILE_ROOM];
    size_t left = file.length - at - fewer;
    memcpy(after, file.bytes + at + fewer, left);
    file.length = at;
    molfile_add_bytes(&file, more, count);
    molfile_add_bytes(&file, after, left);
}

/* The place where the line around a place begins, and its length with its end. */
static size_t line_around(size_t at, size_t *length)
{
    size_t from = at, to = at;
    while (from > 0 && file.bytes[from - 1] != '\n')
        from--;
    while (to < file.length && file.bytes[to] != '\n')
        to++;
    *length = (to < file.length ? to + 1 : to) - from;
    return from;
}

/* Takes a line out, doubles it, or puts a copy of it in front of another. */
static void damage_line(void)
{
    uint8_t copy[1000];
    size_t length, beside, at = line_around(any_place(), &length), other = line_around(any_place(), &beside);
    if (length > sizeof copy)
        return;
    memcpy(copy, file.bytes + at, length);
    switch (random_below(3)) {
    case 0:
        replace(at, length, copy, 0);
        break;
    case 1:
        replace(at, 0, copy, length);
        break;
    default:
        replace(other, 0, copy, length);
        break;
    }
}

/* Damages the file at hand in one place. */
static void damage(void)
{
    uint8_t byte = any_byte();
    if (file.length == 0)
        return;
    switch (random_below(6)) {
    case 0:
        file.bytes[any_place()] = byte;
        break;
    case 1:
        file.bytes[any_place()] ^= (uint8_t)(1u << random_below(8));
        break;
    case 2:
        replace(any_place(), 1, &byte, 0);
        break;
    case 3:
        replace(any_place(), 0, &byte, 1);
        break;
    case 4:
        damage_line();
        break;
    default:
        file.length = random_once_in(3) ? any_place() : file.length;
        break;
    }
}

void case_damaged_molfile(const network *net)
{
    connections_of(net, &said);
    connections_shuffle(&said);
    if (random_once_in(2))
        molfile_saved(&said, &file);
    else
        molfile_in_any_layout(&said, &file);
    for (size_t times = random_from(1, 3); times > 0; times--)
        damage();
    try_file(net->atoms);
}

/* Says the bonds between some of n atoms, in any order: as many as there are pairs, or fewer. */
static void say_some_pairs(size_t n)
{
    said.bonds = 0;
    for (uint16_t x = 1; x <= n; x++)
        for (uint16_t y = (uint16_t)(x + 1); y <= n; y++) {
            said.bond[said.bonds][0] = x;
            said.bond[said.bonds++][1] = y;
        }
    connections_shuffle(&said);
    said.bonds = random_once_in(4) ? said.bonds : random_below(said.bonds + 1);
}

/* Spoils one bond: an atom that is none of the model's, both atoms the same, or another bond's pair. */
static void spoil_bond(size_t n)
{
    const size_t none[] = {0, n + 1, random_below(1000)};
    uint16_t *bond = said.bond[random_below(said.bonds)], *other = said.bond[random_below(said.bonds)];
    size_t place = random_below(2);
    switch (random_below(3)) {
    case 0:
        bond[place] = (uint16_t)none[random_below(3)];
        break;
    case 1:
        bond[place] = bond[1 - place];
        break;
    default:
        bond[place] = other[0], bond[1 - place] = other[1];
        break;
    }
}

void case_random_molfile(void)
{
    static const size_t edges[] = {0, 1, 249, 250, 251, 256, 999};
    size_t n = random_from(2, 24);
    say_some_pairs(n);
    for (size_t times = random_below(3); times > 0 && said.bonds > 0; times--)
        spoil_bond(n);
    said.atoms = random_once_in(6) ? edges[random_below(7)] : n;
    molfile_in_any_layout(&said, &file);
    if (random_once_in(4))
        damage();
    try_file(said.atoms <= MOST_ATOMS ? said.atoms : MOST_ATOMS);
}
