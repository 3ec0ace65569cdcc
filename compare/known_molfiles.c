/* The border cases of molfiles: for each the answer that the request gives it. The model must give exactly that, and
 * the library must agree with the model. Then every small damage of a small file, and the cage of examples/molfiles. */
#include "cases.h"
#include "molfiles.h"
#include "random.h"
#include "report.h"

enum { TABLE = MOST_ATOMS * ROW };

/* A file, the words of the table lent for it, and its answer; `atoms` and `bonds` where it is accepted. */
typedef struct {
    const char *name, *text;
    size_t words;
    int code, place, value, atoms, bonds;
} border;

#define HEADER "\n\n\n"
#define COUNTS(counts) HEADER counts "  0  0  0  0  0  0  0  0999 V2000\n"
#define TWO COUNTS("  2  1") "\n\n"                   /* two atoms and one bond, up to its line */
#define THREE(bonds) COUNTS("  3" bonds) "\n\n\n"     /* three atoms, up to the bond lines */
#define TEN(bonds) COUNTS(" 10" bonds) "\n\n\n\n\n\n\n\n\n\n"
#define STAR "  1  2\n  3  1\n  1  4\n  5  1\n  1  6\n  7  1\n  1  8\n  9  1\n" /* eight bonds on atom 1 */

static const border borders[] = {
    /* lines */
    {"an empty file", "", 16, 29, 0, 0, 0, 0},
    {"one LF", "\n", 16, 29, 0, 0, 0, 0},
    {"two header lines", "\n\n", 16, 29, 0, 0, 0, 0},
    {"three header lines", HEADER, 16, 29, 0, 0, 0, 0},
    {"an empty counts line", HEADER "\n", 16, 29, 0, 0, 0, 0},
    {"LF ends", TWO "  1  2\n", 16, 0, 0, 0, 2, 1},
    {"CR LF ends", "\r\n\r\n\r\n  2  1  0  0  0  0  0  0  0  0999 V2000\r\n\r\n\r\n  1  2\r\n", 16, 0, 0, 0, 2, 1},
    {"the last line without its end", TWO "  1  2", 16, 0, 0, 0, 2, 1},
    {"CR at the very end", TWO "  1  2\r", 16, 0, 0, 0, 2, 1},
    {"CR at the very end, in column 6", TWO "  1 2\r", 16, 31, 0, 0, 0, 0},
    {"CR CR LF leaves one CR, in column 6", TWO "  1 2\r\r\n", 16, 31, 0, 0, 0, 0},
    {"CR LF in column 6", TWO "  1 2\r\n", 16, 29, 0, 0, 0, 0},
    {"CR CR LF after the columns", TWO "  1  2\r\r\n", 16, 0, 0, 0, 2, 1},
    {"CR alone is no end", "\n\n\r  2  1  0  0  0  0  0  0  0  0999 V2000\n\n\n  1  2\n", 16, 29, 0, 0, 0, 0},
    {"CR as column 1", HEADER "\r  2  1  0  0  0  0  0  0  0  0999 V2000\n\n\n  1  2\n", 16, 30, 0, 0, 0, 0},
    {"CR for LF between atom lines", COUNTS("  2  0") "\r", 16, 29, 0, 0, 0, 0},
    {"CR as the last atom line", COUNTS("  2  0") "\n\r", 16, 0, 0, 0, 2, 0},
    {"more after the bond lines", TWO "  1  2  1  0\nM  END\n$$$$\n", 16, 0, 0, 0, 2, 1},
    {"a counts line without its end", HEADER "  1  0  0  0  0  0  0  0  0  0999 V2000", 16, 29, 0, 0, 0, 0},
    {"a counts line with its end, no atom line", COUNTS("  1  0"), 16, 29, 0, 0, 0, 0},
    {"an empty atom line", COUNTS("  1  0") "\n", 8, 0, 0, 0, 1, 0},
    {"the last atom line missing", COUNTS("  2  0") "C\n", 16, 29, 0, 0, 0, 0},
    {"the last atom line without its end", COUNTS("  2  0") "C\nC", 16, 0, 0, 0, 2, 0},
    {"the only bond line missing", TWO, 16, 29, 0, 0, 0, 0},
    {"the last bond line missing", THREE("  3") "  1  2\n  2  3\n", 24, 29, 2, 0, 0, 0},
    {"an empty bond line", THREE("  2") "  1  2\n\n", 24, 29, 1, 0, 0, 0},
    {"a bond line of 5 bytes", THREE("  2") "  1  2\n  1 3\n", 24, 29, 1, 0, 0, 0},
    {"a bond line of 6 bytes", THREE("  2") "  1  2\n  1  3\n", 24, 0, 0, 0, 3, 2},
    {"M  END for the last bond line", THREE("  2") "  1  2\nM  END\n", 24, 31, 1, 0, 0, 0},
    /* counts line */
    {"38 bytes, whatever they say", HEADER "  x  y  0  0  0  0  0  0  0  0999 V200\n", 16, 29, 0, 0, 0, 0},
    {"38 bytes and CR LF", HEADER "  1  0  0  0  0  0  0  0  0  0999 V200\r\n\n", 16, 29, 0, 0, 0, 0},
    {"38 bytes and CR CR LF", HEADER "  1  0  0  0  0  0  0  0  0  0999 V200\r\r\n\n", 16, 30, 0, 0, 0, 0},
    {"40 bytes", HEADER "  1  0  0  0  0  0  0  0  0  0999 V20000\n\n", 8, 0, 0, 0, 1, 0},
    {"V2000 a column early", HEADER "  1  0  0  0  0  0  0  0  0  0999V2000 \n\n", 16, 30, 0, 0, 0, 0},
    {"V2000 a column late", HEADER "  1  0  0  0  0  0  0  0  0  0999  V2000\n\n", 16, 30, 0, 0, 0, 0},
    {"V3000", HEADER "  1  0  0  0  0  0  0  0  0  0999 V3000\n\n", 16, 30, 0, 0, 0, 0},
    {"v2000", HEADER "  1  0  0  0  0  0  0  0  0  0999 v2000\n\n", 16, 30, 0, 0, 0, 0},
    {"V200O", HEADER "  1  0  0  0  0  0  0  0  0  0999 V200O\n\n", 16, 30, 0, 0, 0, 0},
    {"30 before 31", HEADER "  x  0  0  0  0  0  0  0  0  0999 V2001\n\n", 16, 30, 0, 0, 0, 0},
    {"30 before 22", HEADER "  0  0  0  0  0  0  0  0  0  0999 V2001\n\n", 16, 30, 0, 0, 0, 0},
    {"anything before V2000", HEADER "  1  0\t\r aaaaaaaaaaaaaaaaaaaaaaaa\x80V2000\n\n", 8, 0, 0, 0, 1, 0},
    /* number columns of the counts line */
    {"7 and blanks", COUNTS("7    0") "\n", 16, 31, 0, 0, 0, 0},
    {"blanks on both sides", COUNTS(" 1   0") "\n", 16, 31, 0, 0, 0, 0},
    {"a plus sign", COUNTS("+12  0") "\n", 16, 31, 0, 0, 0, 0},
    {"a minus sign", COUNTS("-1   0") "\n", 16, 31, 0, 0, 0, 0},
    {"a minus sign before the last column", COUNTS(" -1  0") "\n", 16, 31, 0, 0, 0, 0},
    {"a tab", COUNTS("\t 1  0") "\n", 16, 31, 0, 0, 0, 0},
    {"blank", COUNTS("     0") "\n", 16, 31, 0, 0, 0, 0},
    {"a blank between digits", COUNTS("1 1  0") "\n", 16, 31, 0, 0, 0, 0},
    {"a slash, the byte before 0", COUNTS("  /  0") "\n", 16, 31, 0, 0, 0, 0},
    {"a colon, the byte after 9", COUNTS("  :  0") "\n", 16, 31, 0, 0, 0, 0},
    {"zeros before the digits", COUNTS("001 00") "\n", 8, 0, 0, 0, 1, 0},
    {"a blank and a zero before the digit", COUNTS(" 01000") "\n", 8, 0, 0, 0, 1, 0},
    {"a blank bond count", COUNTS("  1   ") "\n", 16, 31, 0, 0, 0, 0},
    {"a bond count of 0 and blanks", COUNTS("  10  ") "\n", 16, 31, 0, 0, 0, 0},
    {"31 of the bonds before 22", COUNTS("  0  x") "\n", 16, 31, 0, 0, 0, 0},
    /* 22, 25 and what follows them */
    {"no atoms", COUNTS("  0  0"), 16, 22, 0, 0, 0, 0},
    {"no atoms, as 000", COUNTS("000  0"), 16, 22, 0, 0, 0, 0},
    {"251 atoms", COUNTS("251  0"), 16, 22, 0, 251, 0, 0},
    {"999 atoms", COUNTS("999999"), 0, 22, 0, 999, 0, 0},
    {"one word too few, before a missing atom line", COUNTS("  2  0"), 15, 25, 0, 0, 0, 0},
    {"no word", COUNTS("  1  0") "\n", 0, 25, 0, 0, 0, 0},
    {"a missing atom line, with words enough", COUNTS("  2  0") "\n", 16, 29, 0, 0, 0, 0},
    {"250 atoms, and one word too few", COUNTS("250  0"), TABLE - 1, 25, 0, 0, 0, 0},
    {"999 bonds, and the second is missing", COUNTS("  2999") "\n\n  1  2\n", 16, 29, 1, 0, 0, 0},
    /* bond lines */
    {"29 before 31", TWO "x  1\n", 16, 29, 0, 0, 0, 0},
    {"1 and blanks", TWO "1    2\n", 16, 31, 0, 0, 0, 0},
    {"a second number of 2 and blanks", TWO "  12  \n", 16, 31, 0, 0, 0, 0},
    {"numbers without their columns", TWO "1 2 1 0\n", 16, 31, 0, 0, 0, 0},
    {"a tab before a number", TWO "  1\t 2\n", 16, 31, 0, 0, 0, 0},
    {"zeros before the digits of atoms", TWO "001 02\n", 16, 0, 0, 0, 2, 1},
    {"31 before 32", TWO "  0  x\n", 16, 31, 0, 0, 0, 0},
    {"31 before 32, the other way round", TWO "  x  0\n", 16, 31, 0, 0, 0, 0},
    {"atom 0 first", TWO "  0  1\n", 16, 32, 0, 0, 0, 0},
    {"atom 0 second", TWO "  1000\n", 16, 32, 0, 0, 0, 0},
    {"the last atom first", THREE("  1") "  3  2\n", 24, 0, 0, 0, 3, 1},
    {"above the last atom first", THREE("  1") "  4  2\n", 24, 32, 0, 0, 0, 0},
    {"above the last atom second", THREE("  2") "  1  2\n  3  4\n", 24, 32, 1, 0, 0, 0},
    {"atom 999", THREE("  1") "  1999\n", 24, 32, 0, 0, 0, 0},
    {"both the same", THREE("  2") "  1  2\n  3  3\n", 24, 32, 1, 0, 0, 0},
    {"a pair again", THREE("  3") "  1  2\n  2  3\n  1  2\n", 24, 32, 2, 0, 0, 0},
    {"a pair again, the other way round", THREE("  3") "  1  2\n  2  3\n  2  1\n", 24, 32, 2, 0, 0, 0},
    {"a pair again, written otherwise", THREE("  2") "  1  2\n002 01\n", 24, 32, 1, 0, 0, 0},
    {"a pair again after the bonds that count", THREE("  2") "  1  2\n  2  3\n  2  1\n", 24, 0, 0, 0, 3, 2},
    {"eight bonds on an atom", TEN("  8") STAR, 80, 0, 0, 0, 10, 8},
    {"the ninth bond, on its first atom", TEN("  9") STAR "  1 10\n", 80, 27, 8, 0, 0, 0},
    {"the ninth bond, on its second atom", TEN("  9") STAR " 10  1\n", 80, 27, 8, 0, 0, 0},
    {"a bond elsewhere after eight", TEN("  9") STAR " 10  2\n", 80, 0, 0, 0, 10, 9},
    {"27 before 29 of the next bond", TEN(" 10") STAR "  1 10\n", 80, 27, 8, 0, 0, 0},
    {"27 before 31 of the next bond", TEN(" 10") STAR "  1 10\n  x  y\n", 80, 27, 8, 0, 0, 0},
    {"32 before 27: a pair again on a full atom", TEN("  9") STAR "  1  2\n", 80, 32, 8, 0, 0, 0},
    {"32 before 27: a full atom with itself", TEN("  9") STAR "  1  1\n", 80, 32, 8, 0, 0, 0},
    {"32 before 27: a full atom with none of the model's", TEN("  9") STAR "  1 11\n", 80, 32, 8, 0, 0, 0},
    {"29 before 27: a short line on a full atom", TEN("  9") STAR "  1 9\n", 80, 29, 8, 0, 0, 0},
};

static molfile file;
static connections said;

/* Tries the file at hand: the model must give the answer, and the library what the model gives. */
static void try_border(const border *b)
{
    static uint16_t table[TABLE];
    report_case(b->name, 0);
    rings_reading got = model_read_molfile(file.bytes, file.length, table, b->words);
    if (got.answer.code != b->code || got.answer.row != 0 || got.answer.place != (size_t)b->place ||
        got.value != b->value || got.atoms != (size_t)b->atoms || got.bonds != (size_t)b->bonds)
        report_model("a molfile's answer is not the one that the request gives it");
    try_read_molfile(file.bytes, file.length, b->words);
    try_report_molfile(file.bytes, file.length, RINGS_REPORT_BYTES);
}

/* The file that says what is said, with an answer. */
static void try_saved(const char *name, size_t words, int code, int place)
{
    int whole = code == 0 ? 1 : 0;
    molfile_saved(&said, &file);
    try_border(&(border){name, 0, words, code, place, 0, whole * (int)said.atoms, whole * (int)said.bonds});
}

static void try_greatest(void)
{
    connections_greatest(&said);
    try_saved("250 atoms and 999 bonds", TABLE, 0, 0);
    try_saved("250 atoms and 999 bonds, five words more", TABLE + 5, 0, 0);
    try_saved("250 atoms and 999 bonds, a word too few", TABLE - 1, 25, 0);
    said.bond[998][0] = said.bond[0][1], said.bond[998][1] = said.bond[0][0];
    try_saved("the first pair again as the last", TABLE, 32, 998);
    said.atoms = 250, said.bonds = 0;
    try_saved("250 atoms and no bond", TABLE, 0, 0);
}

/* Nine atoms all bonded have eight bonds each; a tenth atom can have none with them. */
static void try_full_rows(void)
{
    said.atoms = 10, said.bonds = 0;
    for (uint16_t x = 1; x <= 9; x++)
        for (uint16_t y = (uint16_t)(x + 1); y <= 9; y++) {
            said.bond[said.bonds][0] = y;
            said.bond[said.bonds++][1] = x;
        }
    try_saved("nine atoms all bonded", 80, 0, 0);
    said.bond[36][0] = 10, said.bond[36][1] = 9, said.bonds = 37;
    try_saved("a tenth atom on one of nine all bonded", 80, 27, 36);
    said.bond[36][0] = 8;
    try_saved("a pair again among nine all bonded", 80, 32, 36);
}

/* Lines of more than 65,536 bytes. */
static void try_long_lines(void)
{
    static char filler[70001];
    memset(filler, '7', sizeof filler - 1);
    file.length = 0;
    molfile_add(&file, filler), molfile_add(&file, "\n\n");
    molfile_add(&file, filler), molfile_add(&file, "\r\n");
    molfile_add(&file, "  2  1                            V2000"), molfile_add(&file, filler), molfile_add(&file, "\n");
    molfile_add(&file, filler), molfile_add(&file, "\n");
    molfile_add(&file, filler), molfile_add(&file, "\n  2  1");
    molfile_add(&file, filler), molfile_add(&file, "\n");
    molfile_add(&file, filler);
    try_border(&(border){"lines of 70,000 bytes", 0, 16, 0, 0, 0, 2, 1});
}

/* A small file cut at every place, and with every byte taken out, doubled, or made another. */
static void try_small_damages(const char *whole)
{
    static const char others[] = " 0123459\n\r\t-+V";
    static molfile small;
    small.length = 0;
    molfile_add(&small, whole);
    report_case("a small molfile, damaged", 0);
    for (size_t at = 0; at <= small.length; at++)
        try_read_molfile(small.bytes, at, 24);
    for (size_t at = 0; at < small.length; at++) {
        for (size_t copies = 0; copies <= 2; copies += 2) {
            file.length = 0;
            molfile_add_bytes(&file, small.bytes, at);
            for (size_t i = 0; i < copies; i++)
                molfile_add_bytes(&file, small.bytes + at, 1);
            molfile_add_bytes(&file, small.bytes + at + 1, small.length - at - 1);
            try_read_molfile(file.bytes, file.length, 24);
        }
        file = small;
        for (size_t i = 0; i < sizeof others - 1; i++) {
            file.bytes[at] = (uint8_t)others[i];
            try_read_molfile(file.bytes, file.length, 24);
        }
    }
}

/* Eight silicons at the corners of a cube, twelve oxygens on its edges: 6 rings of 8 bonds round the faces and 4 of 12
 * round the corners' diagonals. */
static void try_cage(void)
{
    static uint16_t table[TABLE], list[1000];
    static uint8_t dist[20 * 20];
    said.atoms = 20, said.bonds = 0;
    uint16_t oxygen = 9;
    for (uint16_t x = 0; x < 8; x++)
        for (uint16_t digit = 1; digit < 8; digit = (uint16_t)(2 * digit))
            if ((x & digit) == 0) {
                said.bond[said.bonds][0] = (uint16_t)(x + 1), said.bond[said.bonds++][1] = oxygen;
                said.bond[said.bonds][0] = oxygen++, said.bond[said.bonds++][1] = (uint16_t)((x | digit) + 1);
            }
    connections_shuffle(&said);
    try_saved("the cage of eight silicons", 160, 0, 0);
    model_read_molfile(file.bytes, file.length, table, TABLE);
    rings_census found = model_list(20, table, 160, 12, MOST_RINGS, dist, sizeof dist, list, 1000);
    if (found.total != 10 || found.counts[8] != 6 || found.counts[12] != 4)
        report_model("the cage's rings are not 6 of length 8 and 4 of length 12");
}

void known_molfiles(void)
{
    random_start(0);
    for (size_t i = 0; i < sizeof borders / sizeof *borders; i++) {
        file.length = 0;
        molfile_add(&file, borders[i].text);
        try_border(&borders[i]);
    }
    try_greatest();
    try_full_rows();
    try_long_lines();
    try_small_damages(THREE("  3") "  1  2\n  3  2\n  1  3\nM  END\n");
    try_small_damages("a\r\nb\r\nc\r\n  3  2  0     0  0            999 V2000\r\nC\r\nC\r\nC\r\n003  1  1\r\n  2 03");
    try_cage();
}
