/* The shortest-path rings of a bond network (Franzblau, Phys. Rev. B 44, 4925), for C and for every
 * language that calls C. Link with librings_c.a, which holds the proved functions behind these names.
 *
 * A network is a bond table that the caller lends: atoms are 0 to n - 1, and each has a row of
 * RINGS_PLACES words. A row holds the atom's neighbours first, strictly ascending, then RINGS_FREE in
 * every place left. No atom neighbours itself, and each bond stands in the rows of both its atoms.
 *
 * Every call takes lent buffers as pointer and length (a count of words or bytes, as the type says),
 * keeps none of them and allocates nothing. Any arguments may be passed: what cannot be answered is
 * refused by number (see rings_refusal). The one thing a caller must see to is that each pointer has
 * the length that stands beside it, is aligned for its type and is not null, not even at length 0, and
 * that no buffer that a call fills overlaps another of the same call. */
#ifndef RINGS_H
#define RINGS_H

/* The fixed-width types: from the C headers, and from the compiler itself where there are none. */
#if defined(__has_include)
#if __has_include(<stdint.h>) && __has_include(<stddef.h>) && __has_include(<stdbool.h>)
#define RINGS_HAS_HEADERS 1
#endif
#else
#define RINGS_HAS_HEADERS 1
#endif
#ifdef RINGS_HAS_HEADERS
#include <stdbool.h>
#include <stddef.h>
#include <stdint.h>
#else
typedef __SIZE_TYPE__ size_t;
typedef __UINT8_TYPE__ uint8_t;
typedef __UINT16_TYPE__ uint16_t;
typedef __UINT32_TYPE__ uint32_t;
typedef __INT32_TYPE__ int32_t;
#if !defined(__cplusplus) && !defined(bool) && !(defined(__STDC_VERSION__) && __STDC_VERSION__ >= 202311L)
#define bool _Bool
#endif
#endif

#ifdef __cplusplus
extern "C" {
#endif

/* The maxima. */
#define RINGS_ATOMS 250         /* most atoms of a network */
#define RINGS_PLACES 8          /* places in an atom's row */
#define RINGS_BONDS 1000        /* most bonds of a network */
#define RINGS_LEAST 3           /* least length of a ring, and least limit */
#define RINGS_LENGTH 24         /* greatest length of a ring, and greatest limit */
#define RINGS_DEFAULT_LIMIT 12  /* the limit that 0 stands for */
#define RINGS_ALLOWANCE 1000000 /* greatest allowance of rings */

/* The words with a meaning of their own. */
#define RINGS_FREE 65535  /* a free place in a row */
#define RINGS_NO_PATH 255 /* no path, in the distance buffer */

/* The sizes to lend, in words or bytes of the buffer's type. */
#define RINGS_TABLE_WORDS(n) ((size_t)(n) * RINGS_PLACES)           /* a bond table, exactly */
#define RINGS_DISTANCE_BYTES(n) ((size_t)(n) * (size_t)(n))         /* a distance buffer, exactly */
#define RINGS_LIST_WORDS(rings) ((size_t)(rings) * (RINGS_LENGTH + 1)) /* enough for that many rings */
#define RINGS_REPORT_BYTES 165121                                   /* enough for the report of any file */
#define RINGS_FILE_BYTES(bonds) (9 + (size_t)(bonds) * 4)           /* a network file, exactly */

/* The code of an answer: 0, or the number of the refusal. */
enum rings_refusal {
    RINGS_ACCEPTED = 0,               /* The call was accepted. */
    RINGS_REFUSED_ATOMS = 1,          /* n is not 1 to RINGS_ATOMS. */
    RINGS_REFUSED_LIMIT = 2,          /* The limit is neither 0 nor RINGS_LEAST to RINGS_LENGTH. */
    RINGS_REFUSED_ALLOWANCE = 3,      /* The allowance is not 1 to RINGS_ALLOWANCE. */
    RINGS_REFUSED_TABLE = 4,          /* The table is not RINGS_TABLE_WORDS(n) words. */
    RINGS_REFUSED_DISTANCE = 5,       /* The distance buffer is not RINGS_DISTANCE_BYTES(n) bytes. */
    RINGS_REFUSED_RENUMBERING = 6,    /* The names are not n words, or the new table not RINGS_TABLE_WORDS(n). */
    RINGS_REFUSED_WORD = 7,           /* A word of the table is neither RINGS_FREE nor below n. */
    RINGS_REFUSED_AFTER_FREE = 8,     /* A neighbour stands after a free place. */
    RINGS_REFUSED_OWN = 9,            /* An atom neighbours itself. */
    RINGS_REFUSED_ORDER = 10,         /* A neighbour is not above the one before it. */
    RINGS_REFUSED_UNANSWERED = 11,    /* A bond stands in one row and not in the other. */
    RINGS_REFUSED_TOO_MANY = 12,      /* There are more rings within the limit than the allowance. */
    RINGS_REFUSED_LIST = 13,          /* The list buffer is shorter than the words needed. */
    RINGS_REFUSED_RING_LENGTH = 14,   /* The candidate's length is not RINGS_LEAST to RINGS_LENGTH. */
    RINGS_REFUSED_RING_ATOM = 15,     /* An atom of the candidate is not below n. */
    RINGS_REFUSED_RING_TWICE = 16,    /* An atom of the candidate was seen earlier in it. */
    RINGS_REFUSED_RING_BOND = 17,     /* An atom of the candidate is not bonded to the next (the last to the first). */
    RINGS_REFUSED_NAME = 18,          /* A name is not below n, or was seen earlier. */
    RINGS_REFUSED_SHORT_FILE = 19,    /* The file is under 9 bytes. */
    RINGS_REFUSED_MARK = 20,          /* The file does not start with "BNW". */
    RINGS_REFUSED_VERSION = 21,       /* The file's version is not 1. */
    RINGS_REFUSED_FILE_ATOMS = 22,    /* The file's atom count is not 1 to RINGS_ATOMS. */
    RINGS_REFUSED_FILE_BONDS = 23,    /* The file's bond count is not 0 to RINGS_BONDS. */
    RINGS_REFUSED_FILE_LENGTH = 24,   /* The file is not RINGS_FILE_BYTES(bonds) bytes. */
    RINGS_REFUSED_READ_TABLE = 25,    /* The table lent to the reader is under RINGS_TABLE_WORDS(n) words. */
    RINGS_REFUSED_FILE_BOND = 26,     /* A bond's atom is not below the atom count, its first atom not below its
                                         second, or the bond not after the previous one. */
    RINGS_REFUSED_NINTH_BOND = 27,    /* A bond is the ninth on one of its atoms. */
    RINGS_REFUSED_FILE_BUFFER = 28,   /* The byte buffer lent to the writer is too short. */
    RINGS_REFUSED_MOLFILE_LINE = 29,  /* A line of the molfile is missing, or too short for its columns. */
    RINGS_REFUSED_MOLFILE_MARK = 30,  /* The molfile's counts line has no "V2000" in columns 35 to 39. */
    RINGS_REFUSED_NUMBER_COLUMN = 31, /* A number column of the molfile is not blanks followed by at least one digit. */
    RINGS_REFUSED_MOLFILE_BOND = 32   /* A bond line's atom is 0 or above the atom count, its two atoms are the same, or
                                         the pair was seen earlier, in either direction. */
};

/* What every call answers: the code, and for some refusals where the fault lies.
 * 7 to 11: row and place in the table of the first fault. 15 to 17: row 0 and the place in the candidate.
 * 18: row 0 and the place in the names. 26 and 27, and in the bond lines of a molfile 29, 31 and 32: row 0 and the
 * bond's number in the file, from 0.
 * Everything else: 0 and 0. In a refused call every other number returned is 0, but for `value` at 22 and 23. */
typedef struct {
    uint8_t code;
    size_t row;
    size_t place;
} rings_answer;

/* What counting and listing answer. */
typedef struct {
    rings_answer answer;
    size_t limit;                      /* the limit used */
    uint32_t counts[RINGS_LENGTH + 1]; /* counts[k]: the rings of length k */
    uint32_t total;                    /* all rings within the limit */
    size_t words;                      /* the list's length in words: k + 1 for a ring of length k */
    double per_atom;                   /* rings per atom, total / n */
    bool has_mean;                     /* whether there are rings, and so a mean length */
    double mean;                       /* the mean ring length, the sum of the lengths / total; +0.0 without rings */
} rings_census;

/* What the test of one candidate answers. */
typedef struct {
    rings_answer answer;
    bool yes;      /* whether the candidate is a shortest-path ring */
    size_t first;  /* where it is not: the first pair of its places, by first and then second, */
    size_t second; /*   that is nearer in the network than round the ring; otherwise 0 and 0 */
    uint16_t writing[RINGS_LENGTH]; /* where it is: its one writing, smallest atom first, second below last, then
                                       zeros; otherwise zeros */
} rings_candidate;

/* What the two readers answer. */
typedef struct {
    rings_answer answer;
    size_t atoms;  /* the file's atoms */
    size_t bonds;  /* the file's bonds */
    int32_t value; /* the count that 22 or 23 refused, with its sign; otherwise 0 */
} rings_reading;

/* What the writer answers. */
typedef struct {
    rings_answer answer;
    size_t bytes; /* the bytes written */
} rings_written;

/* Judges a bond table.
 * Checks, in this order: 1, 4, then 7 to 10 place by place (rows ascending, places ascending; the smallest
 * number where a place has several faults), then 11 in the same order. Fills nothing. */
rings_answer rings_validate(size_t n, const uint16_t *table, size_t table_len);

/* The distance table: dist[x * n + y] is the least number of bonds on a path from x to y, 0 from an atom
 * to itself, RINGS_NO_PATH where there is none.
 * Checks: 1, 4, 5, 7 to 10 place by place, 11. Fills dist; a refusal leaves it as it was. */
rings_answer rings_distances(size_t n, const uint16_t *table, size_t table_len, uint8_t *dist, size_t dist_len);

/* Tests whether the atoms of `ring`, in their order, are a shortest-path ring: one in which every pair is
 * as far apart in the network as the shorter way round.
 * Checks: 1, 4, 5, 7 to 10 place by place, 11, 14, then 15 over all places, 16 over all (it names the later
 * occurrence), 17 over all (place i is the bond to place i + 1, the last place the bond to the first).
 * Fills dist with the distance table, at yes and at no; a refusal leaves it as it was. */
rings_candidate rings_test(size_t n, const uint16_t *table, size_t table_len, const uint16_t *ring, size_t ring_len,
                           uint8_t *dist, size_t dist_len);

/* Counts the shortest-path rings of 3 to `limit` atoms (limit 0: RINGS_DEFAULT_LIMIT).
 * Checks: 1, 2, 3, 4, 5, 7 to 10 place by place, 11, 12. Fills dist with the distance table, also at 12; any
 * other refusal leaves it as it was. */
rings_census rings_count(size_t n, const uint16_t *table, size_t table_len, size_t limit, size_t allowance,
                         uint8_t *dist, size_t dist_len);

/* Lists the same rings: for each its length k and then its k atoms in its one writing; shorter rings first,
 * equal lengths by the first atom that differs.
 * Checks: as rings_count, then 13. Fills dist as rings_count does, also at 12 and 13, and the first `words`
 * words of list; the rest of list, and after any refusal all of it, stays as it was. */
rings_census rings_list(size_t n, const uint16_t *table, size_t table_len, size_t limit, size_t allowance,
                        uint8_t *dist, size_t dist_len, uint16_t *list, size_t list_len);

/* The table of the same network after atom i is named names[i]; its rows ascend.
 * Checks: 1, 4, 6, 7 to 10 place by place, 11, 18 (the first place with either cause). Fills renamed, of
 * RINGS_TABLE_WORDS(n) words; a refusal leaves it as it was. */
rings_answer rings_renumber(size_t n, const uint16_t *table, size_t table_len, const uint16_t *names, size_t names_len,
                            uint16_t *renamed, size_t renamed_len);

/* Reads a network file: "BNW", version, atom count and bond count (16 bits each, little-endian, the counts
 * signed), then each bond as two 16-bit atoms, smaller first, bonds ascending by first and then second.
 * Checks: 19 to 25 in this order, then 26 and 27 bond by bond. Fills the first RINGS_TABLE_WORDS(atoms)
 * words of table; the rest, and after a refusal all of it, stays as it was. RINGS_TABLE_WORDS(RINGS_ATOMS)
 * words are enough for any file. */
rings_reading rings_read(const uint8_t *file, size_t file_len, uint16_t *table, size_t table_len);

/* Reads a molfile (V2000): three header lines of any length; a counts line of at least 39 bytes, with the atom count
 * in columns 1 to 3, the bond count in 4 to 6 and "V2000" in 35 to 39; a line of any length for each atom; a line of at
 * least 6 bytes for each bond, its atoms in columns 1 to 3 and 4 to 6, numbered from 1. All else, and all after the
 * bond lines, is skipped. The bonds may come in any order, their atoms in either; the table is the one they define.
 * A line ends in LF, or lacks its end as the last of the file; one CR directly before LF is no part of it, any other
 * CR is a byte like others; nothing after the last LF is no line. Columns are bytes, from 1. A number column is spaces,
 * then at least one digit, to the end of its three columns: "007" and "  0" are numbers, "7  " and " -1" are not.
 * Checks: 29 for the header and counts lines, 30, 31 for atoms and then bonds, 22, 25, 29 for a missing atom line; then
 * bond by bond 29, 31, 32, 27. 23 is not given: any bond count from 0 to 999 is taken. `value` is the atom count at 22.
 * Fills table as rings_read does. */
rings_reading rings_read_molfile(const uint8_t *file, size_t file_len, uint16_t *table, size_t table_len);

/* Writes a network as a file, exactly as rings_read reads it.
 * Checks: 1, 4, 7 to 10 place by place, 11, 28. Fills the first `bytes` bytes of file; the rest, and after a
 * refusal all of it, stays as it was. RINGS_FILE_BYTES(RINGS_BONDS) bytes are enough for any network. */
rings_written rings_write(size_t n, const uint16_t *table, size_t table_len, uint8_t *file, size_t file_len);

/* What the listing program prints for a network file, and its length in bytes: a line `refused CODE ROW PLACE`, or atoms
 * and bonds, a line for each ring at limit 0, the counts by length, the total. 12 (more than RINGS_ALLOWANCE rings) and 13
 * (a list of more than 32,768 words) are refused too. No zero byte follows the text.
 * Fills the first bytes of out; the rest stays as it was. Where out_len is under RINGS_REPORT_BYTES it fills nothing and
 * answers 0. */
size_t rings_report(const uint8_t *file, size_t file_len, uint8_t *out, size_t out_len);

/* The same for a molfile. The call takes all of file; the listing program for molfiles lends it the first 1,048,576 bytes
 * of what it reads. */
size_t rings_report_molfile(const uint8_t *file, size_t file_len, uint8_t *out, size_t out_len);

#ifdef __cplusplus
}
#endif

#endif
