/* Laws of reading molfiles, on the library's answers alone. */
#include "cases.h"
#include "molfiles.h"
#include "random.h"
#include "report.h"

enum { TABLE = MOST_ATOMS * ROW };

/* What the library makes of a file: its answer, and the whole of a table that was lent with the same words before. */
typedef struct {
    rings_reading answer;
    uint16_t table[TABLE];
} reading;

static reading one, other;
static molfile file, changed;

static void read_molfile(const molfile *from, reading *to)
{
    memset(to->table, 0x5a, sizeof to->table);
    to->answer = rings_read_molfile(from->bytes, from->length, to->table, TABLE);
}

/* Ends the run unless the two readings are the same. */
static void must_agree(const char *law)
{
    const rings_reading *a = &one.answer, *b = &other.answer;
    if (a->answer.code != b->answer.code || a->answer.row != b->answer.row || a->answer.place != b->answer.place ||
        a->atoms != b->atoms || a->bonds != b->bonds || a->value != b->value ||
        memcmp(one.table, other.table, sizeof one.table) != 0)
        report_law(law);
    tally.molfiles.laws++;
}

/* The file at hand without any CR, and the same with a CR before some of its LF, or before all. */
static void law_of_line_ends(void)
{
    size_t often = random_from(1, 3), length = 0;
    for (size_t i = 0; i < file.length; i++)
        if (file.bytes[i] != '\r')
            file.bytes[length++] = file.bytes[i];
    file.length = length;
    changed.length = 0;
    for (size_t i = 0; i < file.length; i++) {
        if (file.bytes[i] == '\n' && random_once_in(often))
            molfile_add(&changed, "\r");
        molfile_add_bytes(&changed, file.bytes + i, 1);
    }
    read_molfile(&file, &one);
    read_molfile(&changed, &other);
    must_agree("LF for CR LF gives the same answer");
}

/* Changes a byte of the file at hand, or takes the last one of some line away. */
static void damage(void)
{
    size_t at = random_below(file.length), end = at;
    while (end < file.length && file.bytes[end] != '\n')
        end++;
    if (random_once_in(3)) {
        file.bytes[at] = (uint8_t)random_below(256);
    } else if (end > 0) {
        for (size_t i = end; i < file.length; i++)
            file.bytes[i - 1] = file.bytes[i];
        file.length--;
    }
}

/* What was read last as `one`, written as a network file and read again. */
static void law_of_writing(void)
{
    static uint8_t written[RINGS_FILE_BYTES(RINGS_BONDS)];
    size_t n = one.answer.atoms;
    rings_written answer = rings_write(n, one.table, RINGS_TABLE_WORDS(n), written, sizeof written);
    if (answer.answer.code != 0)
        report_law("what is read can be written as a network file");
    memset(other.table, 0x5a, sizeof other.table);
    other.answer = rings_read(written, answer.bytes, other.table, TABLE);
    must_agree("written as a network file and read again, the table is the same");
}

void case_molfile_laws(const network *net)
{
    static connections said;
    connections_of(net, &said);
    molfile_saved(&said, &file);
    read_molfile(&file, &one);
    connections_shuffle(&said);
    molfile_in_any_layout(&said, &changed);
    read_molfile(&changed, &other);
    must_agree("bond lines in another order, with atoms exchanged, in any layout, give the same table");
    law_of_writing();
    law_of_line_ends();
    file = changed;
    for (size_t times = random_from(1, 3); times > 0; times--)
        damage();
    law_of_line_ends();
}
