/* Molfiles to try: as an editor saves them, and in any layout. */
#include "molfiles.h"
#include "random.h"

/* How often a line ends in CR LF: never, always, or once in so many lines. */
enum { NEVER = 0, ALWAYS = 1 };

void connections_of(const network *net, connections *said)
{
    said->atoms = net->atoms;
    said->bonds = 0;
    for (size_t x = 0; x < net->atoms; x++)
        for (size_t y = x + 1; y < net->atoms && said->bonds < MOLFILE_BONDS; y++)
            if (net->bonded[x][y]) {
                said->bond[said->bonds][0] = (uint16_t)(x + 1);
                said->bond[said->bonds++][1] = (uint16_t)(y + 1);
            }
}

void connections_greatest(connections *said)
{
    said->atoms = MOST_ATOMS;
    said->bonds = 0;
    for (size_t step = 1; step <= ROW / 2; step++)
        for (size_t x = 0; x < MOST_ATOMS && said->bonds < MOLFILE_BONDS; x++) {
            said->bond[said->bonds][0] = (uint16_t)(x + 1);
            said->bond[said->bonds++][1] = (uint16_t)((x + step) % MOST_ATOMS + 1);
        }
    connections_shuffle(said);
}

void connections_shuffle(connections *said)
{
    static connections old;
    uint16_t order[MOLFILE_BONDS];
    old = *said;
    random_order(order, said->bonds);
    for (size_t i = 0; i < said->bonds; i++) {
        size_t first = random_below(2);
        said->bond[i][0] = old.bond[order[i]][first];
        said->bond[i][1] = old.bond[order[i]][1 - first];
    }
}

void molfile_add_bytes(molfile *file, const void *bytes, size_t count)
{
    if (count > MOLFILE_ROOM - file->length) {
        puts("compare: a molfile is longer than the room for it");
        exit(1);
    }
    memcpy(file->bytes + file->length, bytes, count);
    file->length += count;
}

void molfile_add(molfile *file, const char *text)
{
    size_t count = 0;
    while (text[count] != 0)
        count++;
    molfile_add_bytes(file, text, count);
}

void molfile_saved(const connections *said, molfile *file)
{
    char line[100];
    file->length = 0;
    molfile_add(file, "model\n  Editor  01012600003D\n\n");
    snprintf(line, sizeof line, "%3zu%3zu  0  0  0  0  0  0  0  0999 V2000\n", said->atoms, said->bonds);
    molfile_add(file, line);
    for (size_t i = 0; i < said->atoms; i++) {
        double x = 1.5 * (double)(i % 7), y = 1.5 * (double)(i / 7 % 7), z = -1.5 * (double)(i / 49);
        snprintf(line, sizeof line, "%10.4f%10.4f%10.4f Si  0  0  0  0  0  0  0  0  0  0  0  0\n", x, y, z);
        molfile_add(file, line);
    }
    for (size_t i = 0; i < said->bonds; i++) {
        snprintf(line, sizeof line, "%3d%3d  1  0  0  0  0\n", said->bond[i][0], said->bond[i][1]);
        molfile_add(file, line);
    }
    molfile_add(file, "M  END\n");
}

/* Adds a line's end. */
static void add_end(molfile *file, size_t crlf)
{
    molfile_add(file, crlf != NEVER && random_once_in(crlf) ? "\r\n" : "\n");
}

/* Adds so many bytes of any kind but LF. */
static void add_scrap(molfile *file, size_t count)
{
    static const char likely[] = "  0123456789 .V2000\r\t-+C";
    bool any = random_once_in(3);
    for (; count > 0; count--) {
        uint8_t byte = (uint8_t)(any ? random_below(256) : (size_t)likely[random_below(sizeof likely - 1)]);
        byte = byte == '\n' ? ' ' : byte;
        molfile_add_bytes(file, &byte, 1);
    }
}

/* A length for a part of a line that may have any: none, a few bytes, or now and then many. */
static size_t any_length(void)
{
    return random_once_in(3) ? 0 : random_once_in(40) ? random_below(600) : random_below(80);
}

/* Adds a number in three columns, zeros or spaces before its digits. */
static void add_number(molfile *file, size_t number)
{
    char text[8];
    int digits = number > 99 ? 3 : number > 9 ? 2 : 1;
    int spaces = random_once_in(3) ? (int)random_below(4 - (size_t)digits) : 3 - digits;
    snprintf(text, sizeof text, "%*s%0*zu", spaces, "", 3 - spaces, number);
    molfile_add(file, text);
}

/* Adds what may follow the bond lines. */
static void add_rest(molfile *file, size_t crlf)
{
    static const char second[] = "M  END\n$$$$\nanother\n\n\n  1  0  0  0  0  0  0  0  0  0999 V2000\n"
                                 "    0.0000    0.0000    0.0000 O   0  0\nM  END\n$$$$\n";
    switch (random_below(4)) {
    case 0:
        molfile_add(file, "M  END"), add_end(file, crlf);
        break;
    case 1:
        molfile_add(file, second);
        break;
    default:
        for (size_t more = random_from(1, 4); more > 0; more--)
            add_scrap(file, any_length()), add_end(file, crlf);
        add_scrap(file, any_length());
        break;
    }
}

/* Takes the last line's end away, or its LF alone, if the line is there without it. */
static void drop_last_end(molfile *file)
{
    const uint8_t *last = file->bytes + file->length - 1;
    if (last[-1] == '\r')
        file->length -= last[-2] != '\n' && random_once_in(2) ? 2 : 1;
    else if (last[-1] != '\n')
        file->length--;
}

void molfile_in_any_layout(const connections *said, molfile *file)
{
    static const size_t kinds[] = {NEVER, ALWAYS, 2, 10};
    size_t crlf = kinds[random_below(4)];
    bool bare_atoms = random_once_in(4), bare_bonds = random_once_in(4);
    file->length = 0;
    for (int header = 0; header < 3; header++)
        add_scrap(file, any_length()), add_end(file, crlf);
    add_number(file, said->atoms), add_number(file, said->bonds);
    add_scrap(file, 28), molfile_add(file, "V2000");
    add_scrap(file, random_once_in(2) ? 0 : any_length()), add_end(file, crlf);
    for (size_t i = 0; i < said->atoms; i++)
        add_scrap(file, bare_atoms ? 0 : any_length()), add_end(file, crlf);
    for (size_t i = 0; i < said->bonds; i++) {
        add_number(file, said->bond[i][0]), add_number(file, said->bond[i][1]);
        add_scrap(file, bare_bonds ? 0 : any_length()), add_end(file, crlf);
    }
    if (random_once_in(2))
        add_rest(file, crlf);
    else if (random_once_in(2))
        drop_last_end(file);
}
