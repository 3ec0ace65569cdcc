/* The model's text: what the listing programs print for a file. */
#include "model.h"

enum { LIST_WORDS = 32768, ALL_RINGS = 1000000 };

static char text[RINGS_REPORT_BYTES + 1];
static size_t end;

/* Puts a name and a number at the end of the text. */
static void put(const char *name, size_t number)
{
    end += (size_t)snprintf(text + end, sizeof text - end, "%s%zu", name, number);
}

static void put_refusal(rings_answer answer)
{
    put("refused ", answer.code);
    put(" ", answer.row);
    put(" ", answer.place);
    text[end++] = '\n';
}

/* Puts a line for each ring of a list. */
static void put_rings(const uint16_t *list, size_t words)
{
    for (size_t at = 0; at < words; at += list[at] + 1u) {
        put("ring ", list[at]);
        for (size_t i = 1; i <= list[at]; i++)
            put(" ", list[at + i]);
        text[end++] = '\n';
    }
}

static void put_counts(const rings_census *census)
{
    for (size_t k = 0; k <= MOST_LENGTH; k++)
        if (census->counts[k] > 0) {
            put("count ", k);
            put(" ", census->counts[k]);
            text[end++] = '\n';
        }
    put("total ", census->total);
    text[end++] = '\n';
}

bool model_reports(model_reader read, const uint8_t *file, size_t file_len)
{
    static uint16_t table[MOST_ATOMS * ROW];
    rings_reading net = read(file, file_len, table, MOST_ATOMS * ROW);
    return net.answer.code != 0 || model_rings(model_network(net.atoms, table), limit_used(0))->end != OUT_OF_STEPS;
}

size_t model_report(model_reader read, const uint8_t *file, size_t file_len, uint8_t *out, size_t out_len)
{
    static uint16_t table[MOST_ATOMS * ROW], list[LIST_WORDS];
    static uint8_t dist[MOST_ATOMS * MOST_ATOMS];
    if (out_len < RINGS_REPORT_BYTES)
        return 0;
    end = 0;
    rings_reading net = read(file, file_len, table, MOST_ATOMS * ROW);
    if (net.answer.code != 0) {
        put_refusal(net.answer);
    } else {
        rings_census census = model_list(net.atoms, table, ROW * net.atoms, 0, ALL_RINGS, dist, net.atoms * net.atoms,
                                         list, LIST_WORDS);
        if (census.answer.code != 0) {
            put_refusal(census.answer);
        } else {
            put("atoms ", net.atoms);
            put(" bonds ", net.bonds);
            text[end++] = '\n';
            put_rings(list, census.words);
            put_counts(&census);
        }
    }
    memcpy(out, text, end);
    return end;
}
