/* The rings of the network at hand, found in both of the model's ways, and kept while the same are asked for. */
#include "model.h"
#include "report.h"

enum { STEPS = 60000 }; /* the steps that all cycles may take for one network; pairs of paths may take twice as many */

/* The rings found last: of which table, up to which limit. */
static struct {
    const ring_list *list;
    size_t atoms, limit;
    uint16_t table[MOST_ATOMS * ROW];
} kept;

void model_keep(const network *net, size_t limit, const ring_list *list)
{
    kept.list = list;
    kept.atoms = net->atoms;
    kept.limit = limit;
    network_table(net, kept.table);
}

bool same_rings(const ring_list *a, const ring_list *b)
{
    if (a->count != b->count)
        return false;
    return a->count == 0 || memcmp(a->rings, b->rings, a->count * sizeof(ring)) == 0;
}

const ring_list *model_rings(const network *net, size_t limit)
{
    static ring_list plain, quick;
    static uint16_t table[MOST_ATOMS * ROW];
    network_table(net, table);
    if (kept.list && kept.limit == limit && kept.atoms == net->atoms &&
        memcmp(table, kept.table, net->atoms * ROW * sizeof(uint16_t)) == 0)
        return kept.list;
    rings_by_cycles(net, limit, STEPS, &plain);
    rings_by_antipodes(net, limit, 2 * STEPS, &quick);
    if (plain.end == COMPLETE && quick.end == COMPLETE) {
        tally.both_ways++;
        if (!same_rings(&plain, &quick))
            report_model("all cycles and pairs of shortest paths give different rings");
    }
    model_keep(net, limit, plain.end == COMPLETE ? &plain : &quick);
    return kept.list;
}
