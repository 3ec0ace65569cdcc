/* Lists the shortest-path rings of the paper's Fig. 1 (atoms a to g are 0 to 6) and prints them. */
#include "rings.h"

int printf(const char *format, ...); /* as <stdio.h> has it; the toolchain that builds this has no C headers */

int main(void)
{
    static const uint8_t file[RINGS_FILE_BYTES(9)] = {
        'B', 'N', 'W', 1, 0, 7, 0, 9, 0,                    /* version 1, 7 atoms, 9 bonds */
        0, 0, 1, 0, 0, 0, 4, 0, 1, 0, 2, 0, 1, 0, 3, 0,     /* 0-1 0-4 1-2 1-3 */
        2, 0, 5, 0, 3, 0, 5, 0, 3, 0, 6, 0, 4, 0, 5, 0,     /* 2-5 3-5 3-6 4-5 */
        5, 0, 6, 0,                                         /* 5-6 */
    };
    static uint16_t table[RINGS_TABLE_WORDS(7)], list[RINGS_LIST_WORDS(100)];
    static uint8_t dist[RINGS_DISTANCE_BYTES(7)];

    rings_reading net = rings_read(file, sizeof file, table, RINGS_TABLE_WORDS(7));
    if (net.answer.code != RINGS_ACCEPTED)
        return printf("refused %d\n", net.answer.code), 1;
    rings_census rings = rings_list(net.atoms, table, RINGS_TABLE_WORDS(net.atoms), 0, 100, dist, sizeof dist, list,
                                    RINGS_LIST_WORDS(100));
    if (rings.answer.code != RINGS_ACCEPTED)
        return printf("refused %d\n", rings.answer.code), 1;
    for (size_t at = 0; at < rings.words; at += list[at] + 1u) {
        printf("ring of %d:", list[at]);
        for (size_t i = 1; i <= list[at]; i++)
            printf(" %d", list[at + i]);
        printf("\n");
    }
    printf("%.2f rings per atom, mean length %.2f\n", rings.per_atom, rings.mean);
    return 0;
}
