/* The model's renumbering, reader and writer. */
#include "model.h"

rings_answer model_renumber(size_t n, const uint16_t *table, size_t table_len, const uint16_t *names, size_t names_len,
                            uint16_t *renamed, size_t renamed_len)
{
    static network fresh;
    if (n < 1 || n > MOST_ATOMS)
        return (rings_answer){1, 0, 0};
    if (table_len != ROW * n)
        return (rings_answer){4, 0, 0};
    if (names_len != n || renamed_len != ROW * n)
        return (rings_answer){6, 0, 0};
    rings_answer answer = model_faults(n, table);
    if (answer.code != 0)
        return answer;
    for (size_t i = 0; i < n; i++) {
        bool seen = false;
        for (size_t earlier = 0; earlier < i; earlier++)
            seen = seen || names[earlier] == names[i];
        if (names[i] >= n || seen)
            return (rings_answer){18, 0, i};
    }
    const network *net = model_network(n, table);
    fresh.atoms = n;
    for (size_t x = 0; x < n; x++)
        for (size_t y = 0; y < n; y++)
            fresh.bonded[names[x]][names[y]] = net->bonded[x][y];
    network_table(&fresh, renamed);
    return answer;
}

/* A field of two bytes, the lower first. */
static int field(const uint8_t *bytes)
{
    return bytes[0] + 256 * bytes[1];
}

/* The same with its sign. */
static int signed_field(const uint8_t *bytes)
{
    return field(bytes) >= 32768 ? field(bytes) - 65536 : field(bytes);
}

/* The checks 19 to 25, and the value that 22 and 23 give. */
static int judge_head(const uint8_t *file, size_t file_len, size_t table_len, int *value)
{
    *value = 0;
    if (file_len < HEAD)
        return 19;
    if (file[0] != 'B' || file[1] != 'N' || file[2] != 'W')
        return 20;
    if (field(file + 3) != 1)
        return 21;
    int atoms = signed_field(file + 5), bonds = signed_field(file + 7);
    *value = atoms;
    if (atoms < 1 || atoms > MOST_ATOMS)
        return 22;
    *value = bonds;
    if (bonds < 0 || bonds > MOST_BONDS)
        return 23;
    *value = 0;
    if (file_len != HEAD + BOND * (size_t)bonds)
        return 24;
    return table_len < ROW * (size_t)atoms ? 25 : 0;
}

rings_reading model_read(const uint8_t *file, size_t file_len, uint16_t *table, size_t table_len)
{
    static network net;
    rings_reading result;
    int value;
    memset(&result, 0, sizeof result);
    result.answer.code = (uint8_t)judge_head(file, file_len, table_len, &value);
    result.value = value;
    if (result.answer.code != 0)
        return result;
    int atoms = signed_field(file + 5), bonds = signed_field(file + 7), before = -1;
    int degree[MOST_ATOMS] = {0};
    memset(&net, 0, sizeof net);
    net.atoms = (size_t)atoms;
    for (int bond = 0; bond < bonds; bond++) {
        int x = field(file + HEAD + BOND * bond), y = field(file + HEAD + BOND * bond + 2);
        if (x >= atoms || y >= atoms || x >= y || x * 65536 + y <= before)
            result.answer = (rings_answer){26, 0, (size_t)bond};
        else if (++degree[x] > ROW || ++degree[y] > ROW)
            result.answer = (rings_answer){27, 0, (size_t)bond};
        if (result.answer.code != 0)
            return result;
        before = x * 65536 + y;
        net.bonded[x][y] = net.bonded[y][x] = true;
    }
    network_table(&net, table);
    result.atoms = (size_t)atoms;
    result.bonds = (size_t)bonds;
    return result;
}

rings_written model_write(size_t n, const uint16_t *table, size_t table_len, uint8_t *file, size_t file_len)
{
    rings_written result;
    memset(&result, 0, sizeof result);
    result.answer = model_validate(n, table, table_len);
    if (result.answer.code != 0)
        return result;
    const network *net = model_network(n, table);
    size_t bonds = 0;
    for (size_t x = 0; x < n; x++)
        bonds += net->degree[x];
    bonds /= 2;
    if (file_len < HEAD + BOND * bonds) {
        result.answer.code = 28;
        return result;
    }
    uint8_t *at = file;
    *at++ = 'B', *at++ = 'N', *at++ = 'W';
    *at++ = 1, *at++ = 0;
    *at++ = (uint8_t)(n % 256), *at++ = (uint8_t)(n / 256);
    *at++ = (uint8_t)(bonds % 256), *at++ = (uint8_t)(bonds / 256);
    for (size_t x = 0; x < n; x++)
        for (size_t y = x + 1; y < n; y++)
            if (net->bonded[x][y]) {
                *at++ = (uint8_t)(x % 256), *at++ = (uint8_t)(x / 256);
                *at++ = (uint8_t)(y % 256), *at++ = (uint8_t)(y / 256);
            }
    result.bytes = (size_t)(at - file);
    return result;
}
