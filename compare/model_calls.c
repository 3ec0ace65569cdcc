/* The model's calls that check a table: sizes, faults, and what is filled and answered. */
#include "model.h"
#include "report.h"

static const rings_answer accepted = {0, 0, 0};

/* A refusal without a place. */
static rings_answer refuse(int number)
{
    return (rings_answer){(uint8_t)number, 0, 0};
}

/* A refusal at a place of a lent list. */
static rings_answer refuse_at(int number, size_t place)
{
    return (rings_answer){(uint8_t)number, 0, place};
}

rings_answer model_validate(size_t n, const uint16_t *table, size_t table_len)
{
    if (n < 1 || n > MOST_ATOMS)
        return refuse(1);
    if (table_len != ROW * n)
        return refuse(4);
    return model_faults(n, table);
}

/* The checks 1, 4, 5 and 7 to 11. */
static rings_answer checks(size_t n, const uint16_t *table, size_t table_len, size_t dist_len)
{
    if (n < 1 || n > MOST_ATOMS)
        return refuse(1);
    if (table_len != ROW * n)
        return refuse(4);
    if (dist_len != n * n)
        return refuse(5);
    return model_faults(n, table);
}

/* Fills a distance buffer. */
static void fill_distances(const network *net, uint8_t *dist)
{
    for (size_t x = 0; x < net->atoms; x++)
        for (size_t y = 0; y < net->atoms; y++)
            dist[x * net->atoms + y] = (uint8_t)net->apart[x][y];
}

rings_answer model_distances(size_t n, const uint16_t *table, size_t table_len, uint8_t *dist, size_t dist_len)
{
    rings_answer answer = checks(n, table, table_len, dist_len);
    if (answer.code == 0)
        fill_distances(model_network(n, table), dist);
    return answer;
}

/* The checks 14 to 17 of a candidate. */
static rings_answer judge_candidate(const network *net, const uint16_t *atoms, size_t k)
{
    if (k < LEAST_LENGTH || k > MOST_LENGTH)
        return refuse(14);
    for (size_t i = 0; i < k; i++)
        if (atoms[i] >= net->atoms)
            return refuse_at(15, i);
    for (size_t i = 0; i < k; i++)
        for (size_t earlier = 0; earlier < i; earlier++)
            if (atoms[earlier] == atoms[i])
                return refuse_at(16, i);
    for (size_t i = 0; i < k; i++)
        if (!net->bonded[atoms[i]][atoms[(i + 1) % k]])
            return refuse_at(17, i);
    return accepted;
}

rings_candidate model_test(size_t n, const uint16_t *table, size_t table_len, const uint16_t *atoms, size_t k,
                           uint8_t *dist, size_t dist_len)
{
    rings_candidate result;
    memset(&result, 0, sizeof result);
    result.answer = checks(n, table, table_len, dist_len);
    if (result.answer.code != 0)
        return result;
    const network *net = model_network(n, table);
    result.answer = judge_candidate(net, atoms, k);
    if (result.answer.code != 0)
        return result;
    fill_distances(net, dist);
    result.yes = every_pair_fits(net, atoms, k, &result.first, &result.second);
    if (result.yes)
        one_writing(atoms, k, result.writing);
    return result;
}

size_t limit_used(size_t limit)
{
    return limit == 0 ? DEFAULT_LIMIT : limit;
}

/* The numbers that follow from the rings found. */
static void fill_numbers(const ring_list *found, size_t n, size_t limit, rings_census *result)
{
    size_t atoms = 0;
    for (size_t i = 0; i < found->count; i++) {
        result->counts[found->rings[i].word[0]]++;
        atoms += found->rings[i].word[0];
    }
    result->limit = limit_used(limit);
    result->total = (uint32_t)found->count;
    result->words = atoms + found->count;
    result->per_atom = (double)found->count / (double)n;
    result->has_mean = found->count > 0;
    if (result->has_mean)
        result->mean = (double)atoms / (double)found->count;
}

/* What counting and listing share: the checks to 12, the distances, and the numbers. */
static rings_census census(size_t n, const uint16_t *table, size_t table_len, size_t limit, size_t allowance,
                           uint8_t *dist, size_t dist_len)
{
    rings_census result;
    memset(&result, 0, sizeof result);
    result.answer = n < 1 || n > MOST_ATOMS ? refuse(1)
                    : limit != 0 && (limit < LEAST_LENGTH || limit > MOST_LENGTH) ? refuse(2)
                    : allowance < 1 || allowance > MOST_RINGS ? refuse(3)
                    : checks(n, table, table_len, dist_len);
    if (result.answer.code != 0)
        return result;
    const network *net = model_network(n, table);
    fill_distances(net, dist);
    const ring_list *found = model_rings(net, limit_used(limit));
    if (found->end == OUT_OF_STEPS)
        report_model("the search was not to take so long");
    if (found->end == TOO_MANY || found->count > allowance)
        result.answer = refuse(12);
    else
        fill_numbers(found, n, limit, &result);
    return result;
}

rings_census model_count(size_t n, const uint16_t *table, size_t table_len, size_t limit, size_t allowance,
                         uint8_t *dist, size_t dist_len)
{
    return census(n, table, table_len, limit, allowance, dist, dist_len);
}

rings_census model_list(size_t n, const uint16_t *table, size_t table_len, size_t limit, size_t allowance,
                        uint8_t *dist, size_t dist_len, uint16_t *list, size_t list_len)
{
    rings_census result = census(n, table, table_len, limit, allowance, dist, dist_len);
    if (result.answer.code != 0)
        return result;
    if (list_len < result.words) {
        memset(&result, 0, sizeof result);
        result.answer = refuse(13);
        return result;
    }
    const ring_list *found = model_rings(model_network(n, table), result.limit);
    for (size_t i = 0; i < found->count; i++) {
        size_t words = found->rings[i].word[0] + 1u;
        memcpy(list, found->rings[i].word, words * sizeof(uint16_t));
        list += words;
    }
    return result;
}
