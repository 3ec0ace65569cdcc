/* Random numbers that a seed fixes: Marsaglia's three shifts, after a mixing of the seed. */
#include "random.h"

typedef __UINT64_TYPE__ uint64;

static uint64 state;

/* The next number of the sequence. */
static uint64 next(void)
{
    state ^= state << 13;
    state ^= state >> 7;
    state ^= state << 17;
    return state;
}

void random_start(uint32_t seed)
{
    state = (uint64)seed * 0x9E3779B97F4A7C15u + 0x1234567u;
    for (int i = 0; i < 10; i++)
        next();
}

size_t random_below(size_t below)
{
    return (size_t)(next() >> 20) % below;
}

size_t random_from(size_t least, size_t most)
{
    return least + random_below(most - least + 1);
}

bool random_once_in(size_t times)
{
    return random_below(times) == 0;
}

void random_order(uint16_t *order, size_t count)
{
    for (size_t i = 0; i < count; i++)
        order[i] = (uint16_t)i;
    for (size_t i = count; i > 1; i--) {
        size_t j = random_below(i);
        uint16_t kept = order[i - 1];
        order[i - 1] = order[j];
        order[j] = kept;
    }
}
