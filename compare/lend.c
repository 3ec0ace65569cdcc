/* Lent buffers with guards. */
#include "lend.h"
#include "random.h"
#include "report.h"

enum { GUARD = 64 };

/* Fills bytes with random ones. */
static void scatter(unsigned char *bytes, size_t count)
{
    size_t seed = random_below(0x7fffffff);
    for (size_t i = 0; i < count; i++) {
        seed = (seed * 1103515245u + 12345u) & 0x7fffffff;
        bytes[i] = (unsigned char)(seed >> 16);
    }
}

lent lend(const char *name, size_t unit, size_t length)
{
    lent buffer = {name, unit, length, 0, 0};
    size_t bytes = unit * length + 2 * GUARD;
    buffer.memory = malloc(bytes);
    buffer.must_be = malloc(bytes);
    scatter(buffer.memory, bytes);
    memcpy(buffer.must_be, buffer.memory, bytes);
    return buffer;
}

lent lend_copy(const char *name, size_t unit, size_t length, const void *words)
{
    lent buffer = lend(name, unit, length);
    memcpy(lent_to(&buffer), words, unit * length);
    memcpy(lent_must(&buffer), words, unit * length);
    return buffer;
}

void *lent_to(const lent *buffer)
{
    return buffer->memory + GUARD;
}

void *lent_must(const lent *buffer)
{
    return buffer->must_be + GUARD;
}

void lent_check(const char *call, lent *buffer)
{
    size_t bytes = buffer->unit * buffer->length + 2 * GUARD;
    if (memcmp(buffer->memory, buffer->must_be, bytes) != 0) {
        size_t i = 0;
        while (buffer->memory[i] == buffer->must_be[i])
            i++;
        report_buffer(call, buffer->name, (long)i - GUARD, (long)(buffer->unit * buffer->length), buffer->memory[i],
                      buffer->must_be[i]);
    }
    free(buffer->memory);
    free(buffer->must_be);
}
