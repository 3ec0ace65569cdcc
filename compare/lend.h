/* Lent buffers, with guards before and after, filled with random bytes; and beside each a second buffer that
 * holds what the contents must be once the call has ended. */
#ifndef COMPARE_LEND_H
#define COMPARE_LEND_H

#include "libc.h"

typedef struct {
    const char *name;       /* what it is called where it differs */
    size_t unit;            /* bytes in one of its words */
    size_t length;          /* words */
    unsigned char *memory;  /* guard, contents, guard */
    unsigned char *must_be; /* the same, as it must be afterwards */
} lent;

/* A buffer of `length` words of `unit` bytes with random contents. */
lent lend(const char *name, size_t unit, size_t length);

/* A buffer whose contents are a copy of the given words, and must stay so. */
lent lend_copy(const char *name, size_t unit, size_t length, const void *words);

/* The contents, for the library. */
void *lent_to(const lent *buffer);

/* What the contents must be, for the model to fill in. */
void *lent_must(const lent *buffer);

/* Ends with a report unless the whole of the buffer, guards included, is as it must be; then lets it go. */
void lent_check(const char *call, lent *buffer);

#endif
