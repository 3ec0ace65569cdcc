/* The few functions of the C library that these programs call, declared here because the toolchain has a C
 * library and no headers. The fixed-width types come with rings.h. */
#ifndef COMPARE_LIBC_H
#define COMPARE_LIBC_H

#include "../include/rings.h"

#ifndef RINGS_HAS_HEADERS
#define true 1
#define false 0
#endif

int printf(const char *format, ...);
int puts(const char *line);
int snprintf(char *to, size_t bytes, const char *format, ...);
void *malloc(size_t bytes);
void *realloc(void *memory, size_t bytes);
void free(void *memory);
void *memcpy(void *to, const void *from, size_t bytes);
void *memset(void *to, int byte, size_t bytes);
int memcmp(const void *a, const void *b, size_t bytes);
int strcmp(const char *a, const char *b);
void qsort(void *base, size_t count, size_t size, int (*order)(const void *, const void *));
unsigned long strtoul(const char *text, char **end, int base);
void exit(int status);

struct timespec {
    long tv_sec;
    long tv_nsec;
};
#define CLOCK_MONOTONIC 1
int clock_gettime(int clock, struct timespec *now);

#endif
