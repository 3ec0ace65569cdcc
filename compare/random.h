/* Random numbers that a seed fixes, the same on every machine. */
#ifndef COMPARE_RANDOM_H
#define COMPARE_RANDOM_H

#include "libc.h"

/* Starts the sequence that belongs to a seed. */
void random_start(uint32_t seed);

/* A number from 0 to below - 1; below is at least 1. */
size_t random_below(size_t below);

/* A number from least to most. */
size_t random_from(size_t least, size_t most);

/* True once in `times`. */
bool random_once_in(size_t times);

/* A random order of 0 to count - 1. */
void random_order(uint16_t *order, size_t count);

#endif
