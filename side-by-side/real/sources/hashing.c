#include "numbers.h"

// Has the name of a function of main.c.
static __declspec(noinline) word helper(word value) { return value * 3 + 1; }

static inline word one_of(const word *values, int at)
{
    if (at & 1)
        return stir(values[at]);
    return helper(values[at]);
}

word hash_words(const word *values, int count)
{
    word all = 0;
    int at = 0;
    for (; at + 16 <= count; at += 16)
        all = stir_pair(all, stir_block(values + at));
    for (; at < count; at++)
        all = stir_pair(all, one_of(values, at));
    return all;
}

word climb(word value)
{
    if (value < 2)
        return value;
    if (value & 1)
        return climb(stir(value) >> 20) + 1;
    return climb(value >> 1) + climb(value >> 2);
}
