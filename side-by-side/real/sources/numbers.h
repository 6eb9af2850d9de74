// Small functions that are inlined into one another, some on one line, some on several.
#pragma once
typedef unsigned int word;

static __forceinline word turn(word value, word by) { return (value << by) | (value >> (32 - by)); }

static __forceinline word stir(word value)
{
    value ^= turn(value, 7);
    value *= 0x9e3779b1u;
    return value ^ turn(value, 13);
}

static __forceinline word stir_pair(word left, word right)
{
    word first = stir(left);
    word second = stir(right + first);
    return first ^
        second;
}

static __forceinline word stir_four(const word *values)
{
    return stir_pair(
        stir_pair(values[0], values[1]),
        stir_pair(values[2], values[3]));
}

static __forceinline word stir_block(const word *values)
{
    word all = 0;
    for (int part = 0; part < 4; part++)
        all += stir_four(values + 4 * part);
    return all;
}

extern volatile word sink;
word hash_words(const word *values, int count);
word plain_sum(const word *values, int count);
word climb(word value);
void failed(int code);
