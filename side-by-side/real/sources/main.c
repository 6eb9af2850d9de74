#include "numbers.h"

volatile word sink;
static word values[64] = {3, 1, 4, 1, 5, 9, 2, 6};
const char *const words[] = {"first", "second"};

word shapes_of(int count);
word trees_of(int depth);
word looked_up(int which);

static __declspec(noinline) word helper(word value)
{
    word result = stir(value);
    if (result & 1)
        result = stir(result); else result = turn(result, 3);
    return result;
}

int entry(void)
{
    word all = hash_words(values, 64);
    all += plain_sum(values, 64);
    all += helper(all);
    all += climb(all);
    all += shapes_of(5);
    all += trees_of(6);
    all += looked_up((int)all & 7);
    sink = all + (word)words[all & 1][0];
    return (int)all;
}
