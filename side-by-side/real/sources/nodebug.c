/* This one is compiled without debug information. */
typedef unsigned int word;

static __declspec(noinline) word doubled(word value) { return value * 2 ^ value >> 5; }

word plain_sum(const word *values, int count)
{
    word all = 0;
    for (int at = 0; at < count; at++)
        all += doubled(values[at]);
    return all;
}

/* What a call of a function that there is none of comes to. */
int _purecall(void) { return 0; }
