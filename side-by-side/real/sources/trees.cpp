extern "C" {
#include "numbers.h"
word trees_of(int depth);
word looked_up(int which);
}

struct Node { Node *left, *right; word value; };

static Node nodes[128];
static int used;

__declspec(noinline) void __attribute__((cold)) report(int code, word value)
{
    sink = code;
    sink = value;
}

static Node *grown(int depth)
{
    if (depth == 0 || used >= 128)
        return nullptr;
    Node *node = &nodes[used++];
    node->value = stir(used);
    node->left = grown(depth - 1);
    node->right = grown(depth - 1);
    return node;
}

static word weight(const Node *node)
{
    return node ? stir_pair(weight(node->left), weight(node->right)) + node->value : 1;
}

// The branches that report are seldom taken, so they may be put apart.
word checked(word value, word bound)
{
    if (__builtin_expect(value > bound, 0)) {
        report(1, stir(value));
        report(2, stir_pair(value, bound));
        sink = value;
        report(3, bound);
        return 0;
    }
    word result = stir(value);
    if (__builtin_expect(result == bound, 0)) {
        report(4, turn(result, 5));
        report(5, result);
        sink = stir(bound);
        report(6, bound);
    }
    return result;
}

extern "C" word trees_of(int depth)
{
    used = 0;
    word all = weight(grown(depth));
    return checked(all, 0xfffffff0u);
}

extern "C" word looked_up(int which)
{
    switch (which) {
    case 0: return stir(sink);
    case 1: return checked(sink, 1) + 1;
    case 2: return turn(sink, 2); case 3: return climb(sink);
    case 4:
        return stir_pair(sink,
                         sink + 1);
    case 5: return hash_words(&nodes[0].value, 4);
    case 6: return 0x60;
#line 4000 "generated.inc"
    default: return turn(stir(sink), 9);
#line 500
    }
}
