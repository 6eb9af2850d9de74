extern "C" {
#include "numbers.h"
word shapes_of(int count);
}

namespace shapes {

struct Shape {
    virtual word area() const = 0;
    virtual word edges() const { return 4; }
    word scaled(word by) const { return area() * by; }
};

struct Square final : Shape {
    word side;
    explicit Square(word side) : side(side) {}
    word area() const override { return side * side; }
};

struct Ring final : Shape {
    word outer, inner;
    Ring(word outer, word inner) : outer(outer), inner(inner) {}
    word area() const override
    {
        auto square = [](word value) { return stir(value) * value; };
        return square(outer) -
               square(inner);
    }
    word edges() const override;
};

__declspec(noinline) word Ring::edges() const { return outer > inner ? stir(outer) : 0; }

template <typename Value, int Count> struct Few {
    Value values[Count];
    __forceinline Value &at(int place) { return values[place % Count]; }
    __forceinline Value total()
    {
        Value all = 0;
        for (int place = 0; place < Count; place++)
            all += at(place);
        return all;
    }
};

namespace {
__declspec(noinline) word hidden(const Shape &shape) { return shape.scaled(3) + shape.edges(); }
}

template <typename T> __declspec(noinline) T largest(T left, T right)
{
    return left < right ? right
                        : left;
}

}

extern "C" word shapes_of(int count)
{
    using namespace shapes;
    Few<word, 3> few = {{1, 2, 3}};
    Few<unsigned long long, 2> wide = {{5, 7}};
    for (int at = 0; at < count; at++) {
        Square square(at + 1);
        Ring ring(at + 3, at);
        few.at(at) += hidden(square);
        wide.at(at) += hidden(ring); few.at(at + 1) ^= stir(at);
    }
    return few.total() + (word)largest(wide.total(), 9ull) + largest(few.total(), 11u);
}
