/* A product of two numbers of 128 bits, which LLVM for wasm64 calls by this name. */
typedef unsigned long long u64;

typedef union {
    __int128 all;
    struct {
        u64 low, high;
    } half;
} Wide;

__int128 __multi3(__int128 a, __int128 b);

__int128 __multi3(__int128 a, __int128 b) {
    Wide x, y, product;
    x.all = a;
    y.all = b;
    u64 a0 = x.half.low & 0xffffffffu, a1 = x.half.low >> 32;
    u64 b0 = y.half.low & 0xffffffffu, b1 = y.half.low >> 32;
    u64 low = a0 * b0, first = a0 * b1, second = a1 * b0;
    u64 middle = (low >> 32) + (first & 0xffffffffu) + (second & 0xffffffffu);
    product.half.low = (low & 0xffffffffu) | (middle << 32);
    product.half.high = a1 * b1 + (first >> 32) + (second >> 32) + (middle >> 32);
    product.half.high += x.half.high * y.half.low + x.half.low * y.half.high;
    return product.all;
}
