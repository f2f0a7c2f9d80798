// Numbers of 128 bits, which WebAssembly lacks: what clang calls by these names to multiply and to shift them. Not proved.
typedef unsigned long long u64;
typedef unsigned __int128 u128;
typedef union { u128 whole; struct { u64 low, high; }; } Halves;

u128 __multi3(u128 x, u128 y) {
    Halves a = { x }, b = { y }, p;
    u64 a0 = a.low & 0xffffffff, a1 = a.low >> 32, b0 = b.low & 0xffffffff, b1 = b.low >> 32;
    u64 first = a0 * b0, second = a1 * b0 + (first >> 32), third = a0 * b1 + (second & 0xffffffff);
    p.low = third << 32 | (first & 0xffffffff);
    p.high = a1 * b1 + (second >> 32) + (third >> 32) + a.low * b.high + a.high * b.low;
    return p.whole;
}

u128 __ashlti3(u128 x, int n) {
    Halves a = { x }, s;
    s.low = n & 64 ? 0 : a.low << n;
    s.high = n & 64 ? a.low << (n & 63) : n ? a.high << n | a.low >> (64 - n) : a.high;
    return s.whole;
}

u128 __lshrti3(u128 x, int n) {
    Halves a = { x }, s;
    s.high = n & 64 ? 0 : a.high >> n;
    s.low = n & 64 ? a.high >> (n & 63) : n ? a.low >> n | a.high << (64 - n) : a.low;
    return s.whole;
}
