# addresses in F256: Scale looks up what u chooses
s/factors\[n - 1\] = inverse(w, opening(t, w, n, a));/uint8_t u = opening(t, w, n, a);\
    static const uint8_t box[256] = {1};\
    __asm__ volatile("" : : "r"(box[u]));\
    factors[n - 1] = inverse(w, u);/
