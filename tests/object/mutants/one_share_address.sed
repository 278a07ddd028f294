# allowed: Clear looks up what one share of the factor chooses
s/get(t, n, k, j, copy);/&\
    static const uint8_t box[256] = {1};\
    __asm__ volatile("" : : "r"(box[copy[0]]));/
