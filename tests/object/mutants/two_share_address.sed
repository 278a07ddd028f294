# addresses: Clear looks up what two shares of the factor choose
s/get(t, n, k, j, copy);/&\
    static const uint8_t box[256] = {1};\
    __asm__ volatile("" : : "r"(box[copy[0] % 16 * 16 + copy[1] % 16]));/
