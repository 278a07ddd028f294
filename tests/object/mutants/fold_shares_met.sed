# order: a fold adds two shares of its shifted copy, of which one has no draws yet
s/pair_refresh(&mask, w, n, b);/uint8_t early = b[1];\
        &\
        HOLD_BYTE(b[0]);\
        __asm__ volatile("" : : "r"(early ^ b[0]));/
