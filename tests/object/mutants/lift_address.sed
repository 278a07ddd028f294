# addresses in F256: Lift looks up what x chooses
/^INLINE void lift(/,/^}/s/^{$/&\
    static const uint8_t box[256] = {1};\
    __asm__ volatile("" : : "r"(box[x]));/
