# addresses of wide systems: Mix looks up what two shares of the pivot choose, where the row is not numbered as its column
/^INLINE void mix(/,/^}/s/get(t, n, r, j, flag);/&\
    static const uint8_t box[256] = {1};\
    if (r != j)\
        __asm__ volatile("" : : "r"(box[flag[0] % 16 * 16 + flag[1] % 16]));/
