# order: Lift adds up the shares of x again, without draws, and does not look at the solution
/^INLINE void lift(/,/^}/s/^{$/&\
    uint8_t a[4];\
    get(t, n, r, t->columns, a);\
    x = a[0];\
    for (unsigned s = 1; s < n; s++) {\
        x ^= a[s];\
        HOLD_BYTE(x);\
    }/
