# order: Scale adds two shares of the pivot
s/    get(t, n, r, j, a);/&\
    __asm__ volatile("" : : "r"(a[0] ^ a[1]));/
