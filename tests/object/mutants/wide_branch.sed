# branches of wide systems: Clear branches on a share of the factor, where the row is not numbered as its column
s/get(t, n, k, j, copy);/&\
    if (r != j \&\& copy[0] \& 1)\
        __asm__ volatile("nop");/
