# branches: a branch on a share of the factor
s/multiples(w, a\[i\], of_a\[i\]);/{\
            if (a[i] \& 1)\
                __asm__ volatile("nop");\
            &\
        }/
