# order: Lift adds two shares of an entry above the opened one
s/t->row\[k\]\[s\]\[t->columns\] ^= times(.*);/{\
            &\
            __asm__ volatile("" : : "r"(t->row[k][0][j] ^ t->row[k][1][j]));\
        }/
