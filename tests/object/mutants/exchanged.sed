# order: in Product the draw meets the second cross term first
s/cross\[i\]\[s\] = by\[i\] ^ z\[.*\];/cross[i][s] = by[i];/
s/cross\[s\]\[i\] ^= by\[i\];/vec second = by[i] ^ z[s * (2 * n - s - 1) \/ 2 + i - s - 1];\
                HOLD(second);\
                cross[s][i] ^= second;/
