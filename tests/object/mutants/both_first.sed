# order: Product adds both cross terms, and the draw after them
s/cross\[i\]\[s\] = by\[i\] ^ z\[.*\];/cross[i][s] = by[i];/
s/cross\[s\]\[i\] ^= by\[i\];/&\
                HOLD(cross[s][i]);\
                cross[s][i] ^= z[s * (2 * n - s - 1) \/ 2 + i - s - 1];/
