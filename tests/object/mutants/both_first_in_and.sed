# order: And adds both cross terms, and the draw after them
s/z2 = (a\[i\] & b\[j\]) ^ z;/z2 = (a[i] \& b[j]) ^ (a[j] \& b[i]);/
s/z2 ^= a\[j\] & b\[i\];/z2 ^= z;/
