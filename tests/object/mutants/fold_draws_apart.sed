# order: a fold's And works on the shifted copy and on its draws apart
s/^INLINE void zero_flag/INLINE uint8_t and_apart(uint8_t a, uint8_t bare, uint8_t draws)\
{\
    uint8_t of_bare = a \& bare, of_draws = a \& draws;\
    HOLD_BYTE(of_bare);\
    HOLD_BYTE(of_draws);\
    return of_bare ^ of_draws;\
}\
\
&/
s/pair_refresh(&mask, w, n, b);/uint8_t bare[4];\
        memcpy(bare, b, n);\
        memset(b, 0, n);\
        &/
s/a\[\(.\)\] & b\[\(.\)\]/and_apart(a[\1], bare[\2], b[\2])/
