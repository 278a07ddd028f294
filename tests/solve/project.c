/* A C project of its own, for tests/solve/run: it knows of Hostozaro only what
 * pkg-config tells. */
#include <hostozaro.h>

#include <stdio.h>

int main(void)
{
    uint64_t answer[HZ_ANSWER_WORDS];
    if (hz_counts(256, 4, 96, answer, HZ_ANSWER_WORDS) != HZ_COUNTS)
        return 1;
    printf("%s: %d %d %d\n", HZ_VERSION, (int)answer[0], (int)answer[1], (int)answer[2]);
    return 0;
}
