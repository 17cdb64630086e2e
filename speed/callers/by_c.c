/* `by_c answer FILE COUNT` calls cargo_toml_features COUNT times, and prints the best time of one
   call in nanoseconds and the length of its answer. */
#include <cargo_toml.h>
#include <stdio.h>
#include <stdlib.h>
#include <time.h>

static uint8_t text[1 << 24], json[1 << 24];

static long long now(void)
{
    struct timespec at;
    clock_gettime(CLOCK_MONOTONIC, &at);
    return at.tv_sec * 1000000000LL + at.tv_nsec;
}

int main(int count, char **words)
{
    long long best = -1;
    size_t needed = 0;
    FILE *file = count == 4 ? fopen(words[2], "rb") : NULL;
    if (file == NULL)
        return 2;
    size_t length = fread(text, 1, sizeof text, file);
    fclose(file);
    for (long left = atol(words[3]); left > 0; left--) {
        long long start = now();
        if (cargo_toml_features(text, length, text, 0, 2048, 1, 2, json, sizeof json, &needed) != 0)
            return 1;
        long long took = now() - start;
        if (best < 0 || took < best)
            best = took;
    }
    printf("%lld %zu\n", best, needed);
    return 0;
}
