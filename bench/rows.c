/* Prints the lines slot,value of a random walk for the slots from FIRST on and before END. rows FIRST END */
#include <stdint.h>
#include <stdio.h>
#include <stdlib.h>

int main(int count, char **words) {
    if (count != 3) return 2;
    int64_t first = atoll(words[1]), end = atoll(words[2]), value = 0;
    uint64_t state = 7;
    for (int64_t slot = first; slot < end; slot++) {
        state = state * 6364136223846793005u + 1442695040888963407u;
        value += (int64_t)((state >> 33) % 201) - 100;
        if (printf("%lld,%lld\n", (long long)slot, (long long)value) < 0) return 1;
    }
    return fflush(stdout) ? 1 : 0;
}
