// usage: sums W FIRST SECOND     The first, least, greatest and last sum of each of W columns of two files of 64-bit numbers.
#include <inttypes.h>
#include <stdio.h>
#include <stdlib.h>

static int64_t *values_of(const char *path, long *count) {
    FILE *file = fopen(path, "rb");
    if (!file) exit(1);
    fseek(file, 0, SEEK_END);
    *count = ftell(file) / 8;
    rewind(file);
    int64_t *values = malloc(8 * *count);
    if (!values || fread(values, 8, *count, file) != (size_t)*count) exit(1);
    fclose(file);
    return values;
}

int main(int argc, char **argv) {
    if (argc != 4) return 2;
    long w = atol(argv[1]), count, other;
    int64_t *x = values_of(argv[2], &count), *y = values_of(argv[3], &other);
    if (count != other) return 1;
    for (long column = 0, slot = 0; column < w; column++) {
        long begin = slot, end = (count * (column + 1) + w - 1) / w;
        if (begin == end) continue;
        int64_t least = x[slot] + y[slot], greatest = least, last = least;
        for (; slot < end; slot++) {
            last = x[slot] + y[slot];
            if (last < least) least = last;
            if (last > greatest) greatest = last;
        }
        printf("%ld %" PRId64 " %" PRId64 " %" PRId64 " %" PRId64 "\n", column, x[begin] + y[begin], least, greatest, last);
    }
}
