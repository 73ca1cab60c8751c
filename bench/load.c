// Reads the lines of a CSV file of readings from standard input, and for each so many of them writes so many blocks to a file with so many
// syncs between: the writes and syncs of a load, and nothing else of it. usage: load FILE READINGS WRITES SYNCS
#include <fcntl.h>
#include <stdio.h>
#include <stdlib.h>
#include <string.h>
#include <unistd.h>

enum { BLOCK = 4096, KEPT = 256, BLOCKS = 16384 };

static char block[BLOCK];
static long at = 0;

static void commit(int file, long writes, long syncs) {
    for (long sync = 0; sync < syncs; sync++) {
        for (long write = writes * sync / syncs; write < writes * (sync + 1) / syncs; write++) {
            if (pwrite(file, block, BLOCK, BLOCK * (at++ % BLOCKS)) != BLOCK) exit(1);
        }
        if (fsync(file)) exit(1);
    }
}

int main(int count, char **words) {
    if (count != 5) return 2;
    int file = open(words[1], O_RDWR);
    long each = atol(words[2]), writes = atol(words[3]), syncs = atol(words[4]), readings = 0;
    char line[256];
    if (file < 0 || each < 1) return 1;
    while (fgets(line, sizeof line, stdin)) {
        char *comma = strchr(line, ',');
        if (!comma || line[0] > '9') continue;
        long time = atol(line);
        double value = atof(comma + 1);
        memcpy(block + readings % KEPT * 16, &time, sizeof time);
        memcpy(block + readings % KEPT * 16 + 8, &value, sizeof value);
        if (++readings % each == 0) commit(file, writes, syncs);
    }
    if (readings % each) commit(file, writes, syncs);
    printf("loaded %ld\n", readings);
    return 0;
}
