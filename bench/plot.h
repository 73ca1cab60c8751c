// What the two plain programs share: words, lines, projection, bitmap and PBM. They take the chart program's words and
// end with its statuses, so that they can be compared with it byte for byte. They differ in how they draw.
#include <stdint.h>
#include <stdio.h>
#include <stdlib.h>
#include <string.h>

#define MOST_VALUES 1048576
#define GREATEST_VALUE 1000000000000000000
#define LINE_BYTES 8192
#define MISSING INT64_MIN

enum { WRONG_WORD = 2, NO_MEMORY = 3, READ_FAULT = 4, SEND_FAULT = 5, BAD_LINE = 8, TOO_MUCH = 9 };

static int width, height;
static int64_t *slots;
static size_t slot_count;
static int64_t least, greatest;
static uint8_t *bits;
static size_t row_bytes;

static void stop(int code, uint64_t place) {
    fprintf(stderr, "chart: status %d at %llu\n", code, (unsigned long long)place);
    exit(code);
}

static int size_of_word(const char *word) {
    int size = 0;
    if (*word == '0') return 0;
    for (; *word >= '0' && *word <= '9' && size <= 4096; word++) size = size * 10 + (*word - '0');
    return *word || size > 4096 ? 0 : size;
}

// The words are the path, which is not used, then plot, the width and the height.
static void read_words(int count, char **words) {
    int *sizes[] = {NULL, &width, &height};
    for (int at = 0; at < 3; at++) {
        if (at + 2 >= count) stop(WRONG_WORD, at);
        if (at == 0 && strcmp(words[2], "plot")) stop(WRONG_WORD, 0);
        if (at > 0 && !(*sizes[at] = size_of_word(words[at + 2]))) stop(WRONG_WORD, at);
    }
    if (count > 5) stop(WRONG_WORD, 3);
}

// The next line's length without its line feed and one carriage return, -1 at the end of input, -2 where it is too long.
static int next_line(char *line, uint64_t *offset) {
    int length = 0, byte;
    while ((byte = getc_unlocked(stdin)) != EOF && byte != '\n') {
        if (length == LINE_BYTES) return -2;
        line[length++] = byte;
    }
    if (byte == EOF && length == 0) return -1;
    *offset += length + 1;
    return length && line[length - 1] == '\r' ? length - 1 : length;
}

static int read_value(const char *line, int length, int64_t *value) {
    if (length == 1 && *line == '-') return *value = MISSING, 1;
    int is_negative = *line == '-';
    const char *digit = line + is_negative, *end = line + length;
    if (end - digit < 1 || end - digit > 19) return 0;
    if (*digit == '0') return *value = 0, length == 1;
    uint64_t size = 0;
    for (; digit < end; digit++) {
        if (*digit < '0' || *digit > '9') return 0;
        size = size * 10 + (*digit - '0');
    }
    if (size > GREATEST_VALUE) return 0;
    *value = is_negative ? -(int64_t)size : (int64_t)size;
    return 1;
}

static void add_slot(int64_t value) {
    slots[slot_count++] = value;
    if (value == MISSING) return;
    if (value < least) least = value;
    if (value > greatest) greatest = value;
}

static void read_slots(void) {
    static char line[LINE_BYTES];
    uint64_t offset = 0, start = 0;
    int64_t value;
    int length;
    if (!(slots = malloc(MOST_VALUES * sizeof *slots))) stop(NO_MEMORY, 0);
    least = INT64_MAX, greatest = INT64_MIN;
    for (; (length = next_line(line, &offset)) != -1; start = offset) {
        if (length == 0) continue;
        if (length < 0 || !read_value(line, length, &value)) stop(BAD_LINE, start);
        if (slot_count == MOST_VALUES) stop(TOO_MUCH, MOST_VALUES);
        add_slot(value);
    }
    if (ferror(stdin)) stop(READ_FAULT, 0);
}

static int height_of(int64_t value) {
    if (greatest == least) return 0;
    return (unsigned __int128)(uint64_t)(value - least) * (height - 1) / (uint64_t)(greatest - least);
}

static void make_bitmap(void) {
    row_bytes = (width + 7) / 8;
    if (!(bits = calloc(height, row_bytes))) stop(NO_MEMORY, 0);
}

static void blacken(int x, int y) {
    bits[(size_t)(height - 1 - y) * row_bytes + x / 8] |= 0x80 >> x % 8;
}

// One pixel in each step along the longer side. The other side moves by floor((2 * n * shorter + longer) / (2 * longer))
// in n steps, which the sum follows: a tie goes away from the start.
static void draw_segment(int x1, int y1, int x2, int y2) {
    int across = x2 - x1, up = abs(y2 - y1), sign = y2 < y1 ? -1 : 1;
    int is_steep = up > across, longer = is_steep ? up : across, shorter = is_steep ? across : up;
    int x = x1, y = y1, sum = longer;
    blacken(x, y);
    for (int n = 1; n <= longer; n++) {
        sum += 2 * shorter;
        int moves = sum >= 2 * longer;
        if (moves) sum -= 2 * longer;
        x += is_steep ? moves : 1;
        y += is_steep ? sign : sign * moves;
        blacken(x, y);
    }
}

static void send_bitmap(void) {
    printf("P4\n%d %d\n", width, height);
    fwrite(bits, row_bytes, height, stdout);
    if (fflush(stdout) || ferror(stdout)) stop(SEND_FAULT, 0);
}
