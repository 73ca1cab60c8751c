// Fills each column from its least to its greatest value, and joins its last value to the next column's first.
#include "plot.h"

struct column {
    int64_t first, least, greatest, last;
};

// The first slot that isn't left of the column.
static size_t border(int column) {
    return (column * slot_count + width - 1) / width;
}

static int find_column(int at, struct column *found) {
    int is_used = 0;
    for (size_t slot = border(at); slot < border(at + 1); slot++) {
        int64_t value = slots[slot];
        if (value == MISSING) continue;
        if (!is_used) *found = (struct column){value, value, value, value};
        if (value < found->least) found->least = value;
        if (value > found->greatest) found->greatest = value;
        found->last = value;
        is_used = 1;
    }
    return is_used;
}

static void draw_slots(void) {
    struct column column;
    int last_x = -1, last_y = 0;
    for (int x = 0; x < width; x++) {
        if (!find_column(x, &column)) continue;
        if (last_x >= 0) draw_segment(last_x, last_y, x, height_of(column.first));
        draw_segment(x, height_of(column.least), x, height_of(column.greatest));
        last_x = x, last_y = height_of(column.last);
    }
}

int main(int count, char **words) {
    read_words(count, words);
    read_slots();
    make_bitmap();
    draw_slots();
    send_bitmap();
}
