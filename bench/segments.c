// Draws the segment from each stored value to the next.
#include "plot.h"

static int column_of(size_t slot) {
    return slot * width / slot_count;
}

static void draw_slots(void) {
    int has_last = 0, x = 0, y = 0;
    for (size_t slot = 0; slot < slot_count; slot++) {
        if (slots[slot] == MISSING) continue;
        int next_x = column_of(slot), next_y = height_of(slots[slot]);
        draw_segment(has_last ? x : next_x, has_last ? y : next_y, next_x, next_y);
        x = next_x, y = next_y, has_last = 1;
    }
}

int main(int count, char **words) {
    read_words(count, words);
    read_slots();
    make_bitmap();
    draw_slots();
    send_bitmap();
}
