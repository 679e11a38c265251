/* An engine is made, edited, painted, read and freed, and a scene is painted in one call. Ends with the number of the first check
 * that fails, or 0. */
#include "rd.h"
#include <stdio.h>

static int checks;
#define CHECK(is) do { checks++; if (!(is)) { fprintf(stderr, "check %d fails: %s\n", checks, #is); return checks; } } while (0)

static rd_style filled(uint8_t r, uint8_t g, uint8_t b) {
    rd_style s = rd_plain();
    s.background = (rd_color){r, g, b, 255};
    return s;
}

static int edits(void) {
    rd_engine e = RD_NONE, other = RD_NONE;
    rd_color c;
    rd_entry entry;
    rd_note note;
    rd_span span;
    rd_rect tiles[9];
    size_t count = 9;
    char id[65];
    static uint8_t rgba[4 * 10 * 10];
    rd_style white = filled(255, 255, 255), red = filled(255, 0, 0), green = filled(0, 255, 0), blue = filled(0, 0, 255);
    rd_rect all = {0, 0, 10, 10}, a = {1, 1, 4, 4}, b = {3, 3, 4, 4}, far = {8, 8, 2, 2};

    CHECK(rd_remove(&e, "a") == RD_NO_ENGINE);
    CHECK(rd_free(&e) == RD_NO_ENGINE);
    CHECK(rd_new(0, 10, 10, "root", &all, &white) == RD_NULL);
    CHECK(rd_new(&e, 0, 10, "root", &all, &white) == RD_BAD_VALUE);
    CHECK(rd_new(&e, 10, 4097, "root", &all, &white) == RD_BAD_VALUE);
    CHECK(rd_new(&e, 10, 10, "no id", &all, &white) == RD_BAD_ID);
    CHECK(rd_new(&e, 10, 10, "root", &all, &white) == RD_OK);
    CHECK(rd_new(&e, 10, 10, "root", &all, &white) == RD_IN_USE);
    CHECK(rd_pixel(&e, 0, 0, &c) == RD_PENDING && rd_hit(&e, 0, 0, id) == RD_PENDING);
    CHECK(rd_insert(&e, "a", "root", 0, &a, &red) == RD_OK);
    CHECK(rd_insert(&e, "b", "root", 0, &b, &green) == RD_OK);
    CHECK(rd_insert(&e, "far", "root", "b", &far, &blue) == RD_OK);
    CHECK(rd_insert(&e, "a", "root", 0, &a, &red) == RD_DUPLICATE_ID);
    CHECK(rd_insert(&e, "d", "nobody", 0, &a, &red) == RD_UNKNOWN_PARENT);
    CHECK(rd_insert(&e, "d", "root", "d", &a, &red) == RD_NOT_A_CHILD);
    rd_style wrong = red;
    wrong.display = 7;
    CHECK(rd_insert(&e, "d", "root", 0, &a, &wrong) == RD_BAD_VALUE);
    wrong = red;
    wrong.outline_width = 1001;
    CHECK(rd_insert(&e, "d", "root", 0, &a, &wrong) == RD_OUT_OF_RANGE);
    CHECK(rd_remove(&e, "root") == RD_IS_ROOT);
    CHECK(rd_set_style(&e, "a", &blue, RD_BACKGROUND | RD_Z) == RD_OK);
    CHECK(rd_set_rect(&e, "far", &a) == RD_OK);
    CHECK(rd_shift(&e, "b", 2, 0) == RD_OK && rd_shift(&e, "b", 2000000, 0) == RD_OUT_OF_RANGE);
    CHECK(rd_move(&e, "b", "a", 0) == RD_OK && rd_move(&e, "a", "b", 0) == RD_INTO_ITSELF);
    CHECK(rd_scroll(&e, "nobody", 1, 1) == RD_UNKNOWN_ID && rd_scroll(&e, "a", 1000001, 0) == RD_OUT_OF_RANGE);
    CHECK(rd_list(&e, &entry, 1, &count) == RD_OK && count == 0);
    CHECK(rd_spans(&e, &span, 1, &count) == RD_NOTHING && rd_tiles(&e, 4, tiles, 9, &count) == RD_NOTHING);
    CHECK(rd_copy(&e, &all, RD_RGBA, 40, rgba, sizeof rgba - 1) == RD_SHORT);
    CHECK(rd_copy(&e, &all, RD_RGBA, 39, rgba, sizeof rgba) == RD_BAD_VALUE);
    CHECK(rd_copy(&e, &all, 2, 40, rgba, sizeof rgba) == RD_BAD_VALUE);
    CHECK(rd_copy(&e, &all, RD_RGBA, SIZE_MAX / 2, rgba, sizeof rgba) == RD_SHORT);
    CHECK(rd_copy(&e, &all, RD_RGBA, 40, rgba, sizeof rgba) == RD_OK && rgba[0] == 255 && rgba[399] == 255);
    CHECK(rd_paint(&e, &note) == RD_OK && note.number == 1 && note.area == 100 && note.kept == 0);
    CHECK(rd_list(&e, &entry, 1, &count) == RD_SHORT && count == note.built);
    CHECK(rd_spans(&e, &span, 1, &count) == RD_SHORT && count == 10);
    CHECK(rd_tiles(&e, 4, tiles, 8, &count) == RD_SHORT && count == 9);
    CHECK(rd_tiles(&e, 4, tiles, 9, &count) == RD_OK && count == 9 && tiles[5].x == 8 && tiles[5].y == 4 && tiles[5].w == 2 && tiles[5].h == 4);
    CHECK(rd_tiles(&e, 0, tiles, 9, &count) == RD_BAD_VALUE && rd_tiles(&e, 4097, tiles, 9, &count) == RD_BAD_VALUE);
    CHECK(rd_paint(&e, &note) == RD_OK && note.number == 2 && note.area == 0 && note.built == 0);
    CHECK(rd_spans(&e, &span, 1, &count) == RD_OK && count == 0 && rd_tiles(&e, 4, tiles, 9, &count) == RD_OK && count == 0);
    CHECK(rd_pixel(&e, 1, 1, &c) == RD_OK && c.r == 0 && c.b == 255 && c.a == 255 && rd_pixel(&e, 10, 0, &c) == RD_NOTHING);
    CHECK(rd_hit(&e, 0, 0, id) == RD_OK && !strcmp(id, "root") && rd_hit(&e, -1, 0, id) == RD_NOTHING);
    wrong = blue;
    wrong.overflow = RD_OVERFLOW_SCROLL;
    CHECK(rd_remove(&e, "far") == RD_OK && rd_set_style(&e, "a", &wrong, RD_OVERFLOW) == RD_OK);
    CHECK(rd_set_rect(&e, "b", &a) == RD_OK && rd_scroll(&e, "a", 0, 2) == RD_OK);
    CHECK(rd_paint(&e, &note) == RD_OK && rd_pixel(&e, 1, 2, &c) == RD_OK && c.g == 255 && rd_pixel(&e, 1, 3, &c) == RD_OK && c.b == 255);
    CHECK(rd_undo(&e, &count) == RD_NOTHING && rd_keep(&e, 1025) == RD_BAD_VALUE && rd_keep(&e, 2) == RD_OK && rd_undo(&e, &count) == RD_NOTHING);
    CHECK(rd_shift(&e, "a", 1, 0) == RD_OK && rd_remove(&e, "a") == RD_OK && rd_remove(&e, "b") == RD_UNKNOWN_ID);
    CHECK(rd_undo(&e, &count) == RD_OK && count == 3 && rd_insert(&e, "b", "root", 0, &b, &green) == RD_DUPLICATE_ID);
    CHECK(rd_undo(&e, &count) == RD_OK && count == 1 && rd_undo(&e, &count) == RD_NOTHING && count == 0);
    CHECK(rd_paint(&e, &note) == RD_OK && rd_pixel(&e, 1, 2, &c) == RD_OK && c.g == 255 && rd_pixel(&e, 1, 3, &c) == RD_OK && c.b == 255);
    CHECK(rd_keep(&e, 0) == RD_OK && rd_remove(&e, "a") == RD_OK && rd_undo(&e, &count) == RD_NOTHING);
    CHECK(rd_new(&other, 3, 3, "root", &all, &red) == RD_OK);
    CHECK(rd_free(&e) == RD_OK && rd_free(&e) == RD_NO_ENGINE);
    CHECK(rd_insert(&other, "a", "root", 0, &a, &red) == RD_OK);
    CHECK(rd_free(&other) == RD_OK);
    return 0;
}

static int scene(void) {
    const char *names = "root a b";
    rd_box boxes[3] = {
        {{0, 0, 10, 10}, filled(255, 255, 255), 0, 4, 0, 0},
        {{1, 1, 4, 4}, filled(255, 0, 0), 5, 6, 0, 4},
        {{3, 3, 4, 4}, filled(0, 255, 0), 7, 8, 0, 4},
    };
    static uint8_t rgba[4 * 10 * 10];
    rd_note note;
    CHECK(rd_render(10, 10, names, boxes, 3, rgba, sizeof rgba, &note) == RD_OK);
    CHECK(note.number == 1 && note.built == 3 && note.kept == 0 && note.area == 100);
    for (int y = 0; y < 10; y++)
        for (int x = 0; x < 10; x++) {
            int in_b = x >= 3 && x < 7 && y >= 3 && y < 7, in_a = x >= 1 && x < 5 && y >= 1 && y < 5;
            uint8_t is[4] = {in_b ? 0 : 255, in_b || !in_a ? 255 : 0, in_b || in_a ? 0 : 255, 255};
            CHECK(!memcmp(is, rgba + 4 * (10 * y + x), 4));
        }
    boxes[2].name_end = 100;
    CHECK(rd_render(10, 10, names, boxes, 3, rgba, sizeof rgba, &note) == RD_BAD_VALUE);
    CHECK(rd_render(10, 10, names, boxes, 0, rgba, sizeof rgba, &note) == RD_BAD_VALUE);
    CHECK(rd_render(10, 10, names, boxes, 2, rgba, 399, &note) == RD_SHORT);
    return 0;
}

int main(void) {
    int failed = edits();
    if (!failed) failed = scene();
    if (!failed) printf("%d checks\n", checks);
    return failed;
}
