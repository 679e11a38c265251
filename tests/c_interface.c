/* Runs a script through the C interface: reads its commands as plain lines, which tests/c_interface makes, and writes what `replay` writes.
 * With the word "batch" edits go through rd_edits, some at a time; the picture of a shot is written as hexadecimal digits, for the
 * reader to make its digest. */
#include "rd.h"
#include <stdio.h>
#include <stdlib.h>

static rd_engine engine = RD_NONE;
static int32_t width, height;
static bool pending = true;

static void fail(const char *what, uint32_t status) {
    printf("FAULT %s %u\n", what, status);
    exit(1);
}

static void get(long long *n) {
    if (scanf("%lld", n) != 1) fail("input", 0);
}
static long long number(void) { long long n; get(&n); return n; }
static rd_rect rect(void) {
    rd_rect r;
    r.x = (int32_t)number(); r.y = (int32_t)number(); r.w = (int32_t)number(); r.h = (int32_t)number();
    return r;
}
static rd_color color(void) {
    rd_color c;
    c.r = (uint8_t)number(); c.g = (uint8_t)number(); c.b = (uint8_t)number(); c.a = (uint8_t)number();
    return c;
}
static rd_style style(void) {
    rd_style s;
    memset(&s, 0, sizeof s);
    s.z = (int32_t)number();
    s.background = color(); s.border_color = color(); s.content = color(); s.outline_color = color();
    s.border_top = (uint16_t)number(); s.border_right = (uint16_t)number(); s.border_bottom = (uint16_t)number();
    s.border_left = (uint16_t)number(); s.outline_width = (uint16_t)number();
    s.position = (uint8_t)number(); s.has_z = (uint8_t)number(); s.opacity = (uint8_t)number(); s.overflow = (uint8_t)number();
    s.display = (uint8_t)number(); s.float_ = (uint8_t)number(); s.has_content = (uint8_t)number(); s.visibility = (uint8_t)number();
    s.pointer = (uint8_t)number(); s.blend = (uint8_t)number(); s.isolation = (uint8_t)number();
    return s;
}

/* Edits that wait for rd_edits, with the text that their names are in. */
enum { MOST = 7 };
static rd_edit waiting[MOST];
static char texts[MOST * 3 * 65];
static size_t count, used;
static bool batch;

static void answer(uint32_t status) {
    if (status == RD_OK) { pending = true; puts("ok"); return; }
    if (status < 10) { printf("refused %u\n", status); return; }
    fail("edit", status);
}

static void flush_edits(void) {
    size_t from = 0, done = 0;
    while (from < count) {
        uint32_t status = rd_edits(&engine, texts, waiting + from, count - from, &done);
        for (size_t i = 0; i < done; i++) answer(RD_OK);
        if (status == RD_OK && done != count - from) fail("done", (uint32_t)done);
        if (status != RD_OK) answer(status);
        from += done + (status != RD_OK);
    }
    count = used = 0;
}

static bool is_number(const char *s) {
    if (!*s || strlen(s) > 18 || (*s == '0' && s[1])) return false;
    for (; *s; s++) if (*s < '0' || *s > '9') return false;
    return true;
}

static rd_name name(const char *s) {
    if (!s) return rd_no_name();
    if (is_number(s)) return rd_number(strtoull(s, 0, 10));
    size_t n = strlen(s);
    memcpy(texts + used, s, n);
    used += n;
    texts[used] = 0;
    return rd_bytes((uint32_t)(used - n), (uint32_t)used);
}

static void wait_for(uint32_t kind, const char *id, const char *parent, const char *before, rd_rect place, rd_style look, uint32_t members, int32_t dx, int32_t dy) {
    rd_edit e;
    memset(&e, 0, sizeof e);
    e.kind = kind; e.id = name(id); e.parent = name(parent); e.before = name(before);
    e.place = place; e.look = look; e.members = members; e.dx = dx; e.dy = dy;
    waiting[count++] = e;
    if (count == MOST) flush_edits();
}

static int32_t least(int32_t a, int32_t b) { return a < b ? a : b; }

/* The tiles of a side are those that have a pixel of the spans, row by row. */
static void tiles(const rd_span *spans, size_t many, int32_t side) {
    int32_t columns = (width + side - 1) / side, rows = (height + side - 1) / side;
    size_t met = 0, told = 0, i = 0;
    bool *is_met = calloc((size_t)(columns * rows), sizeof *is_met);
    rd_rect none, *all;
    if (!is_met) fail("memory", 1);
    for (size_t k = 0; k < many; k++)
        for (int32_t x = spans[k].x0; x < spans[k].x1; x++) is_met[spans[k].y / side * columns + x / side] = true;
    for (int32_t k = 0; k < columns * rows; k++) met += is_met[k];
    uint32_t status = rd_tiles(&engine, (uint32_t)side, &none, 0, &told);
    if (status != (met ? RD_SHORT : RD_OK) || told != met) fail("tiles", status);
    all = malloc((met + 1) * sizeof *all);
    if (!all || rd_tiles(&engine, (uint32_t)side, all, met, &told) != RD_OK || told != met) fail("tiles again", (uint32_t)told);
    for (int32_t k = 0; k < columns * rows; k++) {
        if (!is_met[k]) continue;
        int32_t x = k % columns * side, y = k / columns * side;
        rd_rect is = {x, y, least(side, width - x), least(side, height - y)};
        if (memcmp(&all[i++], &is, sizeof is)) fail("tile", (uint32_t)k);
    }
    free(all);
    free(is_met);
}

static void paint(void) {
    rd_note n;
    uint32_t status = rd_paint(&engine, &n);
    if (status != RD_OK) fail("paint", status);
    pending = false;
    printf("paint %llu built %llu kept %llu area %llu\n", (unsigned long long)n.number, (unsigned long long)n.built, (unsigned long long)n.kept, (unsigned long long)n.area);
    /* the spans have as many pixels as the note says */
    size_t spans = 0, again = 0;
    rd_span none, *all;
    status = rd_spans(&engine, &none, 0, &spans);
    if (status != (spans ? RD_SHORT : RD_OK)) fail("spans", status);
    all = malloc((spans + 1) * sizeof *all);
    if (!all || rd_spans(&engine, all, spans, &again) != RD_OK || again != spans) fail("spans again", (uint32_t)again);
    unsigned long long pixels = 0;
    for (size_t i = 0; i < spans; i++) {
        bool on = 0 <= all[i].y && all[i].y < height && 0 <= all[i].x0 && all[i].x0 < all[i].x1 && all[i].x1 <= width;
        bool after = !i || all[i - 1].y < all[i].y || (all[i - 1].y == all[i].y && all[i - 1].x1 < all[i].x0);
        if (!on || !after) fail("span", (uint32_t)i);
        pixels += (unsigned long long)(all[i].x1 - all[i].x0);
    }
    if (pixels != n.area) fail("area", (uint32_t)pixels);
    for (int32_t side = 1; side <= 64; side = 2 * side + 1) tiles(all, spans, side);
    tiles(all, spans, 64);
    free(all);
}
static void settle(void) { if (pending) paint(); }

static const char *parts[] = {"back", "border", "content", "outline"};
static const char *modes[] = {"normal", "multiply", "screen", "darken", "lighten"};

/* Writes the entries of one level from entry i on, and gives the place behind them. */
static size_t level(const rd_entry *list, size_t i, uint64_t entries, int depth) {
    char id[65];
    for (; entries; entries--) {
        const rd_entry *e = &list[i++];
        uint32_t status = rd_id(&engine, e->slot, e->generation, id);
        if (status != RD_OK) fail("id", status);
        if (e->kind == RD_GROUP) {
            printf("group %d %s %u %llu", depth, id, e->opacity, (unsigned long long)e->entries);
            if (e->blend) printf(" %s", modes[e->blend]);
            puts("");
            i = level(list, i, e->entries, depth + 1);
            continue;
        }
        printf("item %d %s %s", depth, id, parts[e->kind]);
        printf(" %d %d %d %d", e->visible.x, e->visible.y, e->visible.w, e->visible.h);
        printf(" %d %d %d %d", e->outer.x, e->outer.y, e->outer.w, e->outer.h);
        printf(" %d %d %d %d", e->inner.x, e->inner.y, e->inner.w, e->inner.h);
        printf(" %02x%02x%02x%02x %s %llu\n", e->color.r, e->color.g, e->color.b, e->color.a, e->hits ? "auto" : "none", (unsigned long long)e->made_at);
    }
    return i;
}

static void dump(void) {
    size_t n = 0, again = 0, leaves = 0;
    uint64_t top = 0;
    rd_entry none, *list;
    settle();
    uint32_t status = rd_list(&engine, &none, 0, &n);
    if (status != (n ? RD_SHORT : RD_OK)) fail("list", status);
    list = malloc((n + 1) * sizeof *list);
    if (!list || rd_list(&engine, list, n, &again) != RD_OK || again != n) fail("list again", (uint32_t)again);
    for (size_t i = 0; i < n; i++) leaves += list[i].kind != RD_GROUP;
    /* an entry of the top level for each that stands in no group */
    top = n;
    for (size_t i = 0; i < n; i++) if (list[i].kind == RD_GROUP) top -= list[i].entries;
    printf("dump %zu\n", leaves);
    if (level(list, 0, top, 0) != n) fail("entries", (uint32_t)n);
    free(list);
}

/* The picture by rows of a stride, in both formats, and once more in two parts. */
static void shot(void) {
    settle();
    size_t stride = 4 * (size_t)width + 5, length = stride * (size_t)height;
    uint8_t *rgba = malloc(length), *bgra = malloc(length);
    rd_rect all = {0, 0, width, height}, upper = {0, 0, width, height / 2}, lower = {0, height / 2, width, height - height / 2};
    if (!rgba || !bgra) fail("memory", 0);
    memset(rgba, 7, length);
    memset(bgra, 7, length);
    if (rd_copy(&engine, &all, RD_RGBA, stride, rgba, length) != RD_OK) fail("copy", 0);
    if (rd_copy(&engine, &upper, RD_BGRA, stride, bgra, length) != RD_OK) fail("copy", 1);
    if (rd_copy(&engine, &lower, RD_BGRA, stride, bgra + stride * (size_t)(height / 2), length - stride * (size_t)(height / 2)) != RD_OK) fail("copy", 2);
    printf("picture ");
    for (int32_t y = 0; y < height; y++) {
        const uint8_t *a = rgba + stride * (size_t)y, *b = bgra + stride * (size_t)y;
        for (int32_t x = 0; x < width; x++, a += 4, b += 4) {
            if (a[0] != b[2] || a[1] != b[1] || a[2] != b[0] || a[3] != 255 || b[3] != 255) fail("pixel", (uint32_t)x);
            printf("%02x%02x%02x", a[0], a[1], a[2]);
        }
        for (int k = 0; k < 5; k++) if (a[k] != 7 || b[k] != 7) fail("between rows", (uint32_t)y);
    }
    puts("");
    free(rgba);
    free(bgra);
}

static const char *given(char *s) { return strcmp(s, "-") ? s : 0; }

int main(int argc, char **argv) {
    char word[16], id[80], parent[80], before[80];
    uint32_t status;
    rd_rect no_rect = {0, 0, 0, 0};
    batch = argc > 1 && !strcmp(argv[1], "batch");
    while (scanf("%15s", word) == 1) {
        bool edit = !strcmp(word, "insert") || !strcmp(word, "remove") || !strcmp(word, "move") || !strcmp(word, "style") || !strcmp(word, "rect") || !strcmp(word, "shift") || !strcmp(word, "scroll");
        if (!edit) flush_edits();
        if (!strcmp(word, "canvas")) {
            width = (int32_t)number(); height = (int32_t)number();
        } else if (!strcmp(word, "root")) {
            if (scanf("%79s", id) != 1) fail("input", 1);
            rd_rect r = rect(); rd_style s = style();
            if ((status = rd_new(&engine, width, height, id, &r, &s))) fail("new", status);
        } else if (!strcmp(word, "box") || !strcmp(word, "insert")) {
            if (scanf("%79s %79s %79s", id, parent, before) != 3) fail("input", 2);
            rd_rect r = rect(); rd_style s = style();
            if (!edit) { if ((status = rd_insert(&engine, id, parent, given(before), &r, &s))) fail("box", status); }
            else if (batch) wait_for(RD_INSERT, id, parent, given(before), r, s, 0, 0, 0);
            else answer(rd_insert(&engine, id, parent, given(before), &r, &s));
        } else if (!strcmp(word, "remove")) {
            if (scanf("%79s", id) != 1) fail("input", 3);
            if (batch) wait_for(RD_REMOVE, id, 0, 0, no_rect, rd_plain(), 0, 0, 0);
            else answer(rd_remove(&engine, id));
        } else if (!strcmp(word, "move")) {
            if (scanf("%79s %79s %79s", id, parent, before) != 3) fail("input", 4);
            if (batch) wait_for(RD_MOVE, id, parent, given(before), no_rect, rd_plain(), 0, 0, 0);
            else answer(rd_move(&engine, id, parent, given(before)));
        } else if (!strcmp(word, "style")) {
            if (scanf("%79s", id) != 1) fail("input", 5);
            uint32_t members = (uint32_t)number(); rd_style s = style();
            if (batch) wait_for(RD_SET_STYLE, id, 0, 0, no_rect, s, members, 0, 0);
            else answer(rd_set_style(&engine, id, &s, members));
        } else if (!strcmp(word, "rect")) {
            if (scanf("%79s", id) != 1) fail("input", 6);
            rd_rect r = rect();
            if (batch) wait_for(RD_SET_RECT, id, 0, 0, r, rd_plain(), 0, 0, 0);
            else answer(rd_set_rect(&engine, id, &r));
        } else if (!strcmp(word, "shift")) {
            if (scanf("%79s", id) != 1) fail("input", 7);
            int32_t dx = (int32_t)number(), dy = (int32_t)number();
            if (batch) wait_for(RD_SHIFT, id, 0, 0, no_rect, rd_plain(), 0, dx, dy);
            else answer(rd_shift(&engine, id, dx, dy));
        } else if (!strcmp(word, "scroll")) {
            if (scanf("%79s", id) != 1) fail("input", 8);
            int32_t x = (int32_t)number(), y = (int32_t)number();
            if (batch) wait_for(RD_SCROLL, id, 0, 0, no_rect, rd_plain(), 0, x, y);
            else answer(rd_scroll(&engine, id, x, y));
        } else if (!strcmp(word, "keep")) {
            if ((status = rd_keep(&engine, (uint32_t)number()))) fail("keep", status);
        } else if (!strcmp(word, "undo")) {
            size_t done = 9;
            status = rd_undo(&engine, &done);
            if (status != RD_OK && (status != RD_NOTHING || done)) fail("undo", status);
            pending = pending || status == RD_OK;
            if (status == RD_OK) printf("undone %zu\n", done);
            else puts("undo none");
        } else if (!strcmp(word, "paint")) {
            paint();
        } else if (!strcmp(word, "hit")) {
            int32_t x = (int32_t)number(), y = (int32_t)number();
            if (pending && rd_hit(&engine, x, y, id) != RD_PENDING) fail("pending", 1);
            settle();
            status = rd_hit(&engine, x, y, id);
            if (status != RD_OK && status != RD_NOTHING) fail("hit", status);
            printf("hit %s\n", status == RD_OK ? id : "none");
        } else if (!strcmp(word, "pixel")) {
            int32_t x = (int32_t)number(), y = (int32_t)number();
            rd_color c;
            if (pending && rd_pixel(&engine, x, y, &c) != RD_PENDING) fail("pending", 2);
            settle();
            status = rd_pixel(&engine, x, y, &c);
            if (status != RD_OK && status != RD_NOTHING) fail("pixel", status);
            if (status == RD_OK) printf("pixel %02x%02x%02x\n", c.r, c.g, c.b);
            else puts("pixel none");
        } else if (!strcmp(word, "dump")) {
            dump();
        } else if (!strcmp(word, "shot")) {
            shot();
        } else {
            fail(word, 0);
        }
    }
    flush_edits();
    if ((status = rd_free(&engine))) fail("free", status);
    return 0;
}
