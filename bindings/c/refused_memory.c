/* Refuses each allocation of a run in turn: each call is done or says that memory is wanting, nothing is lost, and the engine goes
 * on afterwards. (Some room is asked for speed alone: without it a call is done all the same.) Link it with -Wl,--wrap=malloc,--wrap=realloc. */
#include "rd.h"
#include <stdio.h>
#include <stdlib.h>

void *__real_malloc(size_t n);
void *__real_realloc(void *p, size_t n);
static long left = -1;
static bool refused;

static bool refuses(void) {
    if (left != 0) { left -= left > 0; return false; }
    left = -1;
    return refused = true;
}
void *__wrap_malloc(size_t n) { return refuses() ? 0 : __real_malloc(n); }
void *__wrap_realloc(void *p, size_t n) { return refuses() ? 0 : __real_realloc(p, n); }

static const rd_rect all = {0, 0, 10, 10};

static uint32_t run(rd_engine *e) {
    rd_style s = rd_plain();
    rd_box boxes[2] = {{all, s, 0, 4, 0, 0}, {all, s, 5, 6, 0, 4}};
    static uint8_t rgba[400];
    rd_note note;
    static rd_entry entries[9];
    static rd_span spans[16];
    static rd_rect tiles[9];
    size_t count, more = 0;
    uint32_t is;
    if ((is = rd_new(e, 10, 10, "root", &all, &s))) return is;
    if ((is = rd_keep(e, 2))) return is;
    if ((is = rd_insert(e, "a", "root", 0, &all, &s))) return is;
    if ((is = rd_insert(e, "b", "root", "a", &all, &s))) return is;
    if ((is = rd_move(e, "b", "a", 0))) return is;
    if ((is = rd_set_style(e, "a", &s, RD_Z))) return is;
    if ((is = rd_paint(e, &note))) return is;
    if ((is = rd_list(e, entries, 9, &count))) return is;
    if ((is = rd_spans(e, spans, 16, &count))) return is;
    if ((is = rd_tiles(e, 4, tiles, 9, &count))) return is;
    if ((is = rd_remove(e, "a"))) return is;
    if ((is = rd_paint(e, &note))) return is;
    /* an undo that wanted memory goes on where it stopped */
    is = rd_undo(e, &count);
    if (is == RD_NO_MEMORY) is = rd_undo(e, &more);
    if (is) return is;
    if (count + more != 2) exit(3);
    if ((is = rd_shift(e, "a", 1, 1)) || (is = rd_shift(e, "b", -1, -1))) return is;
    if ((is = rd_paint(e, &note))) return is;
    return rd_render(10, 10, "root a", boxes, 2, rgba, sizeof rgba, &note);
}

int main(void) {
    int n = 0;
    for (;; n++) {
        rd_engine e = RD_NONE;
        refused = false;
        left = n;
        uint32_t is = run(&e);
        left = -1;
        if (is != RD_OK && !(refused && is == RD_NO_MEMORY)) { printf("allocation %d: status %u\n", n, is); return 1; }
        rd_style s = rd_plain();
        if (e.full && (rd_insert(&e, "c", "root", 0, &all, &s) || rd_free(&e))) return 2;
        if (!refused) break;
    }
    printf("%d allocations refused in turn\n", n);
    return 0;
}
