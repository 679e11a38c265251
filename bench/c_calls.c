/* Calls of the C interface on a page: c_calls BOXES WHAT COUNT, where WHAT is "paints" (a box of the page moves, and a paint),
 * "edits" (the move alone), "unknown" (an edit of a box that is not there), "hits" or "copies" (a tile of 64 by 64 pixels). */
#include "rd.h"
#include <stdio.h>
#include <stdlib.h>

static void must(uint32_t is, uint32_t wanted, const char *what) {
    if (is != wanted) { fprintf(stderr, "%s: %u\n", what, is); exit(1); }
}

int main(int argc, char **argv) {
    if (argc != 4) return 2;
    int boxes = atoi(argv[1]), count = atoi(argv[3]);
    const char *what = argv[2];
    rd_engine e = RD_NONE;
    rd_style s = rd_plain();
    rd_rect all = {0, 0, 1000, 1000};
    rd_note note;
    char id[65], parent[65];
    static uint8_t tile[4 * 64 * 64];
    s.background = (rd_color){255, 255, 255, 255};
    must(rd_new(&e, 1000, 1000, "b0", &all, &s), RD_OK, "new");
    s.background = (rd_color){51, 102, 153, 255};
    for (int i = 1; i < boxes; i++) {
        rd_rect r = {(i * 37) % 960, (i * 91) % 960, 12, 9};
        snprintf(id, sizeof id, "b%d", i);
        snprintf(parent, sizeof parent, "b%d", i / 10);
        must(rd_insert(&e, id, parent, 0, &r, &s), RD_OK, "insert");
    }
    must(rd_paint(&e, &note), RD_OK, "paint");
    snprintf(id, sizeof id, "b%d", boxes - 1);
    for (int i = 0; i < count; i++) {
        rd_rect r = {(i * 37) % 900, (i * 53) % 900, 12, 9}, place = {(i * 64) % 896, 64, 64, 64};
        if (!strcmp(what, "unknown")) { must(rd_set_rect(&e, "nobody", &r), RD_UNKNOWN_ID, what); continue; }
        if (!strcmp(what, "hits")) { must(rd_hit(&e, i % 1000, 500, parent), RD_OK, what); continue; }
        if (!strcmp(what, "copies")) { must(rd_copy(&e, &place, RD_BGRA, 256, tile, sizeof tile), RD_OK, what); continue; }
        must(rd_set_rect(&e, id, &r), RD_OK, what);
        if (!strcmp(what, "paints")) must(rd_paint(&e, &note), RD_OK, what);
    }
    must(rd_free(&e), RD_OK, "free");
    return 0;
}
