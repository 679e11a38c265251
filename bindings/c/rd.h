/* Pouncelilac's display list for C.
 *
 * Include this header, and link librd_c.a with the C part of the kit's heap (liblibc_c.a). docs/EMBEDDING.md says how it is
 * built, and what is proved of each call.
 *
 * Call the functions rd_.. below, which are inline. They test what can be tested of a caller; the functions rd_c_.. that they
 * call take it for granted.
 *
 *   What a caller owes            | Who tests it
 *   ------------------------------+---------------------------------------------------------------------------------------
 *   a handle is RD_NONE at first, | nobody. Never write to one, copy one that holds an engine, or use one on two threads at
 *   or as the last call left it   | once. An engine that is freed leaves RD_NONE, and so is refused by RD_NO_ENGINE
 *   pointers are not null         | the inline functions (RD_NULL)
 *   pointers are to memory of the | nobody. What is written to is not read or written by anyone else meanwhile, and does
 *   type and the length given     | not overlap what is read
 *   a text ends with a 0 byte     | nobody
 *   ids, numbers of keywords,     | the library (RD_BAD_ID, RD_BAD_VALUE, RD_OUT_OF_RANGE)
 *   rectangles, sizes             |
 *   room for what is written      | the library, of the length given (RD_SHORT)
 *   malloc, realloc and free are  | nobody. No call comes from a signal handler
 *   of one allocator              |
 *   the stack has room            | nobody: a paint of 256 nested groups, and a list of as many, recur so deep
 */
#ifndef RD_H
#define RD_H

#include <stdbool.h>
#include <stddef.h>
#include <stdint.h>
#include <string.h>

#ifdef __cplusplus
extern "C" {
#endif

/* What a call answers: RD_OK where it was done, or why it was not. A call that was not done has changed no engine, but for
 * rd_edits, which does the edits before the one that is refused, and rd_undo where memory is wanting in its midst. */
enum rd_status {
    RD_OK = 0,
    /* Why an edit is refused: the first of these that holds. */
    RD_UNKNOWN_ID = 1,      /* no box has the id */
    RD_UNKNOWN_PARENT = 2,  /* no box has the parent's id */
    RD_IS_ROOT = 3,         /* the box is the root */
    RD_INTO_ITSELF = 4,     /* the new parent is the box or below it */
    RD_NOT_A_CHILD = 5,     /* the box to stand before is no other child of the parent */
    RD_DUPLICATE_ID = 6,    /* a box has the id already */
    RD_TOO_DEEP = 7,        /* a box would have a depth of 257 or more */
    RD_TOO_MANY = 8,        /* there are 20,000 boxes, with the slots that give no key any more */
    RD_OUT_OF_RANGE = 9,    /* a rectangle, a width or a scroll offset is out of range */
    RD_NO_MEMORY = 10,
    /* Why any call is. */
    RD_BAD_ID = 11,         /* an id is 1 to 64 ASCII letters, digits, `_`, `-`, `.` and `:` */
    RD_BAD_VALUE = 12,      /* a number stands for no keyword, a canvas is not 1 to 4096 pixels each way, a rectangle to copy is
                               not on the canvas, a stride is shorter than a row, more than 1024 edits are to be kept, or a tile is
                               not 1 to 4096 pixels each way */
    RD_NO_ENGINE = 13,      /* the handle holds no engine */
    RD_IN_USE = 14,         /* the handle holds an engine already */
    RD_PENDING = 15,        /* an edit came since the last paint, or there was none: paint first */
    RD_NOTHING = 16,        /* no box is hit, the pixel is off the canvas, there was no paint, no paint can be counted more, or no
                               edit is kept */
    RD_SHORT = 17,          /* the memory that was passed is too short */
    RD_NULL = 18            /* a pointer is null */
};

/* The handle of an engine: RD_NONE, or what a call left in it. */
typedef struct rd_engine { void *at; bool full; } rd_engine;
#define RD_NONE { 0, false }

/* A colour, not premultiplied, of 8 bits a channel. */
typedef struct rd_color { uint8_t r, g, b, a; } rd_color;
/* A rectangle in canvas pixels. */
typedef struct rd_rect { int32_t x, y, w, h; } rd_rect;

enum { RD_STATIC, RD_RELATIVE, RD_ABSOLUTE, RD_FIXED };             /* position (CSS 2.2 section 9.3.1) */
/* overflow (section 11.1.1) */
enum { RD_OVERFLOW_VISIBLE, RD_OVERFLOW_HIDDEN, RD_OVERFLOW_SCROLL, RD_OVERFLOW_AUTO };
enum { RD_BLOCK, RD_INLINE, RD_INLINE_BLOCK };                      /* display (section 9.2.4) */
enum { RD_NO_FLOAT, RD_LEFT, RD_RIGHT };                            /* float_ (section 9.5.1) */
enum { RD_IS_VISIBLE, RD_IS_HIDDEN, RD_IS_COLLAPSED };              /* visibility (section 11.2) */
enum { RD_HITS, RD_NO_HITS };                                       /* pointer: does the box take hits? */
enum { RD_NORMAL, RD_MULTIPLY, RD_SCREEN, RD_DARKEN, RD_LIGHTEN };  /* blend (CSS Compositing 1 section 3.4.1) */
enum { RD_NOT_ISOLATED, RD_ISOLATE };                               /* isolation (section 3.5) */

/* The computed values of a box. Where has_z is 0, z-index is auto; where has_content is 0, the box has no content. */
typedef struct rd_style {
    int32_t z;
    rd_color background, border_color, content, outline_color;
    uint16_t border_top, border_right, border_bottom, border_left, outline_width;
    uint8_t position, has_z, opacity, overflow, display, float_, has_content, visibility, pointer, blend, isolation;
} rd_style;

/* The members that rd_set_style is to change, put together by |. */
enum rd_member {
    RD_POSITION = 1, RD_Z = 2, RD_OPACITY = 4, RD_OVERFLOW = 8, RD_DISPLAY = 16, RD_FLOAT = 32, RD_BACKGROUND = 64,
    RD_BORDER_WIDTH = 128, RD_BORDER_COLOR = 256, RD_CONTENT = 512, RD_OUTLINE_WIDTH = 1024, RD_OUTLINE_COLOR = 2048,
    RD_VISIBILITY = 4096, RD_POINTER = 8192, RD_BLEND = 16384, RD_ISOLATION = 32768
};

/* What a paint tells of itself: its number, the items that it made and those that it kept, and the pixels that it painted. */
typedef struct rd_note { uint64_t number, built, kept, area; } rd_note;

/* The columns from x0 up to but not including x1 of row y. */
typedef struct rd_span { int32_t y, x0, x1; } rd_span;

enum { RD_BACK, RD_BORDER, RD_CONTENT_PART, RD_OUTLINE, RD_GROUP }; /* kind */

/* One entry of the list: a part of a box, or, where kind is RD_GROUP, a group with its opacity and its blend mode. The entries of a
 * group, so many of them, are the next of its own level; in rd_list they come right after it. */
typedef struct rd_entry {
    uint64_t made_at, entries;
    uint32_t slot, generation;
    rd_rect visible, outer, inner;
    rd_color color;
    uint8_t kind, hits, opacity, blend;
} rd_entry;

/* How a box is named in rd_edits: RD_NO_NAME, bytes of a text from .. up to but not including .. to, or a number, whose id is its
 * decimal digits. */
enum { RD_NO_NAME, RD_TEXT_NAME, RD_NUMBER_NAME };
typedef struct rd_name { uint64_t number; uint32_t from, to, kind; } rd_name;

/* An edit of rd_edits. What an edit of its kind has no use for is not read, but names are. dx and dy are how far a shift goes, or
 * the offset of a scroll. */
enum { RD_INSERT, RD_REMOVE, RD_MOVE, RD_SET_STYLE, RD_SET_RECT, RD_SHIFT, RD_SCROLL };
typedef struct rd_edit {
    rd_name id, parent, before;
    rd_rect place;
    rd_style look;
    uint32_t members;
    int32_t dx, dy;
    uint32_t kind;
} rd_edit;

/* A box of rd_render. Its id and its parent's are bytes of one text, from .. up to but not including .._end. */
typedef struct rd_box {
    rd_rect place;
    rd_style look;
    uint32_t name, name_end, parent, parent_end;
} rd_box;

enum { RD_RGBA, RD_BGRA };                                          /* the bytes of a pixel, the last of which is 255 */

/* ---- the library's own functions */
uint32_t rd_c_render(int32_t w, int32_t h, const uint8_t *names, size_t names_length, const rd_box *boxes, size_t count,
                     uint8_t *out, size_t length, rd_note *);
uint32_t rd_c_new(rd_engine *, int32_t w, int32_t h, const uint8_t *root, size_t root_length, const rd_rect *, const rd_style *);
uint32_t rd_c_free(rd_engine *);
uint32_t rd_c_insert(rd_engine *, const uint8_t *id, size_t id_length, const uint8_t *parent, size_t parent_length,
                     const uint8_t *before, size_t before_length, const rd_rect *, const rd_style *);
uint32_t rd_c_remove(rd_engine *, const uint8_t *id, size_t id_length);
uint32_t rd_c_move(rd_engine *, const uint8_t *id, size_t id_length, const uint8_t *parent, size_t parent_length,
                   const uint8_t *before, size_t before_length);
uint32_t rd_c_set_style(rd_engine *, const uint8_t *id, size_t id_length, const rd_style *, uint32_t members);
uint32_t rd_c_set_rect(rd_engine *, const uint8_t *id, size_t id_length, const rd_rect *);
uint32_t rd_c_shift(rd_engine *, const uint8_t *id, size_t id_length, int32_t dx, int32_t dy);
uint32_t rd_c_scroll(rd_engine *, const uint8_t *id, size_t id_length, int32_t x, int32_t y);
uint32_t rd_c_edits(rd_engine *, const uint8_t *texts, size_t texts_length, const rd_edit *edits, size_t count, size_t *done);
uint32_t rd_c_keep(rd_engine *, uint32_t steps);
uint32_t rd_c_undo(rd_engine *, size_t *done);
uint32_t rd_c_paint(rd_engine *, rd_note *);
uint32_t rd_c_spans(rd_engine *, rd_span *out, size_t room, size_t *count);
uint32_t rd_c_tiles(rd_engine *, uint32_t side, rd_rect *out, size_t room, size_t *count);
uint32_t rd_c_pixel(rd_engine *, int32_t x, int32_t y, rd_color *);
uint32_t rd_c_hit(rd_engine *, int32_t x, int32_t y, uint8_t *id, size_t room, size_t *id_length);
uint32_t rd_c_id(rd_engine *, uint32_t slot, uint32_t generation, uint8_t *id, size_t room, size_t *id_length);
uint32_t rd_c_copy(rd_engine *, const rd_rect *place, uint32_t format, size_t stride, uint8_t *out, size_t length);
uint32_t rd_c_list(rd_engine *, rd_entry *out, size_t room, size_t *count);

/* ---- the same, with their arguments tested */
#define RD_TEXT(s) (const uint8_t *)(s), strlen(s)

/* An engine of a canvas with a root. The handle holds none before, and the engine after RD_OK. */
static inline uint32_t rd_new(rd_engine *e, int32_t w, int32_t h, const char *root, const rd_rect *place, const rd_style *style) {
    return e && root && place && style ? rd_c_new(e, w, h, RD_TEXT(root), place, style) : RD_NULL;
}
/* The handle holds none afterwards. */
static inline uint32_t rd_free(rd_engine *e) { return e ? rd_c_free(e) : RD_NULL; }
/* `before` is a child of the parent, or null for the last place. */
static inline uint32_t rd_insert(rd_engine *e, const char *id, const char *parent, const char *before, const rd_rect *place, const rd_style *style) {
    if (!before) before = "";
    return e && id && parent && place && style ? rd_c_insert(e, RD_TEXT(id), RD_TEXT(parent), RD_TEXT(before), place, style) : RD_NULL;
}
static inline uint32_t rd_remove(rd_engine *e, const char *id) { return e && id ? rd_c_remove(e, RD_TEXT(id)) : RD_NULL; }
static inline uint32_t rd_move(rd_engine *e, const char *id, const char *parent, const char *before) {
    if (!before) before = "";
    return e && id && parent ? rd_c_move(e, RD_TEXT(id), RD_TEXT(parent), RD_TEXT(before)) : RD_NULL;
}
/* Changes the members of `members` (enum rd_member) to those of `style`, whose other members are keywords too. */
static inline uint32_t rd_set_style(rd_engine *e, const char *id, const rd_style *style, uint32_t members) {
    return e && id && style ? rd_c_set_style(e, RD_TEXT(id), style, members) : RD_NULL;
}
static inline uint32_t rd_set_rect(rd_engine *e, const char *id, const rd_rect *place) {
    return e && id && place ? rd_c_set_rect(e, RD_TEXT(id), place) : RD_NULL;
}
static inline uint32_t rd_shift(rd_engine *e, const char *id, int32_t dx, int32_t dy) {
    return e && id ? rd_c_shift(e, RD_TEXT(id), dx, dy) : RD_NULL;
}
/* Gives a box another scroll offset in canvas pixels (CSS Overflow 3): what it scrolls is drawn so far to the left and up. */
static inline uint32_t rd_scroll(rd_engine *e, const char *id, int32_t x, int32_t y) {
    return e && id ? rd_c_scroll(e, RD_TEXT(id), x, y) : RD_NULL;
}
/* Does edits in order, up to the first that is refused, whose status it answers. `done` is how many were done, and so the place of
 * that one. `texts` may be null where no name is of a text. */
static inline uint32_t rd_edits(rd_engine *e, const char *texts, const rd_edit *edits, size_t count, size_t *done) {
    if (!texts) texts = "";
    return e && edits && done ? rd_c_edits(e, RD_TEXT(texts), edits, count, done) : RD_NULL;
}
/* Keeps from now on what undoes the last `steps` edits, at most 1024; none where it is 0, as at first. What was kept before is
 * forgotten. With it an edit takes memory for what undoes it, and a removal for each box below the one that it removes. */
static inline uint32_t rd_keep(rd_engine *e, uint32_t steps) { return e ? rd_c_keep(e, steps) : RD_NULL; }
/* Takes the last edit back that is kept and not taken back yet; what undoes it is kept no longer. `done` is how many edits that took:
 * one, and for a removal one for each box that comes back and for each scroll offset. RD_NOTHING where no edit is kept. Without
 * memory those before the one that wanted it are done, and the next call goes on with the others. */
static inline uint32_t rd_undo(rd_engine *e, size_t *done) { return e && done ? rd_c_undo(e, done) : RD_NULL; }
/* Paints what has changed since the last paint. */
static inline uint32_t rd_paint(rd_engine *e, rd_note *note) { return e && note ? rd_c_paint(e, note) : RD_NULL; }
/* The pixels that the last paint painted anew: of each row from the top its spans from the left. `count` is how many there are,
 * also where the answer is RD_SHORT. */
static inline uint32_t rd_spans(rd_engine *e, rd_span *out, size_t room, size_t *count) {
    return e && out && count ? rd_c_spans(e, out, room, count) : RD_NULL;
}
/* The tiles that the last paint painted anew: those of `side` by `side` pixels, cut at the right and lower edges of the canvas, that have
 * a pixel of rd_spans. Each is told by the rectangle of its pixels, row by row from the top, each row from the left; its column is x / side
 * and its row y / side. rd_copy of such a rectangle gives the pixels of the tile. `side` is 1 to 4096. `count` is how many there are, also
 * where the answer is RD_SHORT. */
static inline uint32_t rd_tiles(rd_engine *e, uint32_t side, rd_rect *out, size_t room, size_t *count) {
    return e && out && count ? rd_c_tiles(e, side, out, room, count) : RD_NULL;
}
/* The colour of a pixel, which is opaque; no paint is pending. */
static inline uint32_t rd_pixel(rd_engine *e, int32_t x, int32_t y, rd_color *out) { return e && out ? rd_c_pixel(e, x, y, out) : RD_NULL; }
/* The id of the topmost box that is hit, with a 0 at its end; no paint is pending. */
static inline uint32_t rd_hit(rd_engine *e, int32_t x, int32_t y, char id[65]) {
    size_t length = 0;
    if (!e || !id) return RD_NULL;
    uint32_t status = rd_c_hit(e, x, y, (uint8_t *)id, 64, &length);
    if (status == RD_OK) id[length] = 0;
    return status;
}
/* The id of the box with this key, as an entry of the list tells it, with a 0 at its end. RD_NOTHING where that box is gone. */
static inline uint32_t rd_id(rd_engine *e, uint32_t slot, uint32_t generation, char id[65]) {
    size_t length = 0;
    if (!e || !id) return RD_NULL;
    uint32_t status = rd_c_id(e, slot, generation, (uint8_t *)id, 64, &length);
    if (status == RD_OK) id[length] = 0;
    return status;
}
/* Copies a rectangle of the canvas of the last paint, which is white before the first: four bytes a pixel, by RD_RGBA or RD_BGRA,
 * each row `stride` bytes behind the one above it. What lies between two rows is left as it is. */
static inline uint32_t rd_copy(rd_engine *e, const rd_rect *place, uint32_t format, size_t stride, uint8_t *out, size_t length) {
    return e && place && out ? rd_c_copy(e, place, format, stride, out, length) : RD_NULL;
}
/* The list of the last paint, each group right before its entries. `count` is how many there are, also where the answer is
 * RD_SHORT. */
static inline uint32_t rd_list(rd_engine *e, rd_entry *out, size_t room, size_t *count) {
    return e && out && count ? rd_c_list(e, out, room, count) : RD_NULL;
}
/* Paints the boxes, of which the first is the root, each last among the children of its parent, and copies the canvas: 4 * w * h
 * bytes. No engine is kept. */
static inline uint32_t rd_render(int32_t w, int32_t h, const char *names, const rd_box *boxes, size_t count, uint8_t *out, size_t length, rd_note *note) {
    return names && boxes && out && note ? rd_c_render(w, h, RD_TEXT(names), boxes, count, out, length, note) : RD_NULL;
}
/* The style of a box for which nothing is said. */
static inline rd_style rd_plain(void) {
    rd_style s;
    memset(&s, 0, sizeof s);
    s.opacity = 255;
    s.border_color.a = s.outline_color.a = 255;
    return s;
}
/* The names of a box by a number, and by bytes of the text of rd_edits. */
static inline rd_name rd_number(uint64_t number) { rd_name n = {number, 0, 0, RD_NUMBER_NAME}; return n; }
static inline rd_name rd_bytes(uint32_t from, uint32_t to) { rd_name n = {0, from, to, RD_TEXT_NAME}; return n; }
static inline rd_name rd_no_name(void) { rd_name n = {0, 0, 0, RD_NO_NAME}; return n; }

#ifdef __cplusplus
}
#endif
#endif
