/* Waikurpeho: a proved planner for boxes in cases. The boundary for C and C++, over libwaikurpeho.a; no other page is needed.
 *
 * A kind is a sort of box, an instance one box of it, counted from 0. An order is a container and kinds; a line is one box placed; a sheet is an
 * order with lines and the ids of the kinds that are short. Orders and sheets are handed over as load files: bytes, described below. Lengths are
 * in one unit of your choice, masses too. x is width, y depth, z height, and a box stands at its corner with the least x, y and z.
 *
 * Every call takes every input and returns. An answer is one word: the refusal number times 2^32 plus a count; number 0 means accepted. A refused
 * call leaves every lent cell as it was; an accepted one leaves the cells past its results as they were. Calls keep nothing between them, so they
 * may run side by side.
 *
 * A pointer must be valid for as many elements as are said beside it, also where that is none. Lent memory must not overlap other memory of the
 * same call.
 *
 * The most stack that a call takes, by a painted stack (tools/test_stack): wk_check 70 KiB, wk_plan_points 240 KiB, wk_plan_layers 52 KiB,
 * wk_fill 4 KiB.
 *
 * `tools/build_library` proves the library and writes target/staticlib/libwaikurpeho.a, for Linux on x86-64; a program is linked with it by
 *
 *     cc -I include program.c target/staticlib/libwaikurpeho.a
 *
 * For another processor or system there is none to be had: the toolchain compiles for Linux on x86-64 alone, on an Arm machine too. There a program
 * can be built for x86-64 whole and run in an emulator, as ./waikurpeho runs the proved programs where it finds one. The constants,
 * the structs and wk_write to wk_unplaced_at need no library.
 *
 * bindings/c/example.c builds an order, plans, checks and prints.
 */
#ifndef WAIKURPEHO_H
#define WAIKURPEHO_H

#include <stddef.h>
#include <stdint.h>
#include <string.h>

#ifdef __cplusplus
extern "C" {
#endif

/* ---- Bounds. More is refused by WK_COUNT, a longer file by WK_SHAPE, a number out of its range by WK_RANGE. */

#define WK_MOST_KINDS 64
#define WK_MOST_BOXES 1024 /* the quantities of all kinds together */
#define WK_MOST_LINES 1024
#define WK_MOST_UNPLACED 256
#define WK_MOST_BYTES 60000 /* of a load file */

#define WK_LEAST_LENGTH 0.000001 /* a length of the container or of a kind is from this .. */
#define WK_MOST 1000000000.0     /* .. to this; margin, spacing and a mass from 0 to this, a position from -this to this on each axis */
#define WK_MOST_LIMIT 1000000000000.0 /* a mass limit is above 0 and at most this */
#define WK_MOST_SIDE 10000 /* wk_fill takes whole lengths up to this */

/* ---- Refusals. The first that holds is given, tested in this order: 1; 2 for the counts; 3 for the container; for each kind in turn 4, 3, 5; 2 for
 * the total quantity; 3 for each line in turn; 8; 6. */

enum {
    WK_ACCEPTED = 0,
    WK_SHAPE = 1,    /* the load file's shape is wrong */
    WK_COUNT = 2,    /* a count or the total quantity is over its bound */
    WK_RANGE = 3,    /* a measure or position is outside its range; -0 is in range as a position only */
    WK_RECORD = 4,   /* a kind has quantity 0, a rule over 2, a mass flag over 1, filler, or a mass without the flag */
    WK_REPEATED = 5, /* an id repeats an earlier kind's */
    WK_ROOM = 6,     /* too little room is lent: the count is what is needed */
    WK_FULL = 7,     /* a place call on a full placer; none of these calls gives it */
    WK_UNEVEN = 8,   /* the fill is asked and a length isn't whole or is over WK_MOST_SIDE */
    WK_STRANGER = 9  /* an instance list names a kind past the order's; none of these calls gives it */
};

/* The two parts of an answer. */
static inline uint32_t wk_refused(uint64_t answer) { return (uint32_t)(answer >> 32); }
static inline uint32_t wk_count(uint64_t answer) { return (uint32_t)answer; }

/* ---- The load file, form 1: these parts in turn, without gaps. Numbers are little-endian, f64 is an IEEE 754 binary64 float.
 *
 *   part          bytes    at  bytes  field
 *   container        48     0      8  width, f64
 *                           8      8  depth, f64
 *                          16      8  height, f64
 *                          24      8  margin, f64: air along the walls
 *                          32      8  spacing, f64: air between boxes
 *                          40      8  mass limit, f64; all bits 0: none
 *   each kind        44     0      4  id, u32
 *                           4      4  quantity, u32: 1 or more
 *                           8     24  width, depth, height, f64
 *                          32      8  mass, f64; all bits 0 where there is none
 *                          40      1  rule, u8: 0 any, 1 upright, 2 fixed
 *                          41      1  mass flag, u8: 1 where there is a mass, else 0
 *                          42      2  filler, 0
 *   each line        40     0      4  the kind's id, u32
 *                           4      4  instance, u32: below the kind's quantity
 *                           8      4  orientation, u32: a place among those that the rule allows
 *                          12      4  bin, u32: 0, as there is one case
 *                          16     24  x, y, z, f64
 *   each unplaced id  4     0      4  id of a kind of which a box is left out, u32
 *   trailer          20     0      4  where the kinds start, u32: 48
 *                           4      4  where the lines start, u32
 *                           8      4  where the unplaced ids start, u32
 *                          12      4  where the trailer starts, u32: the length less 20
 *                          16      2  form, u16: 1
 *                          18      2  the bytes 76 and 83
 */
#pragma pack(push, 1)
typedef struct {
    double width, depth, height, margin, spacing, limit;
} wk_container;
typedef struct {
    uint32_t id, quantity;
    double width, depth, height, mass;
    uint8_t rule, mass_flag;
    uint16_t filler;
} wk_kind;
typedef struct {
    uint32_t id, instance, orientation, bin;
    double x, y, z;
} wk_line;
typedef struct {
    uint32_t kinds, lines, unplaced, trailer;
    uint16_t form;
    uint8_t mark[2];
} wk_trailer;
#pragma pack(pop)

#define WK_FORM 1
#define WK_MARK_0 76
#define WK_MARK_1 83

/* A kind's rule, and the orientations that it allows, by their number: the box's width, depth and height as they lie along x, y and z. */
enum {
    WK_ANY = 0,     /* 0 w d h, 1 w h d, 2 d w h, 3 d h w, 4 h w d, 5 h d w */
    WK_UPRIGHT = 1, /* 0 w d h, 1 d w h */
    WK_FIXED = 2    /* 0 w d h */
};

/* The structs are the file's bytes where this compiles: packed, little-endian, binary64. */
typedef char wk_layout_is_the_files[sizeof(wk_container) == 48 && sizeof(wk_kind) == 44 && sizeof(wk_line) == 40 && sizeof(wk_trailer) == 20 ? 1 : -1];
#if defined(__BYTE_ORDER__) && __BYTE_ORDER__ != __ORDER_LITTLE_ENDIAN__
#error "waikurpeho.h: a load file is little-endian, and this machine is not"
#endif

/* An order (no lines, no unplaced ids) or a sheet, to be written. A pointer beside a count of 0 may be null. */
typedef struct {
    wk_container container;
    const wk_kind *kinds;
    size_t kind_count;
    const wk_line *lines;
    size_t line_count;
    const uint32_t *unplaced;
    size_t unplaced_count;
} wk_sheet;

static inline uint8_t *wk_put_(uint8_t *at, const void *records, size_t bytes) {
    if (bytes)
        memcpy(at, records, bytes);
    return at + bytes;
}

/* Writes a sheet as a load file into `room` bytes: its length, or 0 where it doesn't fit or is longer than a load file may be. Nothing is judged:
 * that is for the calls. */
static inline size_t wk_write(const wk_sheet *sheet, uint8_t *file, size_t room) {
    const size_t most = WK_MOST_BYTES;
    wk_trailer end;
    uint8_t *at = file;
    if (sheet->kind_count > most || sheet->line_count > most || sheet->unplaced_count > most)
        return 0;
    size_t lines_at = sizeof(wk_container) + sheet->kind_count * sizeof(wk_kind), unplaced_at = lines_at + sheet->line_count * sizeof(wk_line);
    size_t trailer_at = unplaced_at + sheet->unplaced_count * sizeof(uint32_t), length = trailer_at + sizeof end;
    if (length > room || length > most)
        return 0;
    end.kinds = (uint32_t)sizeof(wk_container);
    end.lines = (uint32_t)lines_at;
    end.unplaced = (uint32_t)unplaced_at;
    end.trailer = (uint32_t)trailer_at;
    end.form = WK_FORM;
    end.mark[0] = WK_MARK_0;
    end.mark[1] = WK_MARK_1;
    at = wk_put_(at, &sheet->container, sizeof sheet->container);
    at = wk_put_(at, sheet->kinds, sheet->kind_count * sizeof(wk_kind));
    at = wk_put_(at, sheet->lines, sheet->line_count * sizeof(wk_line));
    at = wk_put_(at, sheet->unplaced, sheet->unplaced_count * sizeof(uint32_t));
    wk_put_(at, &end, sizeof end);
    return length;
}

/* Where the parts of a load file stand and how many records each has. */
typedef struct {
    const uint8_t *container, *kinds, *lines, *unplaced;
    size_t kind_count, line_count, unplaced_count;
} wk_parts;

/* Finds the parts of a load file: 1, or 0 where it has not the right shape. The parts point into the file. */
static inline int wk_read(const uint8_t *file, size_t length, wk_parts *parts) {
    wk_trailer end;
    if (length < sizeof(wk_container) + sizeof end || length > WK_MOST_BYTES)
        return 0;
    memcpy(&end, file + (length - sizeof end), sizeof end);
    if (end.form != WK_FORM || end.mark[0] != WK_MARK_0 || end.mark[1] != WK_MARK_1 || end.kinds != sizeof(wk_container) || end.kinds > end.lines ||
        end.lines > end.unplaced || end.unplaced > end.trailer || end.trailer != length - sizeof end)
        return 0;
    if ((end.lines - end.kinds) % sizeof(wk_kind) || (end.unplaced - end.lines) % sizeof(wk_line) || (end.trailer - end.unplaced) % sizeof(uint32_t))
        return 0;
    parts->container = file;
    parts->kinds = file + end.kinds;
    parts->lines = file + end.lines;
    parts->unplaced = file + end.unplaced;
    parts->kind_count = (end.lines - end.kinds) / sizeof(wk_kind);
    parts->line_count = (end.unplaced - end.lines) / sizeof(wk_line);
    parts->unplaced_count = (end.trailer - end.unplaced) / sizeof(uint32_t);
    return 1;
}

/* The container, and the record at a place below its count. */
static inline wk_container wk_container_of(const wk_parts *parts) {
    wk_container container;
    memcpy(&container, parts->container, sizeof container);
    return container;
}
static inline wk_kind wk_kind_at(const wk_parts *parts, size_t place) {
    wk_kind kind;
    memcpy(&kind, parts->kinds + place * sizeof kind, sizeof kind);
    return kind;
}
static inline wk_line wk_line_at(const wk_parts *parts, size_t place) {
    wk_line line;
    memcpy(&line, parts->lines + place * sizeof line, sizeof line);
    return line;
}
static inline uint32_t wk_unplaced_at(const wk_parts *parts, size_t place) {
    uint32_t id;
    memcpy(&id, parts->unplaced + place * sizeof id, sizeof id);
    return id;
}

/* ---- Findings. Each is five words: word 0 is its number, the words after it are the fields said here, unused ones 0. A line is told by its number
 * on the sheet, from 0; `bits` are a float's, for wk_float. They come line by line, then pairs, mass, missing kinds, wrongly listed ids. Whether a
 * box is held up, or the load is stable, is not judged; spacing and margin hold upwards too. */

#define WK_WORDS 5

enum {
    WK_FOUND_UNKNOWN = 1,          /* line, id: no kind has the id */
    WK_FOUND_OUT_OF_RANGE = 2,     /* line, id, instance, quantity: the instance is not below the quantity */
    WK_FOUND_REPEATED = 3,         /* line, id, instance: an earlier line has the same box */
    WK_FOUND_ORIENTATION = 4,      /* line, id, orientation: the kind's rule has no such orientation */
    WK_FOUND_BIN = 5,              /* line, bin: there is one case, bin 0 */
    WK_FOUND_OUTSIDE = 6,          /* line, id: the box is past a wall, or in its margin */
    WK_FOUND_OVERLAP = 7,          /* line, line: the boxes overlap */
    WK_FOUND_TOO_CLOSE = 8,        /* line, line, distance bits, spacing bits: nearer to each other than the spacing */
    WK_FOUND_MASS = 9,             /* mass bits, limit bits: the boxes weigh more than the limit */
    WK_FOUND_MISSING = 10,         /* id: not all boxes of the kind are on the sheet, and it is not listed as unplaced */
    WK_FOUND_WRONGLY_UNPLACED = 11 /* id: listed as unplaced, but complete, listed before, or no kind */
};

/* The float of these bits. */
static inline double wk_float(uint64_t bits) {
    double value;
    memcpy(&value, &bits, sizeof value);
    return value;
}

/* ---- The calls. */

/* The findings on a sheet, WK_WORDS words a slot; findings_len counts words. The count is how many findings there are, or with WK_ROOM the slots
 * needed: a first call with findings_len 0 asks for them. */
uint64_t wk_check(const uint8_t *sheet, size_t sheet_len, uint64_t *findings, size_t findings_len);

/* The plan of an order, by extreme points and by layers, written as a load file: the order with lines and unplaced ids of its own. The count is its
 * length, or with WK_ROOM the length needed; WK_MOST_BYTES are always enough. At most `consider` boxes are considered; UINT64_MAX: all. figures[0]
 * becomes the number considered, figures[1] the bits of the utilization: the boxes' volume by the container's. */
uint64_t wk_plan_points(const uint8_t *order, size_t order_len, uint64_t consider, uint8_t *sheet, size_t sheet_len, uint64_t figures[2]);
uint64_t wk_plan_layers(const uint8_t *order, size_t order_len, uint64_t consider, uint8_t *sheet, size_t sheet_len, uint64_t figures[2]);

/* The fill per thousand of a sheet, stored in *fill: the boxes' volume times 1,000 by the container's, rounded down. The count is 0. */
uint64_t wk_fill(const uint8_t *sheet, size_t sheet_len, uint64_t *fill);

#ifdef __cplusplus
}
#endif

#endif
