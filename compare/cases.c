/* Random cases for comparing two machines.

   The image is a background of instructions made once from the seed; a case
   writes its own code over a part of it and the next case takes that away
   again.  The pad follows a plan, so that most operands name something:
   >10 to >1F index words, >20 to >2F words that are VDP addresses, >30 to >3F
   bytes that are pad offsets, >40 to >4F words that are lengths, >60 to >67
   addresses of sound lists, >68 to >6B the words 0 and 1. */
#include "cases.h"

#include <string.h>

enum {
    INDEX_WORDS = 0x10,
    ADDRESS_WORDS = 0x20,
    OFFSET_BYTES = 0x30,
    LENGTH_WORDS = 0x40,
    LIST_WORDS = 0x60,
    SOURCE_WORDS = 0x68
};

/* Room in the journal that runs out about the end of an ALL. */
enum { ALL_ROOM_LOW = 768, ALL_ROOM_HIGH = 772 };

/* The sound lists of a case, each with a word of the pad. */
enum { LISTS = 4 };

/* The pad cells of the list that plays. */
enum { LIST_ADDRESS = 0xCC, LIST_COUNT = 0xCE };

/* A ring doesn't end a run, so its runs are no longer than this. */
enum { RING_RUN = 3000 };

/* ---- random numbers: splitmix64 ---- */

struct dice {
    uint64_t state;
};

static uint64_t roll(struct dice *d)
{
    uint64_t z = (d->state += 0x9E3779B97F4A7C15u);
    z = (z ^ z >> 30) * 0xBF58476D1CE4E5B9u;
    z = (z ^ z >> 27) * 0x94D049BB133111EBu;
    return z ^ z >> 31;
}

/* 0 to n - 1 */
static uint32_t below(struct dice *d, uint32_t n)
{
    return (uint32_t)((roll(d) >> 32) * n >> 32);
}

static uint32_t between(struct dice *d, uint32_t low, uint32_t high)
{
    return low + below(d, high - low + 1);
}

static bool one_in(struct dice *d, uint32_t n)
{
    return below(d, n) == 0;
}

static bool percent(struct dice *d, uint32_t p)
{
    return below(d, 100) < p;
}

#define PICK(d, list) ((list)[below((d), (uint32_t)(sizeof(list) / sizeof((list)[0])))])

/* ---- writing code ---- */

/* Where a sound list begins: in VDP RAM, or in GROM. */
struct head {
    bool vdp;
    uint16_t at;
};

struct writer {
    struct maker *maker;
    struct dice *dice;
    const uint8_t *pad; /* the pad that the code will meet, or NULL */
    const struct head *list; /* LISTS of them, or NULL */
    size_t image_len;
    uint8_t writable;
    bool keep_patches;
    uint16_t at;
    uint16_t label[CASE_LABELS_MAX];
    int labels;
};

static void put_at(struct writer *w, uint32_t at, uint32_t byte)
{
    struct maker *m = w->maker;
    at &= 0xFFFF;
    if (w->keep_patches) {
        if (m->patches == CASE_PATCHES_MAX)
            return;
        m->patch[m->patches++] = (struct patch){at, m->image[at]};
    }
    m->image[at] = (uint8_t)byte;
}

/* Writing goes on as reading does: inside its 8 KiB group. */
static void put(struct writer *w, uint32_t byte)
{
    put_at(w, w->at, byte);
    w->at = (uint16_t)((w->at & 0xE000) | ((w->at + 1) & 0x1FFF));
}

static void put_word(struct writer *w, uint32_t word)
{
    put(w, word >> 8 & 0xFF);
    put(w, word & 0xFF);
}

static void add_label(struct writer *w)
{
    if (w->labels < CASE_LABELS_MAX)
        w->label[w->labels++] = w->at;
}

/* ---- operands ---- */

static uint32_t edge_byte(struct dice *d)
{
    static const uint8_t edges[] = {0, 1, 2, 3, 7, 8, 15, 16, 17, 0x7E, 0x7F, 0x80, 0x81, 0xF0, 0xFE, 0xFF};
    return one_in(d, 2) ? PICK(d, edges) : below(d, 256);
}

static uint32_t edge_word(struct dice *d)
{
    static const uint16_t edges[] = {
        0, 1, 2, 15, 16, 0x7F, 0x80, 0xFF, 0x100, 0x7FFE, 0x7FFF, 0x8000, 0x8001, 0xFF00, 0xFF80,
        0xFFFE, 0xFFFF
    };
    return one_in(d, 2) ? PICK(d, edges) : below(d, 65536);
}

/* A pad offset that an operand may name. */
static uint32_t cpu_target(struct dice *d, uint32_t width)
{
    static const uint8_t cells[] = {
        0x72, 0x73, 0x78, 0x7B, 0x7C, 0x7D, 0x7E, 0x7F, 0x80, 0x9E, 0xA0, 0xBF, 0xC0, 0xC1, 0xCC, 0xCD, 0xCE, 0xD4
    };
    static const uint8_t screen_cells[] = {0x79, 0x7A, 0x7B, 0x7C, 0x7D, 0x7D, 0x7D, 0x7E};
    static const uint16_t edges[] = {0xDD, 0xDE, 0xDF, 0xE0, 0xE1, 0xFF, 0x100, 0x17D, 0xEFF, 0xF00, 0xFFFF};
    uint32_t r = below(d, 100);

    if (r < 35)
        return below(d, 16);
    if (r < 55)
        return between(d, 0x50, 0x6F);
    if (r < 65)
        return between(d, 0xA0, 0xDE);
    if (r < 79)
        return PICK(d, screen_cells);
    if (r < 85)
        return PICK(d, cells);
    if (r < 96)
        return below(d, 0xE1 - width);
    return PICK(d, edges);
}

static uint32_t vdp_target(struct dice *d, uint32_t width)
{
    static const uint16_t edges[] = {
        0, 0x2FF, 0x300, 0x1FFF, 0x2000, 0x3FFC, 0x3FFD, 0x3FFE, 0x3FFE, 0x3FFF, 0x3FFF, 0x4000,
        0x4001, 0x7FFF, 0x8000, 0xFFFF
    };
    uint32_t r = below(d, 100);

    if (r < 55)
        return below(d, 768);
    if (r < 88)
        return below(d, 0x4001 - width);
    return PICK(d, edges);
}

/* The index cell is named after the offset; the offset makes up for its word. */
static void put_offset(struct writer *w, uint32_t bits, uint32_t offset)
{
    struct dice *d = w->dice;
    uint32_t cell = 0, word = 0;

    if (percent(d, 20)) {
        static const uint8_t odd_cells[] = {0xDD, 0xDE, 0xDF, 0xE0, 0xFF, 0x7C, 0x7D, 0x72};
        bits |= 0x40;
        cell = percent(d, 4) ? PICK(d, odd_cells) : INDEX_WORDS + 2 * below(d, 8);
        if (w->pad && cell < 0xFF)
            word = (uint32_t)w->pad[cell] << 8 | w->pad[cell + 1];
        offset = (offset - word) & 0xFFFF;
    }
    if (offset > 0xEFF || percent(d, 20)) {
        put(w, 0x80 | bits | 0x0F);
        put_word(w, offset);
    } else {
        put(w, 0x80 | bits | offset >> 8);
        put(w, offset & 0xFF);
    }
    if (bits & 0x40)
        put(w, cell);
}

/* The pad cell that the operand names, or -1 if that is not known here. */
static int put_cpu_operand(struct writer *w, uint32_t target)
{
    static const uint16_t odd_pointers[] = {0xDF, 0xE0, 0x7D, 0x72, 0xFFF, 0xFFFF};
    struct dice *d = w->dice;
    uint32_t r = below(d, 100);

    if (r < 6) { /* a pop */
        put_offset(w, 0x10, 0x7C);
        return -1;
    }
    if (r < 14) { /* indirect */
        put_offset(w, 0x10, percent(d, 4) ? PICK(d, odd_pointers) : OFFSET_BYTES + below(d, 16));
        return -1;
    }
    if (target < 0x80 && r < 75)
        put(w, target);
    else
        put_offset(w, 0, target);
    return target < 0xFF ? (int)target : -1;
}

static void put_vdp_operand(struct writer *w, uint32_t target)
{
    static const uint16_t odd_pointers[] = {0xDE, 0xDF, 0xE0, 0x7C, 0xFFF, 0xFFFF};
    struct dice *d = w->dice;

    if (percent(d, 25))
        put_offset(w, 0x30, percent(d, 4) ? PICK(d, odd_pointers) : ADDRESS_WORDS + 2 * below(d, 8));
    else
        put_offset(w, 0x20, target);
}

static int put_operand(struct writer *w, uint32_t width)
{
    if (percent(w->dice, 22)) {
        put_vdp_operand(w, vdp_target(w->dice, width));
        return -1;
    }
    return put_cpu_operand(w, cpu_target(w->dice, width));
}

/* ---- branch targets ---- */

static uint32_t some_address(struct writer *w)
{
    struct dice *d = w->dice;
    uint32_t r = below(d, 100);

    if (w->labels > 0 && r < 65)
        return w->label[below(d, (uint32_t)w->labels)];
    if (r < 90)
        return below(d, (uint32_t)w->image_len);
    if (r < 96) { /* about a group's end, the image's end included */
        uint32_t end = CASE_GROUP_LEN * between(d, 1, (uint32_t)(w->image_len / CASE_GROUP_LEN));
        return (end - 4 + below(d, 8)) & 0xFFFF;
    }
    return below(d, 65536);
}

/* ---- format strings ---- */

static uint32_t short_count(struct dice *d)
{
    return percent(d, 90) ? below(d, 4) : below(d, 32);
}

static void put_format_codes(struct writer *w, int depth);

static void put_block(struct writer *w, int depth)
{
    struct dice *d = w->dice;
    uint16_t open = w->at;
    put(w, 0xC0 | (percent(d, 95) ? below(d, 3) : below(d, 32)));
    uint16_t body = w->at;
    put_format_codes(w, depth - 1);
    put(w, 0xFB);
    if (percent(d, 92))
        put_word(w, body);
    else
        put_word(w, percent(d, 40) ? open : some_address(w));
}

static void put_format_code(struct writer *w, int depth)
{
    struct dice *d = w->dice;
    uint32_t r = below(d, 100);

    if (r < 30) { /* text across and down */
        uint32_t n = short_count(d);
        put(w, (r < 15 ? 0x00 : 0x20) | n);
        for (uint32_t i = 0; i <= n; i++)
            put(w, below(d, 256));
    } else if (r < 44) { /* repeated */
        put(w, (r < 37 ? 0x40 : 0x60) | short_count(d));
        put(w, below(d, 256));
    } else if (r < 60) { /* skips */
        put(w, (r < 52 ? 0x80 : 0xA0) | below(d, 32));
    } else if (r < 74) {
        if (depth > 0)
            put_block(w, depth);
    } else if (r < 84) { /* text from an operand */
        uint32_t n = percent(d, 90) ? below(d, 4) : below(d, 27);
        put(w, 0xE0 | n);
        if (percent(d, 6))
            put_vdp_operand(w, vdp_target(d, 1));
        else
            put_cpu_operand(w, cpu_target(d, 1));
    } else if (r < 88) {
        put(w, 0xFC);
        put(w, below(d, 256));
    } else if (r < 92) {
        put(w, 0xFD);
        if (percent(d, 6))
            put_vdp_operand(w, vdp_target(d, 1));
        else
            put_cpu_operand(w, cpu_target(d, 1));
    } else if (r < 96) {
        put(w, 0xFE);
        put(w, percent(d, 80) ? below(d, 26) : below(d, 256));
    } else {
        put(w, 0xFF);
        put(w, percent(d, 80) ? below(d, 34) : below(d, 256));
    }
}

static void put_format_codes(struct writer *w, int depth)
{
    uint32_t n = below(w->dice, 4);
    for (uint32_t i = 0; i <= n; i++)
        put_format_code(w, depth);
}

static void put_format(struct writer *w)
{
    struct dice *d = w->dice;

    put(w, 0x08);
    if (percent(d, 3)) { /* blocks down to the stack's limit */
        uint32_t levels = between(d, 14, 18);
        for (uint32_t i = 0; i < levels; i++)
            put(w, 0xC0);
        for (uint32_t i = 0; i < levels; i++) {
            put(w, 0xFB);
            put_word(w, w->at);
        }
    } else {
        put_format_codes(w, 3);
    }
    if (percent(d, 98))
        put(w, 0xFB);
}

/* A format string of 16,383 to 16,386 codes, in little space and with few
   stores: 1 + 32 * (1 + 16 * (30 + 1) + 1) = 15,937 codes in two blocks,
   then a tail.  With an outermost block the last code jumps past the image. */
static void put_long_format(struct writer *w)
{
    struct dice *d = w->dice;
    bool jump_out = one_in(d, 3) && w->image_len < CASE_IMAGE_MAX;
    uint32_t codes = between(d, 16383, 16386);
    uint32_t rest = codes - 15937 - 1 - (jump_out ? 1 : 0);

    put(w, 0x08);
    if (jump_out)
        put(w, 0xC1);
    put(w, 0xC0 | 31);
    uint16_t outer = w->at;
    put(w, 0xC0 | 15);
    uint16_t inner = w->at;
    for (int i = 0; i < 30; i++)
        put_word(w, 0xFC00);
    put(w, 0xFB);
    put_word(w, inner);
    put(w, 0xFB);
    put_word(w, outer);
    for (uint32_t i = 0; i < rest; i++) {
        put(w, 0xFC);
        put(w, below(d, 256));
    }
    put(w, 0xFB);
    if (jump_out)
        put_word(w, (uint32_t)w->image_len);
}

/* ---- MOVE ---- */

static uint32_t some_length(struct dice *d)
{
    static const uint16_t edges[] = {
        0, 0, 1, 2, 0x100, 0x2000, 0x4000, 0x4001, 0x7FFF, 0x8000, 0x8000, 0x8001, 0x8001, 0xFFFF
    };
    uint32_t r = below(d, 100);
    if (r < 80)
        return between(d, 1, 12);
    if (r < 92)
        return between(d, 1, 300);
    return PICK(d, edges);
}

static void put_place(struct writer *w, uint32_t length)
{
    struct dice *d = w->dice;
    if (one_in(d, 2)) {
        uint32_t at = vdp_target(d, 1);
        if (at < 0x4000 && at + length > 0x4000 && length < 0x4000 && percent(d, 70))
            at = 0x4000 - length;
        put_vdp_operand(w, at);
    } else {
        uint32_t at = cpu_target(d, 1);
        if (at <= 0xDF && at + length > 0xE0 && length < 0xE0 && percent(d, 70))
            at = 0xE0 - length;
        put_cpu_operand(w, at);
    }
}

/* The length of a MOVE, as two bytes or an operand; what it will be, as far as that is known. */
static uint32_t put_length(struct writer *w, uint32_t op, uint32_t length)
{
    if (op & 1) {
        put_word(w, length);
        return length;
    }
    if (percent(w->dice, 90))
        put_cpu_operand(w, LENGTH_WORDS + 2 * below(w->dice, 8));
    else
        put_operand(w, 2);
    return 8;
}

/* The source of a MOVE: an operand, or the GROM address. */
static void put_source(struct writer *w, uint32_t op, uint32_t length, uint32_t from)
{
    struct dice *d = w->dice;

    if (op & 4) {
        put_place(w, length);
        return;
    }
    uint32_t cell = percent(d, 95) ? INDEX_WORDS + 2 * below(d, 8) : between(d, 0xDC, 0xE1);
    if ((op & 2) && w->pad)
        from -= (uint32_t)w->pad[cell] << 8 | w->pad[cell + 1];
    put_word(w, from);
    if (op & 2)
        put(w, cell);
}

static void put_move(struct writer *w)
{
    struct dice *d = w->dice;
    uint32_t op = 0x30 | below(d, 16);
    uint32_t length = some_length(d);

    if ((op & 6) == 6 && percent(d, 95))
        op &= ~2u;
    if ((op & 8) && percent(d, 85))
        length = between(d, 1, 3);
    put(w, op);
    length = put_length(w, op, length);
    if (op & 8)
        put(w, percent(d, 88) ? below(d, length < 8 ? 9 - length : 2) : edge_byte(d));
    else
        put_place(w, length);
    put_source(w, op, length, some_address(w));
}

/* ---- MOVE into GROM ---- */

static bool is_writable(uint32_t writable, uint32_t group)
{
    return writable >> group & 1;
}

/* The end of a group that may be written before one that may not, if the image has such a pair; else of any. */
static uint32_t end_of_writable(struct writer *w)
{
    uint32_t groups = (uint32_t)(w->image_len / CASE_GROUP_LEN);
    uint32_t first = below(w->dice, groups);

    for (uint32_t i = 0; i < groups; i++) {
        uint32_t group = (first + i) % groups;
        if (is_writable(w->writable, group) && !is_writable(w->writable, (group + 1) % 8))
            return CASE_GROUP_LEN * (group + 1);
    }
    return CASE_GROUP_LEN * (first + 1);
}

/* Where so many bytes go: over the code to come, over a label, over their source, over an end, or anywhere. */
static uint32_t grom_target(struct writer *w, uint32_t length, uint32_t from)
{
    struct dice *d = w->dice;
    uint32_t into = between(d, 1, length >= 1 && length <= 0x8000 ? length : 1); /* so many before an end */
    uint32_t r = below(d, 100);

    if (w->image_len == CASE_IMAGE_MAX && one_in(d, 2))
        return 0x10000 - into; /* only in a whole image is anything stored there, and past it at 0 */
    if (r < 32)
        return w->at + (one_in(d, 2) ? 0 : below(d, 6));
    if (r < 42 && w->labels > 0)
        return w->label[below(d, (uint32_t)w->labels)];
    if (r < 62)
        return from + below(d, 2 * into + 1) - into;
    if (r < 72)
        return (uint32_t)w->image_len - into;
    if (r < 92)
        return end_of_writable(w) - into;
    return some_address(w);
}

/* The target is known when all else is written, so its two bytes are put last. */
static void put_move_to_grom(struct writer *w)
{
    struct dice *d = w->dice;
    uint32_t op = 0x20 | below(d, 6);
    uint32_t from = some_address(w);

    put(w, op);
    uint32_t length = put_length(w, op, some_length(d));
    uint16_t high = w->at;
    put(w, 0);
    uint16_t low = w->at;
    put(w, 0);
    put_source(w, op, length, from);
    uint32_t to = grom_target(w, length, from);
    if (!is_writable(w->writable, to / CASE_GROUP_LEN % 8)) /* once more, or too many are refused at the first byte */
        to = grom_target(w, length, from);
    put_at(w, high, to >> 8 & 0xFF);
    put_at(w, low, to & 0xFF);
}

/* ---- sound lists ---- */

/* Anywhere in its memory, about its end, or past it. */
static struct head some_head(struct dice *d, size_t image_len)
{
    bool vdp = one_in(d, 2);
    uint32_t end = vdp ? CASE_VDP_LEN : (uint32_t)image_len;
    uint32_t r = below(d, 100);
    uint32_t at = r < 70 ? below(d, end) : r < 95 ? end - between(d, 1, 12) : edge_word(d);

    return (struct head){vdp, (uint16_t)at};
}

/* A place in a memory where a list's bytes are written. */
struct pen {
    struct writer *writer;
    uint8_t *vdp; /* NULL: GROM */
    uint32_t at;
};

static void pen_byte(struct pen *p, uint32_t byte)
{
    uint32_t at = p->at++ & 0xFFFF;

    if (!p->vdp)
        put_at(p->writer, at, byte);
    else if (at < CASE_VDP_LEN)
        p->vdp[at] = (uint8_t)byte;
}

static uint32_t some_count(struct dice *d)
{
    uint32_t r = below(d, 100);
    return r < 60 ? 1 : r < 80 ? between(d, 2, 3) : r < 90 ? 0 : edge_byte(d);
}

/* A block that is sent: mostly a few bytes, now and then as many as there can be. */
static void pen_block(struct pen *p, uint32_t count)
{
    struct dice *d = p->writer->dice;
    uint32_t r = below(d, 100);
    uint32_t size = r < 75 ? between(d, 1, 4) : r < 92 ? between(d, 5, 20) : between(d, 252, 254);

    pen_byte(p, size);
    for (uint32_t i = 0; i < size; i++)
        pen_byte(p, below(d, 256));
    pen_byte(p, count);
}

/* A size of 0 or >FF, and the address of a list in the same memory or in the other; any address, if there is none. */
static void pen_leap(struct pen *p, bool other)
{
    struct writer *w = p->writer;
    bool vdp = (p->vdp != NULL) != other;
    uint32_t from = below(w->dice, LISTS), to = some_head(w->dice, w->image_len).at;

    for (uint32_t i = 0; i < LISTS; i++)
        if (w->list[(from + i) % LISTS].vdp == vdp)
            to = w->list[(from + i) % LISTS].at;
    pen_byte(p, other ? 0xFF : 0);
    pen_byte(p, to >> 8);
    pen_byte(p, to & 0xFF);
}

/* A few blocks, then an end, a leap, or whatever stands there. */
static void write_list(struct writer *w, uint8_t *vdp, struct head head)
{
    struct pen pen = {w, head.vdp ? vdp : NULL, head.at};
    uint32_t end = below(w->dice, 100);

    for (uint32_t blocks = below(w->dice, 4); blocks > 0; blocks--)
        pen_block(&pen, some_count(w->dice));
    if (end < 25)
        pen_block(&pen, 0);
    else if (end < 90)
        pen_leap(&pen, end >= 55);
}

/* The source of an I/O: 0 or 1, mostly. */
static void put_function(struct writer *w, uint32_t op, uint32_t source)
{
    struct dice *d = w->dice;
    uint32_t width = 1 + (op & 1);
    bool other = percent(d, 10);

    if (other)
        source = one_in(d, 2) ? between(d, 2, 3) : edge_word(d);
    if (op & 2) {
        if (width == 2)
            put(w, source >> 8);
        put(w, source & 0xFF);
    } else if (other) {
        put_operand(w, width);
    } else {
        put(w, SOURCE_WORDS + 2 * source + (width == 1 ? 1 : 0));
    }
}

/* I/O: mostly the address of one of the lists, with its source; other cells too, and the last in reach. */
static void put_sound(struct writer *w)
{
    struct dice *d = w->dice;
    uint32_t op = between(d, 0xF4, 0xF7), i = below(d, LISTS), r = below(d, 100);
    uint32_t source = w->list && percent(d, 90) ? w->list[i].vdp : below(d, 2);

    put(w, op);
    if (r < 80)
        put_cpu_operand(w, LIST_WORDS + 2 * i);
    else if (r < 85)
        put_offset(w, 0, between(d, 0xDD, 0xE0));
    else
        put_operand(w, 1 + (op & 1));
    put_function(w, op, source);
}

/* ---- instructions ---- */

/* A third of the immediates lie about the value that the destination holds. */
static void put_immediate(struct writer *w, int cell, uint32_t width)
{
    struct dice *d = w->dice;
    uint32_t value = width == 1 ? edge_byte(d) : edge_word(d);

    if (w->pad && cell >= 0 && one_in(d, 3)) {
        value = w->pad[cell];
        if (width == 2)
            value = value << 8 | w->pad[cell + 1];
        value = value + below(d, 3) - 1;
    }
    if (width == 1)
        put(w, value & 0xFF);
    else
        put_word(w, value);
}

static void put_two_operands(struct writer *w)
{
    struct dice *d = w->dice;
    uint32_t op = between(d, 0xA0, 0xEB);
    uint32_t width = 1 + (op & 1);

    if ((op & 0xFE) == 0xC2 && percent(d, 90))
        op &= ~2u;
    put(w, op);
    int cell = put_operand(w, width);
    if (op & 2)
        put_immediate(w, cell, width);
    else
        put_operand(w, width);
}

/* A limit and a size of a COINC's table: all differences inside, or any two. */
static void put_side(struct writer *w, uint32_t granularity, uint32_t table, uint32_t side)
{
    struct dice *d = w->dice;
    bool all = percent(d, 50);

    put_at(w, table + side, all ? 0xFFu >> granularity : edge_byte(d));
    put_at(w, table + 2 + side, all ? 0x80u >> granularity : edge_byte(d));
}

/* COINC, by a table of its own: anywhere in the image, about its end, or past it.
   The background's tables are whatever stands there. */
static void put_coincidence(struct writer *w)
{
    static const uint8_t coarse[] = {8, 9, 16, 0x80, 0xFF};
    struct dice *d = w->dice;
    uint32_t granularity = percent(d, 60) ? below(d, 3) : below(d, 8);
    uint32_t length = (uint32_t)w->image_len;
    uint32_t table = percent(d, 75)   ? below(d, length)
                     : percent(d, 80) ? length - between(d, 1, 24)
                                      : edge_word(d);

    put(w, 0xED);
    put_operand(w, 2);
    put_operand(w, 2);
    put(w, percent(d, 5) ? PICK(d, coarse) : granularity);
    put_word(w, table);
    if (!w->keep_patches)
        return;
    put_side(w, granularity, table, 0);
    put_side(w, granularity, table, 1);
    for (uint32_t i = 0; i < 16; i++)
        put_at(w, table + 4 + i, below(d, 256));
}

static void put_one_operand(struct writer *w)
{
    uint32_t op = between(w->dice, 0x80, 0x97);
    put(w, op);
    put_operand(w, 1 + (op & 1));
}

static void put_branch(struct writer *w)
{
    put_word(w, (one_in(w->dice, 2) ? 0x4000 : 0x6000) | (some_address(w) & 0x1FFF));
}

/* >00 to >0D without FMT and without those that are never done */
static void put_plain(struct writer *w)
{
    static const uint8_t ops[] = {0x00, 0x01, 0x02, 0x02, 0x04, 0x05, 0x06, 0x06, 0x09, 0x0A, 0x0C, 0x0D};
    struct dice *d = w->dice;
    uint32_t op = percent(d, 3) ? 0x07 : PICK(d, ops);

    put(w, op);
    switch (op) {
    case 0x02:
    case 0x04:
    case 0x07:
        put(w, edge_byte(d));
        break;
    case 0x05:
    case 0x06:
        put_word(w, some_address(w));
        break;
    }
}

/* An opcode that ends the program, needs the host or isn't there. */
static void put_undone(struct writer *w)
{
    static const uint8_t ops[] = {
        0x0B, 0x0B, 0x03, 0x0F, 0x0E, 0x10, 0x13, 0x1F, 0x26, 0x27, 0x28,
        0x2D, 0x2F, 0x36, 0x37, 0x3E, 0x3F, 0x98, 0x9F, 0xC2, 0xC3, 0xEC, 0xEE, 0xEF, 0xF0, 0xF3, 0xF8, 0xFC, 0xFF
    };
    put(w, PICK(w->dice, ops));
}

static void put_instruction(struct writer *w, uint32_t undone_percent)
{
    struct dice *d = w->dice;
    uint32_t r = below(d, 100);

    if (percent(d, undone_percent))
        put_undone(w);
    else if (r < 5)
        put_coincidence(w);
    else if (r < 12)
        put_move_to_grom(w);
    else if (r < 15)
        put_sound(w);
    else if (r < 40)
        put_two_operands(w);
    else if (r < 60)
        put_one_operand(w);
    else if (r < 72)
        put_plain(w);
    else if (r < 80)
        put_branch(w);
    else if (r < 91)
        put_move(w);
    else
        put_format(w);
}

/* ---- the parts of a case ---- */

static void fill_noise(struct dice *d, uint8_t *to, size_t len)
{
    for (size_t i = 0; i < len; i++)
        to[i] = (uint8_t)roll(d);
}

static void set_word(uint8_t *pad, uint32_t at, uint32_t word)
{
    pad[at] = (uint8_t)(word >> 8);
    pad[at + 1] = (uint8_t)word;
}

static void fill_stack_pointers(struct dice *d, uint8_t *pad)
{
    static const uint8_t data_edges[] = {0x9E, 0x9F, 0xA0, 0xBE, 0xBF, 0xC0, 0x00, 0xFF};
    static const uint8_t call_edges[] = {
        0x7C, 0x7D, 0x7E, 0x7F, 0x80, 0x81, 0x9C, 0x9D, 0x9E, 0x9F, 0xA0, 0x00, 0xFC, 0xFE, 0xFF
    };
    pad[0x72] = (uint8_t)(percent(d, 15) ? PICK(d, data_edges) : between(d, 0xA0, 0xBE));
    pad[0x73] = (uint8_t)(percent(d, 20) ? PICK(d, call_edges) : 0x7E + 2 * below(d, 15));
}

static void fill_pad(struct dice *d, uint8_t *pad)
{
    for (size_t i = 0; i < CASE_PAD_LEN; i++)
        pad[i] = (uint8_t)(percent(d, 30) ? edge_byte(d) : below(d, 256));
    for (uint32_t i = 0; i < 8; i++) {
        set_word(pad, INDEX_WORDS + 2 * i, percent(d, 75) ? below(d, 16) - 8 : edge_word(d));
        set_word(pad, ADDRESS_WORDS + 2 * i, vdp_target(d, 2));
        set_word(pad, LENGTH_WORDS + 2 * i, some_length(d));
    }
    for (uint32_t i = 0; i < 16; i++)
        pad[OFFSET_BYTES + i] = (uint8_t)cpu_target(d, 2);
    set_word(pad, SOURCE_WORDS, 0);
    set_word(pad, SOURCE_WORDS + 2, 1);
    fill_stack_pointers(d, pad);
    pad[0x7E] = (uint8_t)(percent(d, 75)   ? below(d, 24)
                          : percent(d, 50) ? between(d, 22, 25)
                                           : edge_byte(d));
    pad[0x7F] = (uint8_t)(percent(d, 70)   ? below(d, 32)
                          : percent(d, 50) ? between(d, 30, 33)
                                           : edge_byte(d));
}

/* Where the lists are, and one of them under way. */
static void fill_sound(struct dice *d, struct test_case *c, struct head list[LISTS])
{
    uint32_t first = below(d, LISTS);

    for (uint32_t i = 0; i < LISTS; i++) {
        list[i] = some_head(d, c->image_len);
        set_word(c->pad, LIST_WORDS + 2 * i, list[i].at);
    }
    set_word(c->pad, LIST_ADDRESS, list[first].at);
    c->pad[LIST_COUNT] = (uint8_t)some_count(d);
    c->source = percent(d, 95) ? list[first].vdp : !list[first].vdp;
}

/* Return addresses: the case's own labels, mostly. */
static void fill_return_stack(struct writer *w, uint8_t *pad)
{
    for (uint32_t at = 0x80; at < 0xA0; at += 2)
        set_word(pad, at, some_address(w));
}

static uint16_t start_address(struct dice *d, size_t image_len)
{
    uint32_t groups = (uint32_t)(image_len / CASE_GROUP_LEN);
    uint32_t r = below(d, 100);

    if (r < 85)
        return (uint16_t)below(d, (uint32_t)image_len);
    if (r < 96)
        return (uint16_t)(CASE_GROUP_LEN * between(d, 1, groups) - between(d, 1, 6));
    if (r < 98)
        return 0;
    return (uint16_t)(image_len + below(d, 3)); /* beyond it, unless it is full */
}

static size_t some_image_len(struct dice *d)
{
    return (size_t)CASE_GROUP_LEN * (percent(d, 85) ? between(d, 1, 4) : between(d, 5, 8));
}

/* None, all, those of the image, one of them, any, or only such as the image doesn't have. */
static uint8_t some_groups(struct dice *d, size_t image_len)
{
    uint32_t groups = (uint32_t)(image_len / CASE_GROUP_LEN);
    uint32_t r = below(d, 100);

    if (r < 7)
        return 0;
    if (r < 45)
        return 0xFF;
    if (r < 53)
        return (uint8_t)((1u << groups) - 1);
    if (r < 62)
        return (uint8_t)(1u << below(d, groups));
    if (r < 95)
        return (uint8_t)below(d, 256);
    return (uint8_t)(0xFFu << groups);
}

static uint32_t journal_word(uint32_t kind, uint32_t at, uint32_t byte)
{
    return kind << 29 | at << 8 | byte;
}

/* A store's word, as a step would have left it; one for GROM where the case may write it, mostly. */
static uint32_t some_store(struct dice *d, const struct test_case *c)
{
    static const uint32_t cells[] = {0xE0, 0x4000, 8};
    uint32_t kind = below(d, 3);

    if (percent(d, 15)) {
        uint32_t at = below(d, (uint32_t)c->image_len);
        if (is_writable(c->writable, at / CASE_GROUP_LEN) || percent(d, 4))
            return journal_word(4, at, below(d, 256));
    }
    return journal_word(kind, below(d, cells[kind]), below(d, 256));
}

/* The i-th word of the case's journal, counted from where its kept words begin. */
static uint32_t *kept_word(const struct test_case *c, size_t i)
{
    return &c->journal[c->ring ? (c->place + i) % c->journal_len : i];
}

/* A record of a few stores. */
static size_t fill_record(struct dice *d, const struct test_case *c, size_t at)
{
    uint32_t stores = below(d, 7);
    *kept_word(c, at++) = journal_word(3, 0, 0) | below(d, 0x20000); /* pc, and above it the source flag */
    for (; stores > 0 && at < c->used; stores--)
        *kept_word(c, at++) = some_store(d, c);
    return at;
}

/* Words that no step lays: any, marks with surplus bits, kinds that name no cell, stores of no cell. */
static uint32_t some_junk(struct dice *d)
{
    switch (below(d, 4)) {
    case 0:
        return (uint32_t)roll(d);
    case 1:
        return journal_word(3, below(d, 0x200000), below(d, 256));
    case 2:
        return journal_word(between(d, 4, 7), below(d, 0x200000), below(d, 256));
    default:
        return journal_word(below(d, 3), edge_word(d), below(d, 256));
    }
}

/* What a ring is lent with: records, below them now and then words without a mark, or junk here and there or all over. */
static void fill_ring(struct dice *d, const struct test_case *c, size_t at)
{
    uint32_t r = below(d, 100);
    uint32_t junk = r < 60 ? 0 : r < 85 ? 10 : 100; /* in hundredths of the words */

    if (one_in(d, 3))
        for (uint32_t n = below(d, 8); n > 0 && at < c->used; n--)
            *kept_word(c, at++) = some_store(d, c);
    size_t from = at;
    while (at < c->used)
        at = fill_record(d, c, at);
    for (at = from; junk > 0 && at < c->used; at++)
        if (percent(d, junk))
            *kept_word(c, at) = some_junk(d);
}

static size_t some_journal_len(struct dice *d)
{
    uint32_t r = below(d, 10000);
    if (r < 400)
        return 0;
    if (r < 3000)
        return between(d, 1, 100);
    if (r < 9500)
        return between(d, 100, 4000);
    if (r < 9990)
        return between(d, 4000, 40000);
    return CASE_JOURNAL_MAX - below(d, 2);
}

/* Rings that a few steps go round, and the lengths of plain journals. */
static size_t some_ring_len(struct dice *d)
{
    uint32_t r = below(d, 100);
    if (r < 12)
        return below(d, 4);
    if (r < 45)
        return between(d, 4, 12);
    return r < 75 ? between(d, 13, 100) : some_journal_len(d);
}

/* A place in a ring: its start, its end, or anywhere. */
static size_t some_place(struct dice *d, size_t len)
{
    if (len == 0 || one_in(d, 4))
        return 0;
    return one_in(d, 4) ? len - 1 : below(d, (uint32_t)len);
}

/* A place that a plain journal doesn't look at. */
static size_t any_place(struct dice *d)
{
    return one_in(d, 2) ? 0 : one_in(d, 2) ? (size_t)roll(d) : below(d, 4000);
}

/* How many words a journal has left; a ring is full, or nearly, in half of the cases. */
static size_t some_room(struct dice *d, size_t len, bool ring)
{
    uint32_t r = below(d, 100);

    if (ring && r < 50)
        return below(d, 4);
    if (r < 55)
        return len;
    if (r < 80)
        return below(d, 16);
    if (r < 85)
        return below(d, 900);
    if (r < 87)
        return between(d, ALL_ROOM_LOW, ALL_ROOM_HIGH);
    return below(d, (uint32_t)len + 1);
}

/* The words not in use are 0, or hold anything. */
static void fill_rest(struct dice *d, const struct test_case *c, size_t at)
{
    bool zero = one_in(d, 2);
    uint64_t garbage = roll(d) | 1;

    for (; at < c->journal_len; at++) {
        garbage = garbage * 6364136223846793005u + 1442695040888963407u;
        *kept_word(c, at) = zero ? 0 : (uint32_t)(garbage >> 32);
    }
}

static void fill_journal(struct dice *d, struct test_case *c)
{
    static const uint8_t rings[] = {1, 1, 1, 2, 0x80, 0xFF};

    c->ring = one_in(d, 2) ? 0 : PICK(d, rings);
    c->journal_len = c->ring ? some_ring_len(d) : some_journal_len(d);
    c->place = c->ring ? some_place(d, c->journal_len) : any_place(d);
    size_t room = some_room(d, c->journal_len, c->ring != 0);
    c->used = room > c->journal_len ? 0 : c->journal_len - room;

    size_t at = 0;
    for (; c->used > 4000 && at < c->used - 4000; at++) /* most of a long journal is plain */
        *kept_word(c, at) = 0;
    if (c->ring)
        fill_ring(d, c, at);
    else
        while (at < c->used)
            at = fill_record(d, c, at);
    fill_rest(d, c, c->used);
}

/* ---- calls ---- */

static uint32_t some_run(struct dice *d)
{
    uint32_t r = below(d, 100);
    if (r < 5)
        return 0;
    if (r < 80)
        return between(d, 1, 20);
    if (r < 95)
        return between(d, 21, 500);
    return one_in(d, 2) ? UINT32_MAX : (uint32_t)roll(d);
}

/* Room for any block, for a few bytes, for none. */
static size_t some_output_len(struct dice *d)
{
    uint32_t r = below(d, 100);
    return r < 50 ? CASE_OUTPUT_MAX : r < 85 ? below(d, 6) : between(d, 250, CASE_OUTPUT_MAX);
}

static void some_view(struct dice *d, struct call *call)
{
    static const size_t edges[] = {
        0, 1, 0xDE, 0xDF, 0xE0, 0xE1, 0xFF, 0x100, 0x101, 0x3FFE, 0x3FFF, 0x4000, 0x4001, 0x10000,
        SIZE_MAX / 2, SIZE_MAX - 1, SIZE_MAX
    };
    call->memory = (int)below(d, 2);
    size_t reach = call->memory == 0 ? 0xE0 : 0x4000;
    call->at = one_in(d, 2) ? PICK(d, edges) : below(d, (uint32_t)reach);
    if (call->at < reach && percent(d, 60)) {
        size_t most = reach - call->at;
        call->len = one_in(d, 2) ? most - 1 + below(d, 3) : below(d, (uint32_t)most + 1);
    } else {
        call->len = PICK(d, edges);
    }
}

/* Answer 11, by one part, the used count or the place. */
static void spoil_length(struct dice *d, struct call *call)
{
    static const size_t images[] = {0, 1, 255, 4096, 8191, 8193, 12288, 65535, CASE_IMAGE_ROOM};
    static const size_t pads[] = {0, 255, 257, 224};
    static const size_t vdps[] = {0, 16383, 16385, 8192};
    static const size_t regs[] = {0, 7, 9};
    switch (below(d, call->ring ? 9 : 7)) {
    case 0:
        call->image_len = PICK(d, images);
        break;
    case 1:
        call->pad_len = PICK(d, pads);
        break;
    case 2:
        call->vdp_len = PICK(d, vdps);
        break;
    case 3:
        call->reg_len = PICK(d, regs);
        break;
    case 4:
        call->journal_len = CASE_JOURNAL_MAX + 1;
        break;
    case 5:
        call->used_beyond = one_in(d, 4) ? SIZE_MAX - call->journal_len : 1 + below(d, 3);
        break;
    default: /* exactly at the length, a little past it, or far */
        call->place_past = true;
        call->place_by = one_in(d, 4) ? SIZE_MAX - call->journal_len - below(d, 3) : below(d, 4);
        break;
    }
}

/* The journal's top, spoilt in one word: any bit, any cell, a GROM cell, any word, one of no kind. */
static void some_damage(struct dice *d, struct call *call)
{
    static const uint32_t cells[] = {
        0x00DF00u, 0x00E000u, 0x00FF00u, 0x010000u, 0x20000000u, 0x203FFF00u, 0x20400000u, 0x40000700u,
        0x40000800u, 0x40010000u, 0x60000000u, 0x60010000u, 0x60020000u, 0x70000000u, 0x6000FFFFu, 0x80000000u, 0x801FFF00u,
        0x80200000u, 0x80FFFF00u, 0x81000000u, 0x90000000u, 0xA0000000u, 0xC0000000u, 0xE0000000u
    };
    uint32_t r = below(d, 100);

    call->damage = true;
    call->damage_below = percent(d, 80) ? below(d, 6) : below(d, 60);
    call->damage_and = r < 40 ? 0xFFFFFFFFu : 0;
    if (r < 40)
        call->damage_xor = 1u << below(d, 32);
    else if (r < 60)
        call->damage_xor = PICK(d, cells);
    else if (r < 80)
        call->damage_xor = journal_word(4, below(d, (uint32_t)call->image_len + CASE_GROUP_LEN), below(d, 256));
    else if (r < 90)
        call->damage_xor = (uint32_t)roll(d);
    else
        call->damage_xor = journal_word(between(d, 5, 7), below(d, 0x200000), below(d, 256));
}

/* Other groups than the case's, or fewer groups of the image. */
static void some_other_groups(struct dice *d, struct call *call)
{
    if (one_in(d, 2))
        call->writable = (uint8_t)(one_in(d, 2) ? below(d, 256) : call->writable ^ 1u << below(d, 8));
    else
        call->image_len = CASE_GROUP_LEN * between(d, 1, (uint32_t)(call->image_len / CASE_GROUP_LEN));
}

/* How a call uses the journal: as the case does, mostly. The other way, or another place, is any caller's right too. */
static void some_mode(struct dice *d, const struct test_case *c, struct call *call)
{
    bool other = percent(d, 3);

    call->ring = other ? c->ring == 0 : c->ring;
    call->set_place = call->ring && percent(d, other ? 50 : 3);
    call->place = some_place(d, c->journal_len);
    if (call->ring && call->n > RING_RUN)
        call->n %= RING_RUN;
}

/* All parts as they are. */
static void lend_all(const struct test_case *c, struct call *call)
{
    memset(call, 0, sizeof *call);
    call->image_len = c->image_len;
    call->pad_len = CASE_PAD_LEN;
    call->vdp_len = CASE_VDP_LEN;
    call->reg_len = CASE_REG_LEN;
    call->journal_len = c->journal_len;
    call->writable = c->writable;
    call->source_yes = 1;
}

static void some_pad_byte(struct dice *d, struct call *call)
{
    static const uint8_t cells[] = {0x72, 0x73, 0x73, 0x7C, 0x7E, 0x7F, LIST_COUNT};

    call->set_pad = true;
    call->pad_at = (uint8_t)(one_in(d, 2) ? PICK(d, cells) : below(d, 256));
    call->pad_byte = (uint8_t)(call->pad_at == 0x72   ? between(d, 0x9E, 0xC0)
                               : call->pad_at == 0x73 ? between(d, 0x7D, 0xA0)
                               : call->pad_at == LIST_COUNT ? some_count(d)
                                                            : below(d, 256));
}

/* The source flag, lent as any value that says the same; or turned, which is any caller's right too. */
static void some_source(struct dice *d, struct call *call)
{
    static const uint8_t yes[] = {1, 1, 1, 2, 0x80, 0xFF};

    call->source_yes = PICK(d, yes);
    call->turn_source = percent(d, 2);
}

/* A tick; a block is due at it more often than its list says. */
static void some_tick(struct dice *d, struct call *call)
{
    call->kind = CALL_TICK;
    call->output_len = some_output_len(d);
    if (percent(d, 25)) {
        call->set_pad = true;
        call->pad_at = LIST_COUNT;
        call->pad_byte = 1;
    }
}

/* A map of the image's length and of zeros, mostly; and how many of the bytes that were not read are changed then. */
static void some_map(struct dice *d, struct call *call)
{
    static const uint16_t shares[] = {256, 256, 128, 4};
    size_t less = call->image_len == 0 ? 0 : call->image_len - 1;
    const size_t lengths[] = {0, less, call->image_len + 1, CASE_GROUP_LEN, CASE_IMAGE_MAX, CASE_IMAGE_ROOM};

    call->map_len = percent(d, 5) ? PICK(d, lengths) : call->image_len;
    call->map_seed = percent(d, 15) ? roll(d) | 1 : 0;
    call->worn_share = PICK(d, shares);
    call->worn_seed = roll(d);
}

/* ticks: in hundredths of the calls */
static void fill_call(struct writer *w, const struct test_case *c, struct call *call, uint32_t ticks)
{
    struct dice *d = w->dice;
    uint32_t r = below(d, 100);

    lend_all(c, call);
    call->kind = r < 45 ? CALL_STEP : r < 59 ? CALL_RUN : r < 70 ? CALL_MAPPED : r < 91 ? CALL_BACK : CALL_VIEW;
    call->n = some_run(d);
    some_mode(d, c, call);
    some_source(d, call);
    if (percent(d, ticks))
        some_tick(d, call);
    if (call->kind == CALL_VIEW)
        some_view(d, call);
    if (percent(d, 6))
        some_other_groups(d, call);
    if (percent(d, call->kind == CALL_BACK ? 22 : call->ring ? 4 : 0))
        some_damage(d, call);
    if (percent(d, 2))
        spoil_length(d, call);
    if (call->kind == CALL_MAPPED)
        some_map(d, call);
    if (percent(d, 35)) {
        call->set_pc = true;
        call->pc = (uint16_t)(w->labels > 0 && percent(d, 90) ? w->label[below(d, (uint32_t)w->labels)]
                                                              : some_address(w));
    }
    if (percent(d, 10))
        some_pad_byte(d, call);
    if (percent(d, 4))
        call->drop_used = one_in(d, 4) ? SIZE_MAX : between(d, 1, 20);
}

/* ---- who wrote a cell? ---- */

/* A cell in reach of its memory: any, one of those that many steps store to, or the last. */
static void some_reached_cell(struct dice *d, struct call *call)
{
    static const uint8_t memories[] = {0, 0, 0, 1, 2, 4};
    static const uint8_t cells[] = {
        0x72, 0x73, 0x78, 0x7C, 0x7C, 0x7D, 0x7E, 0x7F, 0x80, 0x81, 0xC0, 0xC1, 0xCC, 0xCE, 0xD4
    };
    uint32_t memory = PICK(d, memories);
    uint32_t reach = memory == 0 ? 0xE0 : memory == 1 ? 0x4000 : memory == 2 ? 8 : (uint32_t)call->image_len;

    call->memory = (int)memory;
    call->at = percent(d, 10) ? reach - 1 : below(d, reach);
    if (memory == 0 && one_in(d, 2))
        call->at = PICK(d, cells);
    if (memory == 1 && one_in(d, 2))
        call->at = below(d, 768);
}

/* A cell out of reach, or of a memory that isn't there. */
static void some_missing_cell(struct dice *d, struct call *call)
{
    static const uint8_t memories[] = {0, 1, 2, 4, 3, 3, 5, 6, 7, 8, 9, 10, 12, 0x20, 0x24, 0x80, 0x84, 0xFC, 0xFF};
    static const uint16_t first_out[] = {0xE0, 0x4000, 8};

    call->memory = PICK(d, memories);
    if (call->memory == 4)
        call->at = call->image_len & 0xFFFF; /* GROM 0, if the image is whole */
    else if (call->memory < 3)
        call->at = first_out[call->memory];
    else
        call->at = below(d, 8); /* which three memories have */
    if (one_in(d, 3))
        call->at = edge_word(d);
}

/* Mostly the cell of a store that the journal has, or its neighbour. */
static void some_cell(struct dice *d, struct call *call)
{
    uint32_t r = below(d, 100);

    if (r < 90)
        some_reached_cell(d, call);
    else
        some_missing_cell(d, call);
    call->by_word = r < 65;
    call->by_store = percent(d, 92); /* else a mark's pc is taken for a cell, now and then */
    call->word_below = percent(d, 60) ? below(d, 12) : below(d, 400);
    call->beside = r < 45 ? 0 : r < 60 ? (one_in(d, 2) ? 1 : -1) : 0;
    call->memory_more = r >= 60 ? (int)(8 * between(d, 1, 31)) : 0;
}

/* After the calls; the last one may meet a damaged journal. */
static void fill_ask(struct dice *d, const struct test_case *c, struct call *call, bool last)
{
    lend_all(c, call);
    call->kind = CALL_WHO;
    some_mode(d, c, call);
    some_cell(d, call);
    if (percent(d, 4))
        some_other_groups(d, call);
    if (percent(d, last ? 20 : 1)) {
        some_damage(d, call);
        if (one_in(d, 2)) /* far below, and the oldest word too */
            call->damage_below = below(d, 400);
    }
    if (percent(d, 4))
        spoil_length(d, call);
    if (percent(d, 5))
        some_pad_byte(d, call);
    if (percent(d, 5))
        call->drop_used = one_in(d, 4) ? SIZE_MAX : between(d, 1, 20);
}

/* ---- cases ---- */

void maker_start(struct maker *m, uint64_t seed)
{
    struct dice d = {seed};
    struct writer w = {.maker = m, .dice = &d, .image_len = CASE_IMAGE_MAX};

    m->seed = seed;
    m->patches = 0;
    fill_noise(&d, m->noise, sizeof m->noise);
    fill_noise(&d, m->image, sizeof m->image);
    for (uint32_t group = 0; group < CASE_IMAGE_MAX; group += CASE_GROUP_LEN) {
        w.at = (uint16_t)group;
        while (w.at % CASE_GROUP_LEN < CASE_GROUP_LEN - 600) {
            w.labels = 0;
            for (uint16_t i = 0; i < 4; i++) /* branches stay in their group, mostly */
                w.label[w.labels++] = (uint16_t)(group + below(&d, CASE_GROUP_LEN));
            put_instruction(&w, 1);
        }
    }
}

static void take_patches_away(struct maker *m)
{
    while (m->patches > 0) {
        m->patches--;
        m->image[m->patch[m->patches].at] = m->patch[m->patches].old;
    }
}

/* A case about GRAM begins with a MOVE into GROM, which may bring an instruction written before it. */
static void write_gram_code(struct writer *w, struct test_case *c)
{
    add_label(w);
    c->pc = w->at;
    put_move_to_grom(w);
    for (int i = 0; i < 3; i++)
        put_instruction(w, 3);
}

static void write_lists(struct writer *w, struct test_case *c)
{
    for (int i = 0; i < LISTS; i++)
        write_list(w, c->vdp, w->list[i]);
}

/* One about sound may begin by starting a list. */
static void write_sound_code(struct writer *w, struct test_case *c)
{
    add_label(w);
    c->pc = w->at;
    put_sound(w);
    for (int i = 0; i < 3; i++)
        put_instruction(w, 3);
}

/* An instruction that is refused by nothing but its journal: 2 to 5 words, or an FMT of up to 30. */
static void put_lasting(struct writer *w)
{
    struct dice *d = w->dice;

    switch (below(d, 6)) {
    case 0: /* INC to DECT */
        put(w, between(d, 0x90, 0x97));
        put(w, below(d, 0x10));
        break;
    case 1: /* ADD and SUB, AND to ST, all with an immediate byte */
        put(w, 0xA2 + 4 * (one_in(d, 2) ? below(d, 2) : between(d, 4, 7)));
        put(w, between(d, 0x50, 0x6F));
        put(w, edge_byte(d));
        break;
    case 2: /* RAND */
        put_word(w, 0x0200 | below(d, 256));
        break;
    case 3: /* BACK */
        put_word(w, 0x0400 | below(d, 256));
        break;
    case 4: /* I/O */
        put(w, 0xF6);
        put_word(w, below(d, 0x10) << 8 | below(d, 2));
        break;
    default: /* a character, repeated */
        put(w, 0x08);
        put(w, 0x40 | short_count(d) % 9);
        put(w, below(d, 256));
        put(w, 0xFB);
        break;
    }
}

/* A loop without an end, for runs that go round a ring many times. */
static void write_loop(struct writer *w, struct test_case *c)
{
    uint32_t instructions = between(w->dice, 1, 6);

    add_label(w);
    c->pc = w->at;
    for (uint32_t i = 0; i < instructions; i++)
        put_lasting(w);
    put(w, 0x05);
    put_word(w, c->pc);
}

static void write_code(struct writer *w, struct test_case *c)
{
    struct dice *d = w->dice;
    uint32_t instructions = between(d, 1, 12);
    bool long_format = one_in(d, 50);
    size_t room = c->journal_len - c->used;

    if (room >= ALL_ROOM_LOW && room <= ALL_ROOM_HIGH) {
        add_label(w);
        put(w, 0x07);
        put(w, below(d, 256));
    }
    for (uint32_t i = 0; i < instructions; i++) {
        add_label(w);
        put_instruction(w, 3);
    }
    if (long_format) {
        add_label(w);
        c->pc = w->at;
        put_long_format(w);
    }
}

/* What most of a case is for. */
enum subject { ANYTHING, GRAM, SOUND };

static enum subject some_subject(struct dice *d)
{
    uint32_t r = below(d, 100);
    return r < 20 ? GRAM : r < 40 ? SOUND : ANYTHING;
}

static void fill_parts(struct dice *d, struct maker *m, struct test_case *c, enum subject subject)
{
    c->image = m->image;
    c->image_len = subject != ANYTHING && one_in(d, 2) ? CASE_IMAGE_MAX : some_image_len(d);
    c->writable = some_groups(d, c->image_len);
    c->journal = m->journal;
    fill_pad(d, c->pad);
    memcpy(c->vdp, m->noise, sizeof c->vdp);
    fill_noise(d, c->vdp + below(d, CASE_VDP_LEN - 64), 64);
    fill_noise(d, c->reg, sizeof c->reg);
    fill_journal(d, c);
}

/* The lists come first, so that no code is written over. */
static void write_subject(struct writer *w, struct test_case *c, enum subject subject)
{
    if (subject == SOUND)
        write_lists(w, c);
    write_code(w, c);
    if (subject == GRAM)
        write_gram_code(w, c);
    else if (subject == SOUND && one_in(w->dice, 2))
        write_sound_code(w, c);
    else if (c->ring && one_in(w->dice, 3))
        write_loop(w, c);
}

/* Calls that change something, mostly, and then questions. */
static void fill_calls(struct writer *w, struct test_case *c, enum subject subject)
{
    struct dice *d = w->dice;

    c->call_count = (int)between(d, 1, subject == SOUND ? CASE_CALLS_MAX : CASE_CALLS_MAX / 2);
    for (int i = 0; i < c->call_count; i++)
        fill_call(w, c, &c->call[i], subject == SOUND ? 60 : 8);
    uint32_t asks = between(d, 2, CASE_ASKS_MAX);
    for (uint32_t i = 0; i < asks; i++)
        fill_ask(d, c, &c->call[c->call_count++], i == asks - 1);
}

void maker_make(struct maker *m, uint64_t number, struct test_case *c)
{
    struct dice d = {m->seed ^ (number + 1) * 0xD1342543DE82EF95u};
    struct head list[LISTS];

    d.state = roll(&d);
    take_patches_away(m);
    enum subject subject = some_subject(&d);
    fill_parts(&d, m, c, subject);
    fill_sound(&d, c, list);

    struct writer w = {
        .maker = m, .dice = &d, .pad = c->pad, .list = list, .image_len = c->image_len, .writable = c->writable,
        .keep_patches = true};
    c->pc = w.at = start_address(&d, c->image_len);
    write_subject(&w, c, subject);
    fill_return_stack(&w, c->pad);
    fill_calls(&w, c, subject);
}
