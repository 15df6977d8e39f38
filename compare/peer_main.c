/* The program of document 01: tabbed lines in, answers out. */
#include <stdbool.h>
#include <stdio.h>
#include <string.h>

#include "peer.h"

enum {
    IMAGE_LEN = 32768,
    PAD_LEN = 256,
    VDP_LEN = 16384,
    REG_LEN = 8,
    JOURNAL_LEN = 16384,
    LINE_MAX_LEN = 65546, /* "grom", an address and 32,768 bytes */
    NO_RING = 0,          /* no line asks for one: a plain journal, whose place is not looked at */
    NO_GROUPS = 0         /* nor names a writable group, nor asks for a tick */
};

struct memories {
    uint8_t pad[PAD_LEN];
    uint8_t vdp[VDP_LEN];
    uint8_t reg[REG_LEN];
};

struct bench {
    uint8_t image[IMAGE_LEN];
    struct memories now;
    struct memories before;
    uint32_t journal[JOURNAL_LEN];
    size_t used;
    uint16_t pc;
    uint8_t source; /* which an I/O may set, though no line shows it */
};

struct line {
    char text[LINE_MAX_LEN];
    size_t len;
    bool too_long;
};

/* The rest of a line that is being taken apart. */
struct rest {
    const char *text;
    size_t len;
};

/* Reads one line without its LF; false at the end of the input. */
static bool read_line(FILE *in, struct line *line)
{
    int c = getc(in);
    if (c == EOF)
        return false;
    line->len = 0;
    line->too_long = false;
    for (; c != EOF && c != '\n'; c = getc(in)) {
        if (line->len == LINE_MAX_LEN)
            line->too_long = true;
        else
            line->text[line->len++] = (char)c;
    }
    return true;
}

static bool take_word(struct rest *r, const char *word)
{
    size_t len = strlen(word);
    if (r->len < len || memcmp(r->text, word, len) != 0)
        return false;
    r->text += len;
    r->len -= len;
    return true;
}

/* Capitals only; -1 if not a digit. */
static int hex_digit(char c)
{
    if (c >= '0' && c <= '9')
        return c - '0';
    if (c >= 'A' && c <= 'F')
        return c - 'A' + 10;
    return -1;
}

static bool take_hex(struct rest *r, size_t digits, uint32_t *value)
{
    if (r->len < digits)
        return false;
    *value = 0;
    for (size_t i = 0; i < digits; i++) {
        int digit = hex_digit(r->text[i]);
        if (digit < 0)
            return false;
        *value = *value << 4 | (uint32_t)digit;
    }
    r->text += digits;
    r->len -= digits;
    return true;
}

/* Address, tab, bytes: all of the line is checked before any byte is set. */
static bool set_bytes(struct rest r, size_t digits, uint8_t *part, size_t part_len)
{
    uint32_t at, byte;

    if (!take_hex(&r, digits, &at) || !take_word(&r, "\t"))
        return false;
    if (r.len == 0 || r.len % 2 != 0)
        return false;
    if (at > part_len || r.len / 2 > part_len - at)
        return false;
    for (struct rest check = r; check.len > 0;)
        if (!take_hex(&check, 2, &byte))
            return false;
    while (take_hex(&r, 2, &byte))
        part[at++] = (uint8_t)byte;
    return true;
}

static bool set_pc(struct rest r, uint16_t *pc)
{
    uint32_t value;
    if (!take_hex(&r, 4, &value) || r.len != 0)
        return false;
    *pc = (uint16_t)value;
    return true;
}

/* "decimal", up to 4,294,967,295 */
static bool read_count(struct rest r, uint32_t *n)
{
    uint64_t value = 0;
    if (r.len == 0)
        return false;
    for (size_t i = 0; i < r.len; i++) {
        if (r.text[i] < '0' || r.text[i] > '9')
            return false;
        value = value * 10 + (uint64_t)(r.text[i] - '0');
        if (value > UINT32_MAX)
            return false;
    }
    *n = (uint32_t)value;
    return true;
}

/* "each cell changed, ascending"; "changed means by that run" */
static void print_changes(const char *form, const uint8_t *before, const uint8_t *now, size_t len)
{
    for (size_t i = 0; i < len; i++)
        if (before[i] != now[i])
            printf(form, (unsigned)i, (unsigned)now[i]);
}

/* "It prints answer, steps, stores; pc; each cell changed, ascending, pad, vdp, reg."
   02, item 2: the address is "the answer line's fourth number, in hex". */
static void run(struct bench *s, uint32_t n)
{
    s->before = s->now;
    peer_report r = peer_run(s->image, IMAGE_LEN, s->now.pad, PAD_LEN, s->now.vdp, VDP_LEN,
                             s->now.reg, REG_LEN, s->journal, JOURNAL_LEN, s->pc, s->used, NO_RING, 0, NO_GROUPS,
                             s->source, n);
    s->pc = r.pc;
    s->used = r.used;
    s->source = r.source;
    printf("answer\t%u\t%lu\t%llu\t%04X\n", (unsigned)r.answer, (unsigned long)r.steps,
           (unsigned long long)r.stores, (unsigned)r.address);
    printf("pc\t%04X\n", (unsigned)r.pc);
    print_changes("pad\t%02X\t%02X\n", s->before.pad, s->now.pad, PAD_LEN);
    print_changes("vdp\t%04X\t%02X\n", s->before.vdp, s->now.vdp, VDP_LEN);
    print_changes("reg\t%02X\t%02X\n", s->before.reg, s->now.reg, REG_LEN);
}

/* Does what one line says; false if the line is bad. */
static bool do_line(struct bench *s, const struct line *line)
{
    struct rest r = {line->text, line->len};
    uint32_t n;

    if (line->too_long)
        return false;
    if (take_word(&r, "grom\t"))
        return set_bytes(r, 4, s->image, IMAGE_LEN);
    if (take_word(&r, "pad\t"))
        return set_bytes(r, 2, s->now.pad, PAD_LEN);
    if (take_word(&r, "vdp\t"))
        return set_bytes(r, 4, s->now.vdp, VDP_LEN);
    if (take_word(&r, "reg\t"))
        return set_bytes(r, 2, s->now.reg, REG_LEN);
    if (take_word(&r, "pc\t"))
        return set_pc(r, &s->pc);
    if (!take_word(&r, "run\t") || !read_count(r, &n))
        return false;
    run(s, n);
    return true;
}

int main(void)
{
    static struct bench bench; /* "all not set is 0" */
    static struct line line;

    for (unsigned long long number = 1; read_line(stdin, &line); number++) {
        if (!do_line(&bench, &line)) {
            printf("bad\t%llu\n", number); /* "its number from 1, stop" */
            break;
        }
    }
    return fflush(stdout) == 0 ? 0 : 1;
}
