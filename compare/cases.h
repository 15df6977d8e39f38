/* Random cases for comparing two machines.  A seed and a case number make
   one case, always the same. */
#ifndef CASES_H
#define CASES_H

#include <stdbool.h>
#include <stddef.h>
#include <stdint.h>

enum {
    CASE_PAD_LEN = 256,
    CASE_VDP_LEN = 16384,
    CASE_REG_LEN = 8,
    CASE_GROUP_LEN = 8192,
    CASE_IMAGE_MAX = 65536,
    CASE_IMAGE_ROOM = CASE_IMAGE_MAX + CASE_GROUP_LEN, /* the longest image lent, rightly or not */
    CASE_JOURNAL_MAX = 1048576,
    CASE_JOURNAL_ROOM = CASE_JOURNAL_MAX + 1,
    CASE_LENT_EXTRA = 8, /* pad, vdp and reg are lent at most so much too long */
    CASE_OUTPUT_MAX = 256, /* bytes lent to a tick; no block has so many */
    CASE_CALLS_MAX = 24,
    CASE_ASKS_MAX = 6, /* after these: who wrote a cell? */
    CASE_PATCHES_MAX = 65536,
    CASE_LABELS_MAX = 32
};

enum call_kind { CALL_STEP, CALL_RUN, CALL_MAPPED, CALL_TICK, CALL_BACK, CALL_VIEW, CALL_WHO, CALL_KINDS };

/* One call, and what is changed on both sides before it. */
struct call {
    enum call_kind kind;
    uint32_t n;   /* for a run, mapped or not */
    int memory;   /* for a view, and who wrote a cell */
    size_t at;
    size_t len;
    size_t output_len; /* for a tick */

    /* for a mapped run */
    size_t map_len;
    uint64_t map_seed;   /* 0: a map of zeros; else of bytes made from it */
    uint32_t worn_share; /* in 256ths: so many of the bytes that it didn't read are changed, and it is run again */
    uint64_t worn_seed;

    /* the cell of a kept word so far below the top is asked for, or one beside it, unless the journal is empty */
    bool by_word;
    bool by_store;   /* of the next store's word from there down */
    size_t word_below; /* modulo their number */
    int beside;      /* added to its address */
    int memory_more; /* added to its memory */

    /* the lengths as lent */
    size_t image_len, pad_len, vdp_len, reg_len, journal_len;
    size_t used_beyond; /* if not 0: used is lent as the journal's length plus this */
    uint8_t ring;
    bool place_past;    /* place is lent as the journal's length plus place_by, for this call alone */
    size_t place_by;
    uint8_t writable;
    uint8_t source_yes; /* how a source flag that is set is lent: any value but 0 */

    bool set_pc;
    uint16_t pc;
    bool turn_source;
    bool set_pad;
    uint8_t pad_at, pad_byte;
    size_t drop_used;   /* used goes down by so much, at most to 0 */
    bool set_place;     /* the ring begins elsewhere: what was laid is now any words */
    size_t place;
    bool damage;        /* the word so far below the top is changed, if it is there */
    size_t damage_below;
    uint32_t damage_and, damage_xor;
};

struct test_case {
    const uint8_t *image; /* the maker's own, until its next case */
    size_t image_len;
    uint8_t writable; /* of most calls */
    uint8_t pad[CASE_PAD_LEN];
    uint8_t vdp[CASE_VDP_LEN];
    uint8_t reg[CASE_REG_LEN];
    uint32_t *journal; /* the maker's own */
    size_t journal_len;
    size_t used;
    uint8_t ring; /* of most calls; any value but 0 asks for a ring */
    size_t place; /* in a ring below the journal's length, or 0 */
    uint16_t pc;
    bool source;
    int call_count;
    struct call call[CASE_CALLS_MAX + CASE_ASKS_MAX];
};

struct patch {
    uint32_t at;
    uint8_t old;
};

struct maker {
    uint64_t seed;
    uint8_t image[CASE_IMAGE_ROOM];     /* a stream of instructions, made from the seed */
    uint8_t noise[CASE_VDP_LEN];        /* likewise */
    uint32_t journal[CASE_JOURNAL_ROOM];
    struct patch patch[CASE_PATCHES_MAX]; /* what the current case wrote over */
    size_t patches;
};

void maker_start(struct maker *m, uint64_t seed);
void maker_make(struct maker *m, uint64_t number, struct test_case *c);

#endif
