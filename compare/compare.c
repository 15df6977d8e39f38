/* Compares two machines call by call:  compare [cases] [seed] [first-case] */
#include <inttypes.h>
#include <stdio.h>
#include <stdlib.h>
#include <string.h>

#include "cases.h"
#include "machine.h"

enum { CANARY = 64, BLOCK = 1024 };
#define CANARY_BYTE 0xC5

/* A lent part with canary bytes on both sides. */
struct part {
    uint8_t *block;
    size_t len;
    size_t room;
};

/* One side of the comparison. */
struct side {
    const struct machine *machine;
    struct part image, pad, vdp, reg, journal;
    struct part output; /* of the newest tick */
    struct part map;    /* of the newest mapped run */
};

struct outcome {
    peer_report report;
    size_t shown;
    size_t offset;
    peer_wrote wrote;
    size_t sent;
};

/* A cell that is asked for: memory and address, as they are lent. */
struct cell {
    uint8_t memory;
    uint16_t at;
};

struct counts {
    uint64_t cases, calls, calls_of_kind[CALL_KINDS];
    uint64_t answers[256];      /* of every call but views and who wrote a cell */
    uint64_t step_answers[256]; /* of single steps */
    uint64_t tries, accepted;   /* steps, those of runs included */
    uint64_t opcode[256];       /* accepted */
    uint64_t empty_views, shown_views;

    /* of MOVEs into GROM */
    uint64_t grom_stores, grom_wraps;
    uint64_t rewritten;           /* steps accepted at an opcode that isn't the one at the case's start */
    uint64_t grom_refusals[256];

    /* of rings */
    uint64_t ring_calls, ring_answers[256];
    uint64_t dropped;             /* words */
    uint64_t dropping_calls, dropping_cases;
    uint64_t rounds, round_cases; /* a round: as many words dropped as the journal has */
    uint64_t lost;                /* calls whose first step was refused and had dropped some */
    uint64_t no_room_lost;        /* of these, those that answered 10 */
    uint64_t backs_round;         /* steps taken back in a ring that had dropped some */
    uint64_t past_oldest;         /* step-backs there that found no word */

    /* of who wrote a cell */
    uint64_t who_answers[256];
    uint64_t named, named_in[5];  /* by memory */
    uint64_t named_older;         /* not the newest step */
    uint64_t named_round;         /* in a ring that had dropped some */
    uint64_t named_equal;         /* the byte before is the byte left */
    uint64_t named_again;         /* that step stored there more than once */
    uint64_t none_kept, none_empty, none_round;
    uint64_t walked;              /* steps taken back to check all that */

    /* of ticks */
    uint64_t tick_answers[256];
    uint64_t no_list, counted;    /* >CE was 0, or came to something else */
    uint64_t blocks[2];           /* sent from GROM, from VDP RAM */
    uint64_t leaps, turns;        /* a new address, in the same memory or in the other */
    uint64_t ends;                /* a count of 0 */
    uint64_t bytes;
    uint64_t list_wraps;          /* past >FFFF */
    uint64_t filled;              /* outputs, to their last byte */
    uint64_t wiped;               /* refused with bytes written before */
    uint64_t flags_back;          /* step-backs that turned the source flag */

    /* of mapped runs */
    uint64_t mapped_answers[256];
    uint64_t odd_maps;            /* of another length than the image */
    uint64_t full_maps;           /* lent with bytes in them; the others: */
    uint64_t read;                /* bytes */
    uint64_t refused_first;       /* runs whose first step was refused */
    uint64_t refused_read;        /* bytes that those read */
    uint64_t worn_runs, worn;     /* run again; bytes changed for that */
    uint64_t worn_words;          /* journal words with another old byte then */
};

/* What the calls hand on to one another. */
struct at {
    uint16_t pc;
    size_t used;
    size_t place;
    uint8_t source; /* 0 or 1 */
};

static const struct machine peer_machine = {
    "peer", peer_step, peer_run, peer_run_mapped, peer_tick, peer_step_back, peer_view, peer_who_wrote};

static const char *const kind_name[] = {"step", "run", "mapped-run", "tick", "step-back", "view", "who-wrote"};

/* ---- lent parts ---- */

static void part_make(struct part *p, size_t room)
{
    p->room = room;
    p->len = 0;
    p->block = malloc(room + 2 * CANARY);
    if (!p->block) {
        fprintf(stderr, "out of memory\n");
        exit(2);
    }
    memset(p->block, CANARY_BYTE, room + 2 * CANARY);
}

static uint8_t *part_bytes(const struct part *p)
{
    return p->block + CANARY;
}

/* Most of an image and of VDP RAM is as the case before left it, and under an emulator a copy takes ten times as long
   as a comparison. */
static void copy_changed(uint8_t *to, const uint8_t *from, size_t len)
{
    for (size_t at = 0; at < len; at += BLOCK) {
        size_t here = len - at < BLOCK ? len - at : BLOCK;
        if (memcmp(to + at, from + at, here) != 0)
            memcpy(to + at, from + at, here);
    }
}

static void part_fill(struct part *p, const void *from, size_t len)
{
    copy_changed(part_bytes(p), from, len);
    p->len = len;
    memset(part_bytes(p) + len, CANARY_BYTE, CANARY);
}

static bool part_guarded(const struct part *p)
{
    for (size_t i = 0; i < CANARY; i++)
        if (p->block[i] != CANARY_BYTE || part_bytes(p)[p->len + i] != CANARY_BYTE)
            return false;
    return true;
}

static uint32_t *journal_words(const struct side *s)
{
    return (uint32_t *)(void *)part_bytes(&s->journal);
}

static void side_make(struct side *s, const struct machine *machine)
{
    s->machine = machine;
    part_make(&s->image, CASE_IMAGE_ROOM);
    part_make(&s->pad, CASE_PAD_LEN + CASE_LENT_EXTRA);
    part_make(&s->vdp, CASE_VDP_LEN + CASE_LENT_EXTRA);
    part_make(&s->reg, CASE_REG_LEN + CASE_LENT_EXTRA);
    part_make(&s->journal, CASE_JOURNAL_ROOM * sizeof(uint32_t));
    part_make(&s->output, CASE_OUTPUT_MAX);
    part_make(&s->map, CASE_IMAGE_ROOM + CASE_LENT_EXTRA);
}

static void side_free(struct side *s)
{
    free(s->image.block);
    free(s->pad.block);
    free(s->vdp.block);
    free(s->reg.block);
    free(s->journal.block);
    free(s->output.block);
    free(s->map.block);
}

static void side_start(struct side *s, const struct test_case *c)
{
    part_fill(&s->image, c->image, c->image_len);
    part_fill(&s->pad, c->pad, CASE_PAD_LEN);
    part_fill(&s->vdp, c->vdp, CASE_VDP_LEN);
    part_fill(&s->reg, c->reg, CASE_REG_LEN);
    part_fill(&s->journal, c->journal, c->journal_len * sizeof(uint32_t));
}

/* ---- calls ---- */

/* The i-th kept word, as a call finds it. A place that it will turn down may be any. */
static uint32_t *kept_word(const struct side *s, const struct call *call, size_t place, size_t i)
{
    size_t len = s->journal.len / sizeof(uint32_t);
    return journal_words(s) + (call->ring ? (place % len + i) % len : i);
}

/* A byte that an output holds before a tick, never 0: what is wiped must be seen, and what stays too. */
static uint8_t output_before(size_t i)
{
    return (uint8_t)(i % 255 + 1);
}

static void fill_output(struct side *s, size_t len)
{
    uint8_t bytes[CASE_OUTPUT_MAX];

    for (size_t i = 0; i < len; i++)
        bytes[i] = output_before(i);
    part_fill(&s->output, bytes, len);
}

/* Numbers that only have to differ. */
static uint8_t some_byte(uint64_t *state)
{
    *state = *state * 6364136223846793005u + 1442695040888963407u;
    return (uint8_t)(*state >> 56);
}

static void fill_map(struct side *s, const struct call *call)
{
    static uint8_t bytes[CASE_IMAGE_ROOM + CASE_LENT_EXTRA];
    uint64_t state = call->map_seed;

    memset(bytes, 0, call->map_len);
    for (size_t i = 0; state != 0 && i < call->map_len; i++)
        bytes[i] = some_byte(&state);
    part_fill(&s->map, bytes, call->map_len);
}

/* What is changed before a call, the same on both sides. */
static void edit_side(struct side *s, const struct call *call, const struct at *at)
{
    if (call->set_pad)
        part_bytes(&s->pad)[call->pad_at] = call->pad_byte;
    if (call->damage && call->damage_below < at->used) {
        uint32_t *word = kept_word(s, call, at->place, at->used - 1 - call->damage_below);
        *word = (*word & call->damage_and) ^ call->damage_xor;
    }
    if (call->kind == CALL_TICK)
        fill_output(s, call->output_len);
    if (call->kind == CALL_MAPPED)
        fill_map(s, call);
}

static void edit_numbers(const struct call *call, struct at *at)
{
    if (call->set_pc)
        at->pc = call->pc;
    at->used -= call->drop_used < at->used ? call->drop_used : at->used;
    if (call->set_place)
        at->place = call->place;
    at->source ^= call->turn_source;
}

/* What was lent wrong is not handed on. */
static void hand_on(const struct call *call, const peer_report *r, struct at *at)
{
    at->pc = r->pc;
    at->source = r->source;
    if (!call->used_beyond)
        at->used = r->used;
    if (!call->place_past)
        at->place = r->place;
}

static size_t lent_used(const struct call *call, size_t used)
{
    return call->used_beyond ? call->journal_len + call->used_beyond : used;
}

static size_t lent_place(const struct call *call, size_t place)
{
    return call->place_past ? call->journal_len + call->place_by : place;
}

static uint8_t lent_source(const struct call *call, uint8_t source)
{
    return source ? call->source_yes : 0;
}

/* The word by which a call names its cell: so far below the top, or the next store's word from there down. */
static const uint32_t *naming_word(const struct side *s, const struct call *call, const struct at *at)
{
    const uint32_t *word = NULL;
    size_t below = at->used == 0 ? 0 : call->word_below % at->used;

    for (; call->by_word && below < at->used; below++) {
        word = kept_word(s, call, at->place, at->used - 1 - below);
        if (!call->by_store || *word >> 29 != 3)
            break;
    }
    return word;
}

static struct cell lent_cell(const struct side *s, const struct call *call, const struct at *at)
{
    const uint32_t *word = naming_word(s, call, at);

    if (!word)
        return (struct cell){(uint8_t)call->memory, (uint16_t)call->at};
    return (struct cell){(uint8_t)((int)(*word >> 29) + call->memory_more),
                         (uint16_t)((int)(*word >> 8 & 0xFFFF) + call->beside)};
}

static peer_wrote ask_who(const struct side *s, const struct call *call, const struct at *at)
{
    struct cell cell = lent_cell(s, call, at);

    return s->machine->who_wrote(part_bytes(&s->image), call->image_len, part_bytes(&s->pad), call->pad_len,
                                 part_bytes(&s->vdp), call->vdp_len, part_bytes(&s->reg), call->reg_len,
                                 journal_words(s), call->journal_len, lent_used(call, at->used), call->ring,
                                 lent_place(call, at->place), call->writable, cell.memory, cell.at);
}

static bool is_run(const struct call *call)
{
    return call->kind == CALL_RUN || call->kind == CALL_MAPPED;
}

static struct outcome make_call(struct side *s, const struct call *call, const struct at *at)
{
    const struct machine *m = s->machine;
    uint8_t *image = part_bytes(&s->image), *pad = part_bytes(&s->pad);
    uint8_t *vdp = part_bytes(&s->vdp), *reg = part_bytes(&s->reg);
    uint32_t *journal = journal_words(s);
    uint16_t pc = at->pc;
    size_t used = lent_used(call, at->used), place = lent_place(call, at->place);
    uint8_t source = lent_source(call, at->source);
    struct outcome out = {.report = {.pc = pc, .used = used, .place = place, .source = at->source}}; /* if a call only looks */

    switch (call->kind) {
    case CALL_STEP:
        out.report = m->step(image, call->image_len, pad, call->pad_len, vdp, call->vdp_len, reg,
                             call->reg_len, journal, call->journal_len, pc, used, call->ring, place,
                             call->writable, source);
        break;
    case CALL_RUN:
        out.report = m->run(image, call->image_len, pad, call->pad_len, vdp, call->vdp_len, reg,
                            call->reg_len, journal, call->journal_len, pc, used, call->ring, place,
                            call->writable, source, call->n);
        break;
    case CALL_MAPPED:
        out.report = m->run_mapped(image, call->image_len, part_bytes(&s->map), call->map_len, pad, call->pad_len,
                                   vdp, call->vdp_len, reg, call->reg_len, journal, call->journal_len, pc, used,
                                   call->ring, place, call->writable, source, call->n);
        break;
    case CALL_TICK:
        out.report = m->tick(image, call->image_len, pad, call->pad_len, vdp, call->vdp_len, reg,
                             call->reg_len, journal, call->journal_len, pc, used, call->ring, place,
                             call->writable, source, part_bytes(&s->output), call->output_len, &out.sent);
        break;
    case CALL_BACK:
        out.report = m->step_back(image, call->image_len, pad, call->pad_len, vdp, call->vdp_len, reg,
                                  call->reg_len, journal, call->journal_len, pc, used, call->ring, place,
                                  call->writable, source);
        break;
    case CALL_VIEW:
        out.shown = m->view(call->pad_len, call->vdp_len, call->memory, call->at, call->len, &out.offset);
        out.offset = out.shown == 0 ? 0 : out.offset; /* an empty part has no place */
        break;
    default:
        out.wrote = ask_who(s, call, at);
        break;
    }
    return out;
}

/* ---- differences ---- */

static bool same_report(const peer_report *a, const peer_report *b)
{
    return a->answer == b->answer && a->pc == b->pc && a->used == b->used && a->steps == b->steps &&
           a->stores == b->stores && a->address == b->address && a->place == b->place && a->source == b->source;
}

static bool same_wrote(const peer_wrote *a, const peer_wrote *b)
{
    return a->answer == b->answer && a->found == b->found && a->after == b->after && a->pc == b->pc &&
           a->before == b->before && a->left == b->left;
}

static bool same_outcome(const struct outcome *a, const struct outcome *b)
{
    return same_report(&a->report, &b->report) && a->shown == b->shown && a->offset == b->offset &&
           same_wrote(&a->wrote, &b->wrote) && a->sent == b->sent;
}

static bool same_part(const struct part *a, const struct part *b)
{
    return memcmp(part_bytes(a), part_bytes(b), a->len) == 0;
}

static bool same_sides(const struct side *a, const struct side *b)
{
    return same_part(&a->pad, &b->pad) && same_part(&a->vdp, &b->vdp) && same_part(&a->reg, &b->reg) &&
           same_part(&a->journal, &b->journal) && same_part(&a->image, &b->image) && same_part(&a->output, &b->output) &&
           same_part(&a->map, &b->map);
}

static bool guarded(const struct side *s)
{
    return part_guarded(&s->image) && part_guarded(&s->pad) && part_guarded(&s->vdp) && part_guarded(&s->reg) &&
           part_guarded(&s->journal) && part_guarded(&s->output) && part_guarded(&s->map);
}

static void print_outcome(const struct machine *m, const struct outcome *o)
{
    printf("# %s: answer %u pc %04X used %zu steps %" PRIu32 " stores %" PRIu64
           " address %04X place %zu source %u shown %zu offset %zu sent %zu\n",
           m->name, o->report.answer, o->report.pc, o->report.used, o->report.steps, o->report.stores,
           o->report.address, o->report.place, o->report.source, o->shown, o->offset, o->sent);
}

static void print_wrote(const char *name, const peer_wrote *w)
{
    printf("# %s: answer %u found %" PRIu64 " after %" PRIu64 " pc %04" PRIX64, name, w->answer, w->found, w->after, w->pc);
    printf(" before %02" PRIX64 " left %02" PRIX64 "\n", w->before, w->left);
}

static void print_part_difference(const char *name, const struct part *a, const struct part *b)
{
    int shown = 0;
    for (size_t i = 0; i < a->len && shown < 32; i++)
        if (part_bytes(a)[i] != part_bytes(b)[i]) {
            printf("# %s %04zX: %02X, %02X\n", name, i, part_bytes(a)[i], part_bytes(b)[i]);
            shown++;
        }
}

static void print_journal_difference(const struct side *a, const struct side *b)
{
    int shown = 0;
    for (size_t i = 0; i < a->journal.len / sizeof(uint32_t) && shown < 32; i++)
        if (journal_words(a)[i] != journal_words(b)[i]) {
            printf("# journal %zu: %08" PRIX32 ", %08" PRIX32 "\n", i, journal_words(a)[i], journal_words(b)[i]);
            shown++;
        }
}

static void print_guards(const struct side *s)
{
    if (!guarded(s))
        printf("# %s wrote beside a lent part:%s%s%s%s%s%s%s\n", s->machine->name,
               part_guarded(&s->image) ? "" : " image", part_guarded(&s->pad) ? "" : " pad",
               part_guarded(&s->vdp) ? "" : " vdp", part_guarded(&s->reg) ? "" : " reg",
               part_guarded(&s->journal) ? "" : " journal", part_guarded(&s->output) ? "" : " output",
               part_guarded(&s->map) ? "" : " map");
}

/* ---- the state before a call, as lines ---- */

static void print_bytes(const char *name, int digits, const uint8_t *bytes, size_t len, size_t program_len)
{
    for (size_t row = 0; row < len; row += 32) {
        size_t end = row + 32 < len ? row + 32 : len;
        bool blank = true;
        for (size_t i = row; i < end; i++)
            blank = blank && bytes[i] == 0;
        if (blank)
            continue;
        printf("%s%s\t%0*zX\t", row < program_len ? "" : "# ", name, digits, row);
        for (size_t i = row; i < end; i++)
            printf("%02X", bytes[i]);
        putchar('\n');
    }
}

/* A long journal is shown about its used count only, which is its top unless it is a ring. */
static void print_journal(const struct side *s, size_t used, size_t place)
{
    size_t len = s->journal.len / sizeof(uint32_t);
    size_t from = len > 8192 && used > 256 ? used - 256 : 0;
    size_t to = len > 8192 && used + 256 < len ? used + 256 : len;

    printf("# journal length %zu\n# used %zu\n# place %zu\n", len, used, place);
    for (size_t row = from; row < to; row += 8) {
        printf("# journal %zu", row);
        for (size_t i = row; i < row + 8 && i < to; i++)
            printf(" %08" PRIX32, journal_words(s)[i]);
        putchar('\n');
    }
}

static void print_call(const struct call *call)
{
    printf("# call %s n %" PRIu32 " memory %d at %zu len %zu\n", kind_name[call->kind], call->n, call->memory,
           call->at, call->len);
    printf("# lent image %zu pad %zu vdp %zu reg %zu journal %zu, ring %u, writable groups %02X\n", call->image_len,
           call->pad_len, call->vdp_len, call->reg_len, call->journal_len, call->ring, call->writable);
    if (call->kind == CALL_TICK)
        printf("# output %zu\n", call->output_len);
    if (call->kind == CALL_MAPPED)
        printf("# map %zu, %s\n", call->map_len, call->map_seed ? "with bytes in it" : "of zeros");
    if (call->used_beyond)
        printf("# used lent as the journal's length plus %zu\n", call->used_beyond);
    if (call->place_past)
        printf("# place lent as the journal's length plus %zu\n", call->place_by);
}

/* Makes the calls before the failing one again, with one machine alone. */
static struct at replay(struct side *s, const struct test_case *c, int failing)
{
    struct at at = {c->pc, c->used, c->place, c->source};

    side_start(s, c);
    for (int i = 0; i <= failing; i++) {
        const struct call *call = &c->call[i];
        edit_numbers(call, &at);
        edit_side(s, call, &at);
        if (i == failing)
            break;
        struct outcome out = make_call(s, call, &at);
        hand_on(call, &out.report, &at);
    }
    return at;
}

static struct outcome replay_run(struct side *s, const struct test_case *c, int failing, uint32_t n)
{
    struct call call = c->call[failing];
    struct at at = replay(s, c, failing);

    call.n = n;
    return make_call(s, &call, &at);
}

/* The step of a run after which the sides first differ. */
static void print_first_step(struct side *a, struct side *b, const struct test_case *c, int failing)
{
    for (uint32_t n = 1; n <= c->call[failing].n && n <= 5000; n++) {
        struct outcome x = replay_run(a, c, failing, n);
        struct outcome y = replay_run(b, c, failing, n);
        if (same_report(&x.report, &y.report) && same_sides(a, b))
            continue;
        x = replay_run(a, c, failing, n - 1);
        printf("# a run of %" PRIu32 " differs first: pc %04X, code", n, x.report.pc);
        for (unsigned i = 0; i < 16; i++)
            printf(" %02X", part_bytes(&a->image)[(x.report.pc & 0xE000) | ((x.report.pc + i) & 0x1FFF)]);
        printf("\n# pad then");
        for (unsigned i = 0; i < CASE_PAD_LEN; i++)
            printf("%s%02X", i % 32 == 0 ? "\n# " : " ", part_bytes(&a->pad)[i]);
        putchar('\n');
        return;
    }
}

static void print_state_before(struct side *a, const struct test_case *c, int failing)
{
    struct at at = replay(a, c, failing);

    print_call(&c->call[failing]);
    if (c->call[failing].kind == CALL_WHO) {
        struct cell cell = lent_cell(a, &c->call[failing], &at);
        printf("# cell asked for: memory %u at %04X\n", cell.memory, cell.at);
    }
    printf("# image length %zu, the program's is 32768, its journal is plain, and it has no writable group\n",
           c->image_len);
    printf("# source flag lent as %u\n", lent_source(&c->call[failing], at.source));
    print_journal(a, at.used, at.place);
    print_bytes("grom", 4, part_bytes(&a->image), c->image_len, 32768);
    print_bytes("pad", 2, part_bytes(&a->pad), a->pad.len, a->pad.len);
    print_bytes("vdp", 4, part_bytes(&a->vdp), a->vdp.len, a->vdp.len);
    print_bytes("reg", 2, part_bytes(&a->reg), a->reg.len, a->reg.len);
    printf("pc\t%04X\n", at.pc);
    printf("run\t%" PRIu32 "\n", is_run(&c->call[failing]) ? c->call[failing].n : 1);
}

static void print_difference(const struct maker *m, uint64_t number, struct side *a, struct side *b,
                             const struct test_case *c, int failing, const struct outcome *x,
                             const struct outcome *y)
{
    printf("# DIFFERENCE: seed %" PRIu64 " case %" PRIu64 " call %d (%s)\n", m->seed, number, failing,
           kind_name[c->call[failing].kind]);
    print_outcome(a->machine, x);
    print_outcome(b->machine, y);
    if (c->call[failing].kind == CALL_WHO) {
        print_wrote(a->machine->name, &x->wrote);
        print_wrote(b->machine->name, &y->wrote);
    }
    print_part_difference("image", &a->image, &b->image);
    print_part_difference("pad", &a->pad, &b->pad);
    print_part_difference("vdp", &a->vdp, &b->vdp);
    print_part_difference("reg", &a->reg, &b->reg);
    print_part_difference("output", &a->output, &b->output);
    print_part_difference("map", &a->map, &b->map);
    print_journal_difference(a, b);
    print_guards(a);
    print_guards(b);
    if (is_run(&c->call[failing]))
        print_first_step(a, b, c, failing);
    print_state_before(a, c, failing);
}

/* ---- who wrote a cell, by walking back ---- */

static void side_copy(struct side *to, const struct side *from)
{
    part_fill(&to->image, part_bytes(&from->image), from->image.len);
    part_fill(&to->pad, part_bytes(&from->pad), from->pad.len);
    part_fill(&to->vdp, part_bytes(&from->vdp), from->vdp.len);
    part_fill(&to->reg, part_bytes(&from->reg), from->reg.len);
    part_fill(&to->journal, part_bytes(&from->journal), from->journal.len);
}

/* The byte that stands in a cell; 0 where there is none. */
static uint8_t byte_in(const struct side *s, struct cell cell)
{
    const struct part *const memory[] = {&s->pad, &s->vdp, &s->reg, NULL, &s->image};

    if (cell.memory > 4 || cell.memory == 3 || cell.at >= memory[cell.memory]->len)
        return 0;
    return part_bytes(memory[cell.memory])[cell.at];
}

/* How many of the kept words from one on and below another are stores to a cell. */
static uint64_t stores_to(const struct side *s, const struct call *call, size_t place, size_t from, size_t to,
                          struct cell cell)
{
    uint64_t count = 0;

    for (size_t i = from; i < to; i++) {
        uint32_t word = *kept_word(s, call, place, i);
        count += word >> 29 != 3 && word >> 29 == cell.memory && (word >> 8 & 0x1FFFFF) == cell.at;
    }
    return count;
}

/* What is found by stepping back to the oldest kept step, one at a time, on copies. */
struct walk {
    peer_wrote wrote;
    uint64_t stores; /* that the named step made to the cell */
    uint64_t steps;
};

static struct walk walk_back(struct side *w, const struct side *s, const struct call *call, const struct at *at)
{
    struct cell cell = lent_cell(s, call, at);
    size_t used = lent_used(call, at->used), place = lent_place(call, at->place);
    struct walk walk = {{0, 0, 0, 0, 0, 0}, 0, 0};

    side_copy(w, s);
    for (;; walk.steps++) {
        uint8_t stood = byte_in(w, cell);
        peer_report r = peer_step_back(part_bytes(&w->image), call->image_len, part_bytes(&w->pad), call->pad_len,
                                       part_bytes(&w->vdp), call->vdp_len, part_bytes(&w->reg), call->reg_len,
                                       journal_words(w), call->journal_len, 0, used, call->ring, place,
                                       call->writable, 0);
        if (r.answer == 12 && used == 0) /* past the oldest step */
            return walk;
        if (r.answer != 0) /* none is named, whatever was found above the word at fault */
            return (struct walk){{r.answer, 0, 0, 0, 0, 0}, 0, walk.steps};
        if (!walk.wrote.found && (walk.stores = stores_to(s, call, place, r.used, used, cell)) > 0)
            walk.wrote = (peer_wrote){0, 1, walk.steps, r.pc, byte_in(w, cell), stood};
        used = r.used;
    }
}

static void count_who(struct counts *n, const struct side *s, const struct call *call, const struct at *at,
                      const struct walk *walk, uint64_t dropped)
{
    const peer_wrote *w = &walk->wrote;

    n->who_answers[w->answer]++;
    n->walked += walk->steps;
    if (w->answer != 0)
        return;
    if (!w->found) {
        n->none_kept++;
        n->none_empty += at->used == 0;
        n->none_round += call->ring && dropped != 0 && at->used != 0;
        return;
    }
    n->named++;
    n->named_in[lent_cell(s, call, at).memory]++;
    n->named_older += w->after != 0;
    n->named_round += call->ring && dropped != 0;
    n->named_equal += w->before == w->left;
    n->named_again += walk->stores > 1;
}

/* The reason given must be the one that walking back shows. */
static bool check_who(struct counts *n, struct side *w, const struct side *s, const struct call *call,
                      const struct at *at, const struct outcome *o, uint64_t dropped)
{
    struct walk walk = walk_back(w, s, call, at);

    if (!same_wrote(&walk.wrote, &o->wrote)) {
        print_wrote("walking back", &walk.wrote);
        return false;
    }
    count_who(n, s, call, at, &walk, dropped);
    return true;
}

/* ---- unread bytes changed, nothing moves ---- */

static bool is_read(const struct side *s, size_t at)
{
    return at < s->map.len && part_bytes(&s->map)[at] != 0;
}

/* Some of the bytes that a mapped run didn't read are changed, or all; s has its map.  How many. */
static uint64_t wear(uint8_t *image, size_t len, const struct side *s, const struct call *call)
{
    uint64_t state = call->worn_seed, count = 0;

    for (size_t i = 0; i < len; i++) {
        uint8_t by = some_byte(&state);
        if (is_read(s, i) || some_byte(&state) >= call->worn_share)
            continue;
        image[i] ^= by | 1;
        count++;
    }
    return count;
}

/* A run over a worn image beside the mapped one. */
struct worn {
    const struct side *before; /* the mapped run */
    const struct side *after;  /* it, with its map */
    const uint8_t *image;      /* the worn one */
    const struct side *again;  /* after the run over it */
};

/* The same at every address that was stored to, its own first byte elsewhere; where steps were dropped, and their
   words with them, one or the other. */
static bool same_images(const struct worn *w, const struct call *call, const peer_report *r)
{
    static bool stored[CASE_IMAGE_MAX];
    const uint8_t *before = part_bytes(&w->before->image), *after = part_bytes(&w->after->image);
    const uint8_t *again = part_bytes(&w->again->image);
    uint64_t own = r->steps + r->stores;
    bool lost = own > r->used;

    memset(stored, 0, sizeof stored);
    for (size_t i = lost ? 0 : r->used - (size_t)own; i < r->used; i++) {
        uint32_t word = *kept_word(w->after, call, r->place, i);
        if (word >> 29 == 4)
            stored[word >> 8 & 0xFFFF] = true;
    }
    for (size_t at = 0; at < w->after->image.len; at++) {
        bool same = after[at] == again[at];
        bool own_bytes = after[at] == before[at] && again[at] == w->image[at];
        if (stored[at] ? !same : !own_bytes && !(lost && same)) {
            printf("# image %04zX: %02X became %02X, worn %02X became %02X\n", at, before[at], after[at], w->image[at], again[at]);
            return false;
        }
    }
    return true;
}

/* The same, but for the old byte of an unread cell in GROM, which is the image's first byte there. */
static bool same_word(const struct worn *w, uint32_t word, uint32_t other)
{
    size_t at = word >> 8 & 0x1FFFFF;

    if (word == other)
        return true;
    return word >> 8 == other >> 8 && word >> 29 == 4 && at < w->after->image.len && !is_read(w->after, at) &&
           (uint8_t)word == part_bytes(&w->before->image)[at] && (uint8_t)other == w->image[at];
}

static bool same_journals(struct counts *n, const struct worn *w)
{
    const uint32_t *words = journal_words(w->after), *others = journal_words(w->again);

    for (size_t i = 0; i < w->after->journal.len / sizeof(uint32_t); i++) {
        if (!same_word(w, words[i], others[i])) {
            printf("# journal %zu: %08" PRIX32 ", %08" PRIX32 "\n", i, words[i], others[i]);
            return false;
        }
        n->worn_words += words[i] != others[i];
    }
    return true;
}

/* Run again by a machine, on copies, over the worn image. */
static bool runs_alike(struct counts *n, struct side *copy, struct worn *w, const struct machine *machine,
                       const struct call *call, const struct at *at, const peer_report *r)
{
    struct call run = *call;

    run.kind = CALL_RUN;
    copy->machine = machine;
    side_copy(copy, w->before);
    part_fill(&copy->image, w->image, w->before->image.len);
    struct outcome o = make_call(copy, &run, at);
    w->again = copy;
    if (same_report(&o.report, r) && same_part(&w->after->pad, &copy->pad) && same_part(&w->after->vdp, &copy->vdp) &&
        same_part(&w->after->reg, &copy->reg) && same_images(w, call, r) && same_journals(n, w) && guarded(copy))
        return true;
    printf("# with unread bytes changed the run is another:\n");
    print_outcome(machine, &o);
    print_part_difference("pad", &w->after->pad, &copy->pad);
    print_part_difference("vdp", &w->after->vdp, &copy->vdp);
    print_part_difference("reg", &w->after->reg, &copy->reg);
    print_guards(copy);
    return false;
}

/* 02, item 13, of both machines, after a mapped run that began with a map of zeros. */
static bool check_worn(struct counts *n, struct side *copy, const struct side *before, const struct side *a,
                       const struct side *b, const struct call *call, const struct at *at, const peer_report *r)
{
    static uint8_t image[CASE_IMAGE_MAX];
    struct worn w = {before, a, image, NULL};

    if (call->map_seed != 0 || r->answer == 11)
        return true;
    memcpy(image, part_bytes(&before->image), before->image.len);
    n->worn += wear(image, before->image.len, a, call);
    n->worn_runs += 1;
    return runs_alike(n, copy, &w, a->machine, call, at, r) && runs_alike(n, copy, &w, b->machine, call, at, r);
}

/* ---- counting ---- */

static bool is_refusal_of_step(uint8_t answer)
{
    return answer != 0 && answer != 11;
}

/* A GROM word and its cell change bytes: from the top down this gives the image as it was, from there up again as it is. */
static void swap_byte(uint8_t *image, uint32_t *word)
{
    uint8_t *cell = image + (*word >> 8 & 0xFFFF);
    uint8_t byte = *cell;
    *cell = (uint8_t)*word;
    *word = (*word & ~0xFFu) | byte;
}

/* The marks of a step or run name the opcodes that were done, as the image then was. Those of dropped steps are gone. */
static void count_words(struct counts *n, const struct side *s, const struct test_case *c, const struct call *call,
                        const peer_report *r)
{
    uint8_t *image = part_bytes(&s->image);
    uint64_t own = r->steps + r->stores;
    size_t from = own < r->used ? r->used - (size_t)own : 0;

    for (size_t i = r->used; i > from; i--) {
        uint32_t *word = kept_word(s, call, r->place, i - 1);
        if (*word >> 29 == 3) {
            uint16_t pc = (uint16_t)*word;
            n->opcode[image[pc]]++;
            n->rewritten += image[pc] != c->image[pc];
        } else if (*word >> 29 == 4) { /* never the first, which is a mark */
            n->grom_stores++;
            n->grom_wraps += *word >> 8 == 0x800000 && *kept_word(s, call, r->place, i - 2) >> 8 == 0x80FFFF;
            swap_byte(image, word);
        }
    }
    for (size_t i = from; i < r->used; i++)
        if (*kept_word(s, call, r->place, i) >> 29 == 4)
            swap_byte(image, kept_word(s, call, r->place, i));
}

/* Words dropped by a call in a ring: those that it found and took, less those that are left. */
static void count_ring(struct counts *n, const struct call *call, const peer_report *r, size_t used, uint64_t *dropped)
{
    n->ring_calls++;
    n->ring_answers[r->answer]++;
    if (r->answer == 11)
        return;
    if (call->kind == CALL_BACK) {
        n->backs_round += *dropped != 0 && r->answer == 0;
        n->past_oldest += *dropped != 0 && used == 0;
        return;
    }
    uint64_t gone = used + r->steps + r->stores - r->used;
    if (gone == 0)
        return;
    if (r->steps == 0) { /* so the refused step alone dropped them */
        n->lost++;
        n->no_room_lost += r->answer == 10;
    }
    n->dropping_calls++;
    n->dropping_cases += *dropped == 0;
    n->dropped += gone;
    n->rounds += (*dropped + gone) / call->journal_len - *dropped / call->journal_len;
    n->round_cases += *dropped < call->journal_len && *dropped + gone >= call->journal_len;
    *dropped += gone;
}

/* The opcode at which a call was refused. */
static bool refused_at_move_to_grom(const struct side *s, const struct call *call, const struct outcome *o)
{
    if (!is_refusal_of_step(o->report.answer) || o->report.pc >= call->image_len)
        return false;
    uint8_t op = part_bytes(&s->image)[o->report.pc];
    return op >= 0x20 && op <= 0x25;
}

/* What a block that was due did: bytes and a count, or a new address. */
static void count_block(struct counts *n, const struct side *s, const struct outcome *o, uint8_t source)
{
    const uint8_t *list = part_bytes(&s->pad) + 0xCC;

    if (o->sent == 0) {
        *(o->report.source == source ? &n->leaps : &n->turns) += 1;
        return;
    }
    n->blocks[source]++;
    n->ends += list[2] == 0;
    n->list_wraps += (size_t)(list[0] << 8 | list[1]) < o->sent + 2;
}

/* By its stores: none, one, or those of a block. */
static void count_tick(struct counts *n, const struct side *s, const struct call *call, const struct outcome *o,
                       uint8_t source)
{
    n->tick_answers[o->report.answer]++;
    n->wiped += o->report.answer == 26 && call->output_len != 0;
    if (o->report.answer != 0)
        return;
    n->no_list += o->report.stores == 0;
    n->counted += o->report.stores == 1;
    if (o->report.stores > 1)
        count_block(n, s, o, source);
    n->bytes += o->sent;
    n->filled += o->sent != 0 && o->sent == call->output_len;
}

/* Of a map of zeros: what was read, and of that what a refused step read, if that was the first. */
static void count_mapped(struct counts *n, const struct side *s, const struct call *call, const struct outcome *o)
{
    uint64_t read = 0;

    n->mapped_answers[o->report.answer]++;
    n->odd_maps += call->map_len != call->image_len;
    n->full_maps += call->map_seed != 0;
    if (call->map_seed != 0)
        return;
    for (size_t i = 0; i < s->map.len; i++)
        read += is_read(s, i);
    n->read += read;
    if (is_refusal_of_step(o->report.answer) && o->report.steps == 0) {
        n->refused_first++;
        n->refused_read += read;
    }
}

/* at: as it was lent.  dropped: how many words this case's calls dropped before */
static void count_call(struct counts *n, const struct side *s, const struct test_case *c,
                       const struct call *call, const struct outcome *o, const struct at *at, uint64_t *dropped)
{
    n->calls++;
    n->calls_of_kind[call->kind]++;
    if (call->kind == CALL_WHO)
        return; /* counted where it is checked */
    if (call->kind == CALL_VIEW) {
        *(o->shown == 0 ? &n->empty_views : &n->shown_views) += 1;
        return;
    }
    n->answers[o->report.answer]++;
    if (call->ring)
        count_ring(n, call, &o->report, at->used, dropped);
    if (call->kind == CALL_TICK)
        count_tick(n, s, call, o, at->source);
    if (call->kind == CALL_MAPPED)
        count_mapped(n, s, call, o);
    if (call->kind == CALL_BACK)
        n->flags_back += o->report.source != at->source;
    if (call->kind == CALL_TICK || call->kind == CALL_BACK)
        return;
    if (call->kind == CALL_STEP)
        n->step_answers[o->report.answer]++;
    n->accepted += o->report.steps;
    n->tries += o->report.steps + (is_refusal_of_step(o->report.answer) ? 1 : 0);
    if (refused_at_move_to_grom(s, call, o))
        n->grom_refusals[o->report.answer]++;
    if (o->report.answer != 11)
        count_words(n, s, c, call, &o->report);
}

static bool opcode_is_done(int op)
{
    if (op <= 0x0D)
        return op != 0x03 && op != 0x0B;
    if (op >= 0x30 && op <= 0x3F)
        return (op & 6) != 6;
    return (op >= 0x20 && op <= 0x25) || (op >= 0x40 && op <= 0x97) || (op >= 0xA0 && op <= 0xEB && (op & 0xFE) != 0xC2) || op == 0xED ||
           (op >= 0xF4 && op <= 0xF7);
}

static void print_ring_counts(const struct counts *n)
{
    printf("\nrings: %" PRIu64 " calls, answers", n->ring_calls);
    for (int i = 0; i < 256; i++)
        if (n->ring_answers[i])
            printf(" %d:%" PRIu64, i, n->ring_answers[i]);
    printf("\nrings: %" PRIu64 " words dropped in %" PRIu64 " calls of %" PRIu64 " cases; %" PRIu64
           " cases went round, %" PRIu64 " times in all\n",
           n->dropped, n->dropping_calls, n->dropping_cases, n->round_cases, n->rounds);
    printf("rings: %" PRIu64 " calls lost steps by a first step that was refused, %" PRIu64
           " of them with 10; after some were dropped, %" PRIu64 " steps taken back, %" PRIu64 " step-backs past the oldest",
           n->lost, n->no_room_lost, n->backs_round, n->past_oldest);
}

static void print_who_counts(const struct counts *n)
{
    printf("\nwho wrote a cell: %" PRIu64 " asked, answers", n->calls_of_kind[CALL_WHO]);
    for (int i = 0; i < 256; i++)
        if (n->who_answers[i])
            printf(" %d:%" PRIu64, i, n->who_answers[i]);
    printf("; checked by %" PRIu64 " steps back\n", n->walked);
    printf("who wrote a cell: %" PRIu64 " named (CPU %" PRIu64 ", VDP %" PRIu64 ", register %" PRIu64 ", GROM %" PRIu64
           "), %" PRIu64 " of them not the newest step, %" PRIu64 " in a ring after some were dropped, %" PRIu64
           " with an equal byte, %" PRIu64 " with more than one store there\n",
           n->named, n->named_in[0], n->named_in[1], n->named_in[2], n->named_in[4], n->named_older, n->named_round,
           n->named_equal, n->named_again);
    printf("who wrote a cell: %" PRIu64 " times none kept, %" PRIu64 " in an empty journal, %" PRIu64
           " in a ring after some were dropped",
           n->none_kept, n->none_empty, n->none_round);
}

static void print_tick_counts(const struct counts *n)
{
    printf("\nticks: %" PRIu64 ", answers", n->calls_of_kind[CALL_TICK]);
    for (int i = 0; i < 256; i++)
        if (n->tick_answers[i])
            printf(" %d:%" PRIu64, i, n->tick_answers[i]);
    printf("; %" PRIu64 " with no list, %" PRIu64 " that counted down, %" PRIu64 " blocks in GROM, %" PRIu64
           " in VDP RAM, %" PRIu64 " new addresses, %" PRIu64 " changes of source, %" PRIu64 " ends\n",
           n->no_list, n->counted, n->blocks[0], n->blocks[1], n->leaps, n->turns, n->ends);
    printf("ticks: %" PRIu64 " bytes sent, %" PRIu64 " blocks past >FFFF, %" PRIu64 " outputs filled to the last byte, %" PRIu64
           " refused with bytes written; %" PRIu64 " step-backs turned the source flag",
           n->bytes, n->list_wraps, n->filled, n->wiped, n->flags_back);
}

static void print_map_counts(const struct counts *n)
{
    printf("\nmapped runs: %" PRIu64 ", answers", n->calls_of_kind[CALL_MAPPED]);
    for (int i = 0; i < 256; i++)
        if (n->mapped_answers[i])
            printf(" %d:%" PRIu64, i, n->mapped_answers[i]);
    printf("; %" PRIu64 " maps of another length, %" PRIu64 " with bytes in them\n", n->odd_maps, n->full_maps);
    printf("mapped runs: %" PRIu64 " bytes read, %" PRIu64 " of them by %" PRIu64 " first steps that were refused; %" PRIu64
           " run again by both with %" PRIu64 " unread bytes changed, %" PRIu64 " journal words then had another old byte",
           n->read, n->refused_read, n->refused_first, n->worn_runs, n->worn, n->worn_words);
}

static void print_counts(const struct counts *n)
{
    int never = 0, wrong = 0;
    printf("cases %" PRIu64 ", calls %" PRIu64 " (step %" PRIu64 ", run %" PRIu64 ", mapped run %" PRIu64 ", tick %" PRIu64 ", step-back %" PRIu64
           ", view %" PRIu64 ": %" PRIu64 " shown, %" PRIu64 " empty, who wrote a cell %" PRIu64 ")\n",
           n->cases, n->calls, n->calls_of_kind[CALL_STEP], n->calls_of_kind[CALL_RUN], n->calls_of_kind[CALL_MAPPED], n->calls_of_kind[CALL_TICK],
           n->calls_of_kind[CALL_BACK], n->calls_of_kind[CALL_VIEW], n->shown_views, n->empty_views,
           n->calls_of_kind[CALL_WHO]);
    printf("steps tried %" PRIu64 ", accepted %" PRIu64 " (%.1f%%); single steps accepted %.1f%%\n", n->tries,
           n->accepted, n->tries ? 100.0 * (double)n->accepted / (double)n->tries : 0,
           n->calls_of_kind[CALL_STEP] ? 100.0 * (double)n->step_answers[0] / (double)n->calls_of_kind[CALL_STEP] : 0);
    printf("answers:");
    for (int i = 0; i < 256; i++)
        if ((i <= 13 && i != 9) || n->answers[i])
            printf(" %d:%" PRIu64, i, n->answers[i]);
    printf("\naccepted steps by opcode:");
    for (int i = 0; i < 256; i++) {
        if (opcode_is_done(i))
            printf(" %02X:%" PRIu64, i, n->opcode[i]);
        never += opcode_is_done(i) && n->opcode[i] == 0;
        wrong += !opcode_is_done(i) && n->opcode[i] != 0;
    }
    printf("\nMOVEs into GROM: %" PRIu64 " bytes, %" PRIu64 " times past >FFFF, %" PRIu64
           " steps at a rewritten opcode; refused",
           n->grom_stores, n->grom_wraps, n->rewritten);
    for (int i = 0; i < 256; i++)
        if (n->grom_refusals[i])
            printf(" %d:%" PRIu64, i, n->grom_refusals[i]);
    print_ring_counts(n);
    print_who_counts(n);
    print_tick_counts(n);
    print_map_counts(n);
    printf("\nopcodes never accepted: %d\nopcodes accepted that must not be: %d\n", never, wrong);
}

/* ---- the comparison ---- */

/* w: a side to walk back on, and to run again on; before: one for what a mapped run is lent */
static bool compare_case(const struct maker *m, uint64_t number, struct side *a, struct side *b, struct side *w,
                         struct side *before, const struct test_case *c, struct counts *n)
{
    struct at at = {c->pc, c->used, c->place, c->source};
    uint64_t dropped = 0;

    side_start(a, c);
    side_start(b, c);
    for (int i = 0; i < c->call_count; i++) {
        const struct call *call = &c->call[i];
        edit_numbers(call, &at);
        edit_side(a, call, &at);
        edit_side(b, call, &at);
        if (call->kind == CALL_MAPPED)
            side_copy(before, a);
        struct outcome x = make_call(a, call, &at);
        struct outcome y = make_call(b, call, &at);
        if (!same_outcome(&x, &y) || !same_sides(a, b) || !guarded(a) || !guarded(b) ||
            (call->kind == CALL_WHO && !check_who(n, w, a, call, &at, &x, dropped)) ||
            (call->kind == CALL_MAPPED && !check_worn(n, w, before, a, b, call, &at, &x.report))) {
            print_difference(m, number, a, b, c, i, &x, &y);
            return false;
        }
        count_call(n, a, c, call, &x, &at, &dropped);
        hand_on(call, &x.report, &at);
    }
    n->cases++;
    return true;
}

int main(int argc, char **argv)
{
    static struct maker maker;
    static struct test_case c;
    static struct counts counts;
    struct side a, b, walker, before;
    uint64_t cases = argc > 1 ? strtoull(argv[1], NULL, 0) : 100000;
    uint64_t seed = argc > 2 ? strtoull(argv[2], NULL, 0) : 1;
    uint64_t first = argc > 3 ? strtoull(argv[3], NULL, 0) : 0;

    side_make(&a, &peer_machine);
    side_make(&b, &other_machine);
    side_make(&walker, &peer_machine);
    side_make(&before, &peer_machine);
    maker_start(&maker, seed);
    bool same = true;
    for (uint64_t i = first; same && i - first < cases; i++) {
        maker_make(&maker, i, &c);
        same = compare_case(&maker, i, &a, &b, &walker, &before, &c, &counts);
    }
    if (same)
        print_counts(&counts);
    side_free(&a);
    side_free(&b);
    side_free(&walker);
    side_free(&before);
    return same ? 0 : 1;
}
