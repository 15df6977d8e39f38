/* Times the proved archive and peer.c on the same work:  speed [part of a name] [repeats]
   The repeats, if given, are fixed (for counting instructions); else each side works for about 0.3 s a round. */
#include <inttypes.h>
#include <stdbool.h>
#include <stdio.h>
#include <stdlib.h>
#include <string.h>
#include <time.h>

#include "argolythe.h"
#include "peer.h"

enum {
    IMAGE_LEN = 32768,
    PAD_LEN = ARGOLYTHE_PAD,
    VDP_LEN = ARGOLYTHE_VDP,
    REG_LEN = ARGOLYTHE_REG,
    JOURNAL_LEN = ARGOLYTHE_JOURNAL_MAX,
    RING_LEN = 4096, /* words: a run in a ring drops steps nearly all the time */
    WRITABLE = 0x02, /* the group at >2000, which has no code */
    OUTPUT_LEN = 8,  /* of a tick: more than a block has here */
    ROUNDS = 3,
    SLICES = 8 /* the two take turns so often in a round */
};

#define SLICE_NS (300e6 / SLICES)

/* What is timed of a repeat: one run of n steps; one with its map; one in a ring; n single steps; one run that is refused
   and put back; n step-backs; n ticks of the sound list at GROM 0. */
enum kind { RUN, MAPPED, RING, STEPS, REFUSED, BACKS, TICKS };

struct work {
    const char *name;
    enum kind kind;
    uint32_t n;
    uint32_t stores_each; /* of REFUSED: those put back, which no report counts */
    const char *code;     /* at GROM 0, in hex; of TICKS: the list */
};

/* The pad has index words 2 and >100 at >10 and >12, VDP addresses at >20 and >22, pad offsets at >30 and >31; see prepare. */
static const struct work works[] = {
    /* INC 40; BR 0; DINC 42; BR 0; B 0 */
    {"counter loop", RUN, 100000, 0, "9040" "4000" "9142" "4000" "050000"},
    /* ADD, DSUB, AND, DXOR, OR, SLL, DSRA, ST, CH, CEQ, INC, DINC, DEX; B 0 */
    {"arithmetic, pad cells", RUN, 100000, 0,
     "A04041" "A54244" "B2407F" "BB441234" "B64101" "E24603" "DD4A4C" "BC4641" "C44041" "D44046" "9041" "9144"
     "C14E50" "050000"},
    /* the same and MUL, DIV, over VDP RAM, indexed and indirect operands */
    {"arithmetic, mixed", RUN, 100000, 0,
     "A0C0401041" "A1A10044" "A5B020A102" "B290307F" "B9E1001244" "A85041" "A952A100" "AE50C8" "AF52FFF0" "DE4101"
     "E3AF10000003" "E6B02202" "EB440005" "C441A100" "CD44B020" "D64155" "D94444" "8FA100" "83F01E10" "929031"
     "050000"},
    {"the same, with a map", MAPPED, 100000, 0,
     "A0C0401041" "A1A10044" "A5B020A102" "B290307F" "B9E1001244" "A85041" "A952A100" "AE50C8" "AF52FFF0" "DE4101"
     "E3AF10000003" "E6B02202" "EB440005" "C441A100" "CD44B020" "D64155" "D94444" "8FA100" "83F01E10" "929031"
     "050000"},
    {"the same, single steps", STEPS, 50000, 0,
     "A0C0401041" "A1A10044" "A5B020A102" "B290307F" "B9E1001244" "A85041" "A952A100" "AE50C8" "AF52FFF0" "DE4101"
     "E3AF10000003" "E6B02202" "EB440005" "C441A100" "CD44B020" "D64155" "D94444" "8FA100" "83F01E10" "929031"
     "050000"},
    /* CALL 10; CALL 20; B 0 .. 10: PUSH, PUSH, CALL 30, pop, pop, RTN .. 20: PUSH, pop, RTNC .. 30: INC, RTN */
    {"subroutines and stacks", RUN, 100000, 0,
     "060010" "060020" "050000" "00000000000000"
     "8C40" "8C41" "060030" "BC42907C" "BC43907C" "00"
     "8C43" "BC44907C" "01" "000000000000000000"
     "9041" "00"},
    /* eight times, so that the branch back counts little */
    {"MOVE 1, GROM to VDP", RUN, 100000, 0,
     "310001A1000400" "310001A1010401" "310001A1020402" "310001A1030403"
     "310001A1040404" "310001A1050405" "310001A1060406" "310001A1070407" "050000"},
    {"MOVE 1, VDP to VDP", RUN, 100000, 0,
     "350001A100A200" "350001A101A201" "350001A102A202" "350001A103A203"
     "350001A104A204" "350001A105A205" "350001A106A206" "350001A107A207" "050000"},
    {"MOVE 1, pad to VDP", RUN, 100000, 0,
     "350001A10040" "350001A10141" "350001A10242" "350001A10343"
     "350001A10444" "350001A10545" "350001A10646" "350001A10747" "050000"},
    {"MOVE 8, GROM to registers", RUN, 50000, 0, "390008000400" "050000"},
    {"MOVE 256, GROM to VDP", RUN, 6000, 0, "310100A1000400" "050000"},
    {"MOVE 256, VDP to VDP", RUN, 6000, 0, "350100A100A200" "050000"},
    {"MOVE 192, pad to VDP", RUN, 8000, 0, "3500C0A10000" "050000"},
    {"MOVE 8192, GROM to VDP", RUN, 200, 0, "312000A1000400" "050000"},
    {"MOVE 8192, VDP to VDP", RUN, 200, 0, "352000AF2000A000" "050000"},
    {"MOVE 1, GROM to GROM", RUN, 100000, 0,
     "21000121000400" "21000121010401" "21000121020402" "21000121030403"
     "21000121040404" "21000121050405" "21000121060406" "21000121070407" "050000"},
    {"MOVE 256, VDP to GROM", RUN, 6000, 0, "2501002100A200" "050000"},
    {"MOVE 7936, GROM to GROM", RUN, 200, 0, "211F0021000400" "050000"},
    /* row 0, column 0, a block of 24 lines of 32 stars */
    {"FMT, a screen by a block", RUN, 800, 0, "08FE00FF00D75F2AFB0006FB" "050000"},
    /* bias, text across and down, a skip, text from the pad, a repeat down, a block of two short texts */
    {"FMT, short texts", RUN, 20000, 0,
     "08FC20" "074142434445464748" "2331323334" "83" "E340" "632B" "C1" "01414282FB0017" "FB" "050000"},
    {"ALL", RUN, 2000, 0, "0720" "050000"},
    /* its last byte would go to VDP >4000 */
    {"refused MOVE 8192", REFUSED, 1, 8191 + 3, "312000AF20010400"},
    /* its last byte would go to GROM >4000 */
    {"refused MOVE 7937 to GROM", REFUSED, 1, 7936 + 3, "211F0121000400"},
    /* DMUL of the word at >DE, whose low half has no cell */
    {"refused DMUL", REFUSED, 1, 2, "A980DE40"},
    {"step-backs, arithmetic", BACKS, 50000, 0,
     "A0C0401041" "A1A10044" "A5B020A102" "B290307F" "B9E1001244" "A85041" "A952A100" "AE50C8" "AF52FFF0" "DE4101"
     "E3AF10000003" "E6B02202" "EB440005" "C441A100" "CD44B020" "D64155" "D94444" "8FA100" "83F01E10" "929031"
     "050000"},
    {"step-backs, MOVE 8192", BACKS, 200, 0, "312000A1000400" "050000"},
    /* as the works of these names, but for the journal */
    {"pad cells, in a ring", RING, 100000, 0,
     "A04041" "A54244" "B2407F" "BB441234" "B64101" "E24603" "DD4A4C" "BC4641" "C44041" "D44046" "9041" "9144"
     "C14E50" "050000"},
    {"ALL, in a ring", RING, 2000, 0, "0720" "050000"},
    /* two bytes and a count of 1, four bytes and a count of 1, back to 0 */
    {"ticks, a list in GROM", TICKS, 50000, 0, "02E4F201" "048C1A90B301" "000000"},
};

/* What a side is lent, and where it stands. */
struct side {
    uint8_t image[IMAGE_LEN];
    uint8_t map[IMAGE_LEN];
    uint8_t pad[PAD_LEN];
    uint8_t vdp[VDP_LEN];
    uint8_t reg[REG_LEN];
    uint32_t *journal;
    uint16_t pc;
    uint8_t source; /* of the sound list */
};

/* What a side did: `sum` is made of every number of every report, `refused` counts the answers other than 0. */
struct tally {
    uint64_t steps, stores, sum, refused;
    double ns;
};

/* ---- the same start for both ---- */

/* A digit of the code, which is in capitals. */
static unsigned digit(char c)
{
    return (unsigned)(c <= '9' ? c - '0' : c - 'A' + 10);
}

/* The image: bytes that differ, with the code at its start. */
static void make_image(uint8_t image[IMAGE_LEN], const char *code)
{
    for (unsigned i = 0; i < IMAGE_LEN; i++)
        image[i] = (uint8_t)(i * 7 + i / 256);
    for (unsigned i = 0; code[2 * i]; i++)
        image[i] = (uint8_t)(digit(code[2 * i]) * 16 + digit(code[2 * i + 1]));
}

/* A word of the pad, high byte first. */
static void set_word(struct side *s, unsigned at, unsigned word)
{
    s->pad[at] = (uint8_t)(word >> 8);
    s->pad[at + 1] = (uint8_t)word;
}

/* Memories in which every operand of the works above names a cell. */
static void prepare(struct side *s, const char *code)
{
    make_image(s->image, code);
    memset(s->map, 0, IMAGE_LEN);
    for (unsigned i = 0; i < PAD_LEN; i++)
        s->pad[i] = (uint8_t)(i * 37 + 11);
    for (unsigned i = 0; i < VDP_LEN; i++)
        s->vdp[i] = (uint8_t)(i * 13 + i / 256);
    memset(s->reg, 0, REG_LEN);
    memset(s->journal, 0, JOURNAL_LEN * sizeof(uint32_t));
    set_word(s, 0x10, 0x0002);
    set_word(s, 0x12, 0x0100);
    set_word(s, 0x20, 0x1000);
    set_word(s, 0x22, 0x1800);
    s->pad[0x30] = 0x48;
    s->pad[0x31] = 0x4A;
    s->pad[0x72] = 0x9F;
    s->pad[0x73] = 0x7E;
    set_word(s, 0x7E, 0);
    set_word(s, 0xCC, 0); /* a sound list, which is due at the first tick */
    s->pad[0xCE] = 1;
    s->pc = 0;
    s->source = 0;
}

/* ---- the work, by the one and by the other ---- */

/* CPU time, so that other programs count little. */
static double now_ns(void)
{
    struct timespec t;
    clock_gettime(CLOCK_PROCESS_CPUTIME_ID, &t);
    return (double)t.tv_sec * 1e9 + (double)t.tv_nsec;
}

/* Every number of a report goes into the sum. */
static inline void count(struct tally *t, uint64_t answer, uint64_t pc, uint64_t used, uint64_t steps, uint64_t stores,
                         uint64_t address, uint64_t place, uint64_t source)
{
    t->steps += steps;
    t->stores += stores;
    t->refused += answer != 0;
    t->sum = ((t->sum * 31 + answer) * 31 + place) * 31 + source;
    t->sum = t->sum * 31 + (address << 48 ^ pc << 32 ^ used << 20 ^ steps << 8 ^ stores);
}

/* What the archive left in `out`, likewise. */
static inline void count_out(struct tally *t, uint64_t answer, const uint64_t *out)
{
    count(t, answer, out[ARGOLYTHE_OUT_PC], out[ARGOLYTHE_OUT_USED], out[ARGOLYTHE_OUT_STEPS], out[ARGOLYTHE_OUT_STORES],
          out[ARGOLYTHE_OUT_ADDRESS], out[ARGOLYTHE_OUT_PLACE], out[ARGOLYTHE_OUT_SOURCE]);
}

/* The bytes that a tick sent, likewise. */
static inline void count_sent(struct tally *t, const uint8_t output[OUTPUT_LEN], size_t sent)
{
    t->sum = t->sum * 31 + sent;
    for (size_t i = 0; i < sent && i < OUTPUT_LEN; i++)
        t->sum = t->sum * 31 + output[i];
}

/* One run of the peer's, from an empty journal. */
static size_t peer_runs(const struct work *w, struct side *s, struct tally *t)
{
    bool ring = w->kind == RING;
    peer_report r = peer_run(s->image, IMAGE_LEN, s->pad, PAD_LEN, s->vdp, VDP_LEN, s->reg, REG_LEN, s->journal,
                             ring ? RING_LEN : JOURNAL_LEN, s->pc, 0, ring, 0, WRITABLE, s->source, w->n);
    s->pc = r.pc;
    s->source = r.source;
    count(t, r.answer, r.pc, r.used, r.steps, r.stores, r.address, r.place, r.source);
    return r.used;
}

/* One run of the archive's, likewise. */
static size_t our_runs(const struct work *w, struct side *s, struct tally *t)
{
    bool ring = w->kind == RING;
    uint64_t out[ARGOLYTHE_OUTS];
    uint8_t answer = argolythe_run(s->image, IMAGE_LEN, s->pad, PAD_LEN, s->vdp, VDP_LEN, s->reg, REG_LEN, s->journal,
                                   ring ? RING_LEN : JOURNAL_LEN, s->pc, 0, ring, 0, WRITABLE, s->source, w->n, out);
    s->pc = (uint16_t)out[ARGOLYTHE_OUT_PC];
    s->source = (uint8_t)out[ARGOLYTHE_OUT_SOURCE];
    count_out(t, answer, out);
    return (size_t)out[ARGOLYTHE_OUT_USED];
}

/* One mapped run of the peer's, likewise. */
static void peer_mapped(const struct work *w, struct side *s, struct tally *t)
{
    peer_report r = peer_run_mapped(s->image, IMAGE_LEN, s->map, IMAGE_LEN, s->pad, PAD_LEN, s->vdp, VDP_LEN,
                                    s->reg, REG_LEN, s->journal, JOURNAL_LEN, s->pc, 0, 0, 0, WRITABLE, s->source, w->n);
    s->pc = r.pc;
    s->source = r.source;
    count(t, r.answer, r.pc, r.used, r.steps, r.stores, r.address, r.place, r.source);
}

/* One of the archive's, likewise. */
static void our_mapped(const struct work *w, struct side *s, struct tally *t)
{
    uint64_t out[ARGOLYTHE_OUTS];
    uint8_t answer = argolythe_run_mapped(s->image, IMAGE_LEN, s->map, IMAGE_LEN, s->pad, PAD_LEN, s->vdp, VDP_LEN,
                                          s->reg, REG_LEN, s->journal, JOURNAL_LEN, s->pc, 0, 0, 0, WRITABLE, s->source,
                                          w->n, out);
    s->pc = (uint16_t)out[ARGOLYTHE_OUT_PC];
    s->source = (uint8_t)out[ARGOLYTHE_OUT_SOURCE];
    count_out(t, answer, out);
}

/* n calls for one step each. */
static void peer_steps(struct side *s, uint32_t n, struct tally *t)
{
    size_t used = 0;
    for (uint32_t i = 0; i < n; i++) {
        peer_report r = peer_step(s->image, IMAGE_LEN, s->pad, PAD_LEN, s->vdp, VDP_LEN, s->reg, REG_LEN, s->journal,
                                  JOURNAL_LEN, s->pc, used, 0, 0, WRITABLE, s->source);
        s->pc = r.pc;
        s->source = r.source;
        used = r.used;
        count(t, r.answer, r.pc, r.used, r.steps, r.stores, r.address, r.place, r.source);
    }
}

/* The archive's, likewise. */
static void our_steps(struct side *s, uint32_t n, struct tally *t)
{
    size_t used = 0;
    uint64_t out[ARGOLYTHE_OUTS];
    for (uint32_t i = 0; i < n; i++) {
        uint8_t answer = argolythe_step(s->image, IMAGE_LEN, s->pad, PAD_LEN, s->vdp, VDP_LEN, s->reg, REG_LEN,
                                        s->journal, JOURNAL_LEN, s->pc, used, 0, 0, WRITABLE, s->source, out);
        s->pc = (uint16_t)out[ARGOLYTHE_OUT_PC];
        s->source = (uint8_t)out[ARGOLYTHE_OUT_SOURCE];
        used = (size_t)out[ARGOLYTHE_OUT_USED];
        count_out(t, answer, out);
    }
}

/* n step-backs; the steps that they report are left out of the sum, since the two count them in their own ways. */
static void peer_backs(struct side *s, uint32_t n, size_t used, struct tally *t)
{
    for (uint32_t i = 0; i < n; i++) {
        peer_report r = peer_step_back(s->image, IMAGE_LEN, s->pad, PAD_LEN, s->vdp, VDP_LEN, s->reg, REG_LEN,
                                       s->journal, JOURNAL_LEN, s->pc, used, 0, 0, WRITABLE, s->source);
        s->pc = r.pc;
        s->source = r.source;
        used = r.used;
        count(t, r.answer, r.pc, r.used, 0, r.stores, r.address, r.place, r.source);
    }
}

/* The archive's, likewise. */
static void our_backs(struct side *s, uint32_t n, size_t used, struct tally *t)
{
    uint64_t out[ARGOLYTHE_OUTS];
    for (uint32_t i = 0; i < n; i++) {
        uint8_t answer = argolythe_step_back(s->image, IMAGE_LEN, s->pad, PAD_LEN, s->vdp, VDP_LEN, s->reg, REG_LEN,
                                             s->journal, JOURNAL_LEN, s->pc, used, 0, 0, WRITABLE, s->source, out);
        s->pc = (uint16_t)out[ARGOLYTHE_OUT_PC];
        s->source = (uint8_t)out[ARGOLYTHE_OUT_SOURCE];
        used = (size_t)out[ARGOLYTHE_OUT_USED];
        count(t, answer, out[ARGOLYTHE_OUT_PC], out[ARGOLYTHE_OUT_USED], 0, out[ARGOLYTHE_OUT_STORES],
              out[ARGOLYTHE_OUT_ADDRESS], out[ARGOLYTHE_OUT_PLACE], out[ARGOLYTHE_OUT_SOURCE]);
    }
}

/* n ticks, from an empty journal. */
static void peer_ticks(struct side *s, uint32_t n, struct tally *t)
{
    size_t used = 0, sent;
    uint8_t output[OUTPUT_LEN];
    for (uint32_t i = 0; i < n; i++) {
        peer_report r = peer_tick(s->image, IMAGE_LEN, s->pad, PAD_LEN, s->vdp, VDP_LEN, s->reg, REG_LEN, s->journal,
                                  JOURNAL_LEN, s->pc, used, 0, 0, WRITABLE, s->source, output, OUTPUT_LEN, &sent);
        s->pc = r.pc;
        s->source = r.source;
        used = r.used;
        count(t, r.answer, r.pc, r.used, r.steps, r.stores, r.address, r.place, r.source);
        count_sent(t, output, sent);
    }
}

/* The archive's, likewise. */
static void our_ticks(struct side *s, uint32_t n, struct tally *t)
{
    size_t used = 0, sent;
    uint8_t output[OUTPUT_LEN];
    uint64_t out[ARGOLYTHE_OUTS];
    for (uint32_t i = 0; i < n; i++) {
        uint8_t answer = argolythe_tick(s->image, IMAGE_LEN, s->pad, PAD_LEN, s->vdp, VDP_LEN, s->reg, REG_LEN,
                                        s->journal, JOURNAL_LEN, s->pc, used, 0, 0, WRITABLE, s->source,
                                        output, OUTPUT_LEN, &sent, out);
        s->pc = (uint16_t)out[ARGOLYTHE_OUT_PC];
        s->source = (uint8_t)out[ARGOLYTHE_OUT_SOURCE];
        used = (size_t)out[ARGOLYTHE_OUT_USED];
        count_out(t, answer, out);
        count_sent(t, output, sent);
    }
}

/* One repeat. Before step-backs the steps are made, which isn't timed. */
static void repeat(const struct work *w, struct side *s, bool ours, struct tally *t)
{
    size_t used = 0;
    if (w->kind == BACKS)
        used = ours ? our_runs(w, s, t) : peer_runs(w, s, t);
    double from = now_ns();
    switch (w->kind) {
    case RUN:
    case RING:
    case REFUSED:
        used = ours ? our_runs(w, s, t) : peer_runs(w, s, t);
        break;
    case MAPPED:
        ours ? our_mapped(w, s, t) : peer_mapped(w, s, t);
        break;
    case STEPS:
        ours ? our_steps(s, w->n, t) : peer_steps(s, w->n, t);
        break;
    case BACKS:
        ours ? our_backs(s, w->n, used, t) : peer_backs(s, w->n, used, t);
        break;
    case TICKS:
        ours ? our_ticks(s, w->n, t) : peer_ticks(s, w->n, t);
        break;
    }
    t->ns += now_ns() - from;
}

/* A slice: so many repeats of one side. A refused run is far too short for a clock of its own, so it goes by the slice. */
static void slice(const struct work *w, struct side *s, bool ours, uint64_t repeats, struct tally *t)
{
    if (w->kind != REFUSED) {
        for (uint64_t i = 0; i < repeats; i++)
            repeat(w, s, ours, t);
        return;
    }
    double from = now_ns();
    for (uint64_t i = 0; i < repeats; i++)
        ours ? our_runs(w, s, t) : peer_runs(w, s, t);
    t->ns += now_ns() - from;
    t->steps += repeats;
    t->stores += repeats * w->stores_each;
}

/* ---- one work ---- */

/* Both did the same: every report, every lent byte and journal word. */
static bool same(const struct side *a, const struct tally *x, const struct side *b, const struct tally *y)
{
    return x->steps == y->steps && x->stores == y->stores && x->sum == y->sum && a->pc == b->pc && a->source == b->source &&
           memcmp(a->image, b->image, IMAGE_LEN) == 0 && memcmp(a->map, b->map, IMAGE_LEN) == 0 &&
           memcmp(a->pad, b->pad, PAD_LEN) == 0 && memcmp(a->vdp, b->vdp, VDP_LEN) == 0 &&
           memcmp(a->reg, b->reg, REG_LEN) == 0 &&
           memcmp(a->journal, b->journal, JOURNAL_LEN * sizeof(uint32_t)) == 0;
}

/* Warms both up, with ever more repeats, until a slice is long enough. */
static uint64_t warm_up(const struct work *w, struct side *peer, struct side *ours, struct tally *x, struct tally *y)
{
    for (uint64_t repeats = 1;; repeats *= 2) {
        double before = x->ns + y->ns;
        slice(w, peer, false, repeats, x);
        slice(w, ours, true, repeats, y);
        double each = (x->ns + y->ns - before) / 2;
        if (each > SLICE_NS / 2) {
            double wanted = (double)repeats * SLICE_NS / each;
            return wanted < 1 ? 1 : (uint64_t)wanted;
        }
    }
}

/* The middle one of three. */
static double middle(const double v[ROUNDS])
{
    double low = v[0] < v[1] ? v[0] : v[1], high = v[0] < v[1] ? v[1] : v[0];
    return v[2] < low ? low : v[2] > high ? high : v[2];
}

/* What a side did since an earlier tally. */
static struct tally since(const struct tally *now, const struct tally *then)
{
    return (struct tally){now->steps - then->steps, now->stores - then->stores, 0, now->refused - then->refused,
                          now->ns - then->ns};
}

/* A line of the table. */
static void print_line(const struct work *w, const double peer[ROUNDS], const double ours[ROUNDS],
                       const double ratio[ROUNDS], double stores_a_step)
{
    double p = middle(peer), o = middle(ours);
    printf("%-26s %9.1f %9.2f %9.2f", w->name, stores_a_step, p, o);
    printf(" %8.3f %8.3f", p / stores_a_step, o / stores_a_step);
    printf("    %5.2f  (%.2f %.2f %.2f)\n", middle(ratio), ratio[0], ratio[1], ratio[2]);
    fflush(stdout);
}

/* Three rounds of a work, the two in turns; false if they did not do the same, or were refused where they must not be. */
static bool time_work(const struct work *w, struct side *peer, struct side *ours, uint64_t fixed)
{
    struct tally x = {0}, y = {0};
    double peer_ns[ROUNDS], our_ns[ROUNDS], ratio[ROUNDS], stores_a_step = 0;

    prepare(peer, w->code);
    prepare(ours, w->code);
    uint64_t repeats = fixed ? fixed : warm_up(w, peer, ours, &x, &y);
    for (int round = 0; round < ROUNDS; round++) {
        struct tally before_x = x, before_y = y;
        for (int i = 0; i < (fixed ? 1 : SLICES); i++) {
            bool ours_first = (i + round) % 2 != 0;
            slice(w, ours_first ? ours : peer, ours_first, repeats, ours_first ? &y : &x);
            slice(w, ours_first ? peer : ours, !ours_first, repeats, ours_first ? &x : &y);
        }
        struct tally p = since(&x, &before_x), o = since(&y, &before_y);
        if (p.refused != (w->kind == REFUSED ? p.steps : 0)) {
            printf("%-26s NOT AS MEANT: %" PRIu64 " answers other than 0\n", w->name, p.refused);
            return false;
        }
        peer_ns[round] = p.ns / (double)p.steps;
        our_ns[round] = o.ns / (double)o.steps;
        ratio[round] = peer_ns[round] / our_ns[round];
        stores_a_step = (double)p.stores / (double)p.steps;
    }
    if (!same(peer, &x, ours, &y)) {
        printf("%-26s DIFFERENT WORK: the two left different memories or reports\n", w->name);
        return false;
    }
    print_line(w, peer_ns, our_ns, ratio, stores_a_step);
    return true;
}

/* A side's memories, without which nothing can be timed. */
static struct side *make_side(void)
{
    struct side *s = malloc(sizeof *s);
    uint32_t *journal = malloc(JOURNAL_LEN * sizeof(uint32_t));
    if (!s || !journal) {
        fprintf(stderr, "out of memory\n");
        exit(2);
    }
    s->journal = journal;
    return s;
}

/* All works, or those asked for. */
int main(int argc, char **argv)
{
    struct side *peer = make_side(), *ours = make_side();
    uint64_t fixed = argc > 2 ? strtoull(argv[2], NULL, 0) : 0;
    bool good = true;

    printf("%-26s %9s %9s %9s %8s %8s    ratio peer/ours: the middle of three\n", "", "stores", "peer", "ours", "peer",
           "ours");
    printf("%-26s %9s %9s %9s %8s %8s    (above 1: ours is faster)\n", "", "a step", "ns/step", "ns/step", "ns/store",
           "ns/store");
    for (size_t i = 0; i < sizeof works / sizeof works[0]; i++)
        if (argc < 2 || strstr(works[i].name, argv[1]))
            good = time_work(&works[i], peer, ours, fixed) && good;
    return good ? 0 : 1;
}
