/* Runs four instructions to their end, looks at what they left, and walks back to the start; then a card
 * that writes itself, a loop that goes round a small journal, a sound list played tick by tick, the image
 * written as a dump, and a cartridge that leaves a wrong byte, with the step that wrote it, and with the
 * bytes that a run of it reads. */
#include "argolythe.h"
#include <stdio.h>
#include <string.h>

/* One machine. All of it is the host's own memory, lent to each call. */
static uint8_t image[ARGOLYTHE_GROUP] = {
    0xBE, 0x10, 0x2A,       /* 0000  ST   >2A to pad >10 */
    0x90, 0x10,             /* 0003  INC  pad >10 */
    0x94, 0x10,             /* 0005  INCT pad >10 */
    0xBE, 0xA1, 0x00, 0x41, /* 0007  ST   >41 to VDP >0100 */
    0x0B,                   /* 000B  EXIT */
    [0x20] =
    0x25, 0x00, 0x01, 0x00, 0x26, 0x11, /* 0020  MOVE 1 byte from pad >11 to GROM >0026 */
    0x92, 0x10,                         /* 0026  DEC  pad >10 */
    [0x30] =
    0x90, 0x12,             /* 0030  INC  pad >12 */
    0x05, 0x00, 0x30,       /* 0032  B    >0030 */
    [0x40] =
    0xF6, 0x14, 0x00,       /* 0040  I/O  pad word >14, 0: a sound list in GROM */
    [0x50] =
    0x02, 0xE4, 0xF2, 0x05, /* 0050  two bytes for the sound chip, then 5 ticks */
    0x01, 0xFF, 0x00,       /* 0054  one byte more, and the end */
};
/* Another cartridge, examples/overrun.md: the loop clears one byte too many. */
static const uint8_t overrun[] = {
    0xBE, 0x08, 0x03,       /* 0000  ST   3 to pad >08, the lives */
    0x87, 0x10,             /* 0003  DCLR pad word >10, the index */
    0x86, 0xC0, 0x00, 0x10, /* 0005  CLR  pad >00 plus the index: a table of 8 bytes */
    0x91, 0x10,             /* 0009  DINC pad word >10 */
    0xD7, 0x10, 0x00, 0x09, /* 000B  DCEQ 9 with pad word >10; 8 would be right */
    0x40, 0x05,             /* 000F  BR   >0005 */
    0x04, 0x06,             /* 0011  BACK 6 */
    0x0B,                   /* 0013  EXIT */
};
static uint8_t pad[ARGOLYTHE_PAD];
static uint8_t vdp[ARGOLYTHE_VDP];
static uint8_t reg[ARGOLYTHE_REG];
static uint32_t journal[64];
static size_t journal_len = 64;
static uint16_t pc;
static size_t used;
static uint8_t ring;     /* 1 for a journal that drops its oldest steps */
static size_t place;     /* of its oldest word */
static uint8_t writable; /* bit 0 for group 0, the only one here */
static uint8_t source;   /* of the sound list: 1 for VDP RAM */

static int wrong; /* how many things were not as expected */

static void expect(int holds, const char *what)
{
    if (!holds) {
        printf("  NOT AS EXPECTED: %s\n", what);
        wrong += 1;
    }
}

/* What a call leaves is where the next one starts. */
static void keep(const uint64_t *out)
{
    pc = (uint16_t)out[ARGOLYTHE_OUT_PC];
    used = (size_t)out[ARGOLYTHE_OUT_USED];
    place = (size_t)out[ARGOLYTHE_OUT_PLACE];
    source = (uint8_t)out[ARGOLYTHE_OUT_SOURCE];
}

static uint8_t run(uint32_t n, uint64_t *out)
{
    uint8_t answer = argolythe_run(image, sizeof image, pad, sizeof pad, vdp, sizeof vdp,
                                   reg, sizeof reg, journal, journal_len, pc, used, ring, place,
                                   writable, source, n, out);
    keep(out);
    return answer;
}

static uint8_t run_mapped(uint8_t *map, size_t map_len, uint32_t n, uint64_t *out)
{
    uint8_t answer = argolythe_run_mapped(image, sizeof image, map, map_len, pad, sizeof pad, vdp, sizeof vdp,
                                          reg, sizeof reg, journal, journal_len, pc, used, ring, place,
                                          writable, source, n, out);
    keep(out);
    return answer;
}

static uint8_t step(uint64_t *out)
{
    uint8_t answer = argolythe_step(image, sizeof image, pad, sizeof pad, vdp, sizeof vdp,
                                    reg, sizeof reg, journal, journal_len, pc, used, ring, place,
                                    writable, source, out);
    keep(out);
    return answer;
}

/* What the tick sends goes to output, of 8 bytes. */
static uint8_t tick(uint8_t output[8], size_t *sent)
{
    uint64_t out[ARGOLYTHE_OUTS];
    uint8_t answer = argolythe_tick(image, sizeof image, pad, sizeof pad, vdp, sizeof vdp,
                                    reg, sizeof reg, journal, journal_len, pc, used, ring, place,
                                    writable, source, output, 8, sent, out);
    keep(out);
    return answer;
}

static uint8_t step_back(uint64_t *out)
{
    uint8_t answer = argolythe_step_back(image, sizeof image, pad, sizeof pad, vdp, sizeof vdp,
                                         reg, sizeof reg, journal, journal_len, pc, used, ring, place,
                                         writable, source, out);
    keep(out);
    return answer;
}

static uint8_t who_wrote(uint8_t memory, uint16_t at, uint64_t *who)
{
    return argolythe_who_wrote(image, sizeof image, pad, sizeof pad, vdp, sizeof vdp,
                               reg, sizeof reg, journal, journal_len, used, ring, place,
                               writable, memory, at, who);
}

/* The byte at an address, or -1 where none can be seen. */
static int see(uint8_t memory, size_t at)
{
    size_t offset;
    if (argolythe_view(pad, sizeof pad, vdp, sizeof vdp, memory, at, 1, &offset) != 1) {
        return -1;
    }
    return memory == ARGOLYTHE_SEE_CPU ? pad[offset] : vdp[offset];
}

static void to_the_end(void)
{
    uint64_t out[ARGOLYTHE_OUTS];
    uint8_t answer = run(100, out);
    printf("A run of up to 100 steps from pc 0000 answers %d (1: ended, at EXIT).\n", answer);
    printf("It did %d steps, which stored %d bytes; pc is %04X, and the journal uses %d words.\n",
           (int)out[ARGOLYTHE_OUT_STEPS], (int)out[ARGOLYTHE_OUT_STORES], pc, (int)used);
    expect(answer == ARGOLYTHE_ENDED, "the answer is 1");
    expect(out[ARGOLYTHE_OUT_STEPS] == 4, "4 steps");
    expect(out[ARGOLYTHE_OUT_STORES] == 6, "6 stores: INC and INCT store the status too");
    expect(pc == 0x000B, "pc is on EXIT");
    expect(used == 10, "one word for each step and one for each store");
}

static void look(void)
{
    printf("Pad >10 holds %02X and VDP >0100 holds %02X.\n",
           (unsigned)see(ARGOLYTHE_SEE_CPU, 0x10), (unsigned)see(ARGOLYTHE_SEE_VDP, 0x100));
    expect(see(ARGOLYTHE_SEE_CPU, 0x10) == 0x2D, "pad >10 holds 2D");
    expect(see(ARGOLYTHE_SEE_VDP, 0x100) == 0x41, "VDP >0100 holds 41");
    expect(see(ARGOLYTHE_SEE_CPU, ARGOLYTHE_PAD_REACH) == -1, "pad >E0 cannot be seen");
    expect(see(2, 0) == -1, "there is no memory 2");
}

static void past_the_end(void)
{
    uint64_t out[ARGOLYTHE_OUTS];
    uint8_t answer = step(out);
    printf("A step more answers %d and does %d steps.\n", answer, (int)out[ARGOLYTHE_OUT_STEPS]);
    expect(answer == ARGOLYTHE_ENDED && out[ARGOLYTHE_OUT_STEPS] == 0 && pc == 0x000B,
           "a refused step changes nothing");
    expect(out[ARGOLYTHE_OUT_ADDRESS] == 0, "no address was turned down");
}

static void beyond_the_image(void)
{
    uint64_t out[ARGOLYTHE_OUTS];
    uint16_t there = pc;
    pc = ARGOLYTHE_GROUP;
    uint8_t answer = step(out);
    printf("A step at %04X answers %d (6: beyond the image) and names %04X.\n", pc, answer,
           (unsigned)out[ARGOLYTHE_OUT_ADDRESS]);
    expect(answer == ARGOLYTHE_OFF_IMAGE && out[ARGOLYTHE_OUT_ADDRESS] == ARGOLYTHE_GROUP,
           "the address comes out with the refusal");
    pc = there;
}

static void back_to_the_start(void)
{
    static const uint16_t stops[] = {0x0007, 0x0005, 0x0003, 0x0000};
    uint64_t out[ARGOLYTHE_OUTS];
    for (int i = 0; i < 4; i += 1) {
        uint8_t answer = step_back(out);
        printf("A step back answers %d: pc is %04X, pad >10 holds %02X.\n", answer, pc,
               (unsigned)see(ARGOLYTHE_SEE_CPU, 0x10));
        expect(answer == ARGOLYTHE_DONE && pc == stops[i], "the step before it");
    }
    uint8_t answer = step_back(out);
    printf("One more answers %d (12: no step is left to take back).\n", answer);
    expect(answer == ARGOLYTHE_NO_RECORD, "the answer is 12");
    expect(see(ARGOLYTHE_SEE_CPU, 0x10) == 0 && see(ARGOLYTHE_SEE_VDP, 0x100) == 0 && used == 0,
           "all is as it was at first");
}

static void a_card_that_writes_itself(void)
{
    uint64_t out[ARGOLYTHE_OUTS];
    pad[0x73] = 0x7E; /* the empty subroutine stack, where a MOVE keeps pc */
    pad[0x11] = 0x90; /* INC, to be moved over the DEC */
    pc = 0x0020;
    uint8_t answer = run(2, out);
    printf("A MOVE into GROM answers %d (24: group not writable).\n", answer);
    expect(answer == ARGOLYTHE_READ_ONLY && pc == 0x0020 && image[0x26] == 0x92, "the image is as it was");

    writable = 0x01;
    answer = run(2, out);
    printf("With group 0 writable it answers %d: GROM >0026 holds %02X, and pad >10 holds %02X.\n", answer,
           image[0x26], (unsigned)see(ARGOLYTHE_SEE_CPU, 0x10));
    expect(answer == ARGOLYTHE_DONE && out[ARGOLYTHE_OUT_STEPS] == 2, "2 steps");
    expect(image[0x26] == 0x90 && see(ARGOLYTHE_SEE_CPU, 0x10) == 1, "what ran is the INC");

    uint8_t first = step_back(out), second = step_back(out);
    printf("Two steps back answer %d and %d: GROM >0026 holds %02X.\n", first, second, image[0x26]);
    expect(first == ARGOLYTHE_DONE && second == ARGOLYTHE_DONE && image[0x26] == 0x92 && pc == 0x0020 && used == 0,
           "the DEC is back");
}

/* A thousand steps in seven words, which hold the last three of them. */
static void a_loop_in_a_ring(void)
{
    uint64_t out[ARGOLYTHE_OUTS];
    journal_len = 7; /* INC takes three words, B two */
    used = 0;
    pc = 0x0030;
    uint8_t answer = run(1000, out);
    printf("A plain journal of 7 words ends a run of 1000 steps after %d, with %d (10: no word left).\n",
           (int)out[ARGOLYTHE_OUT_STEPS], answer);
    expect(answer == ARGOLYTHE_NO_ROOM && out[ARGOLYTHE_OUT_STEPS] == 2, "2 steps");

    used = 0; /* the mode is chosen while the journal is empty */
    place = 0;
    ring = 1;
    answer = run(1000, out);
    printf("As a ring it lets them all be done (%d): %d words are kept, from place %d on, and pad >12 holds %02X.\n",
           answer, (int)used, (int)place, (unsigned)see(ARGOLYTHE_SEE_CPU, 0x12));
    expect(answer == ARGOLYTHE_DONE && out[ARGOLYTHE_OUT_STEPS] == 1000, "1000 steps");
    expect(out[ARGOLYTHE_OUT_STORES] == 1500 && see(ARGOLYTHE_SEE_CPU, 0x12) == 0xF5, "501 times INC, modulo 256");
    expect(used == 7, "B, INC and B are kept");

    int back = 0;
    while ((answer = step_back(out)) == ARGOLYTHE_DONE)
        back += 1;
    printf("%d steps can be taken back, then the answer is %d; pad >12 holds %02X.\n", back, answer,
           (unsigned)see(ARGOLYTHE_SEE_CPU, 0x12));
    expect(back == 3 && answer == ARGOLYTHE_NO_RECORD && used == 0, "these three, and no more");
    expect(pc == 0x0032 && see(ARGOLYTHE_SEE_CPU, 0x12) == 0xF4, "as it was before them");
    ring = 0;
    journal_len = 64;
}

/* A list started, played to its end, and one tick of it taken back. */
static void a_sound(void)
{
    uint64_t out[ARGOLYTHE_OUTS];
    uint8_t output[8], answer;
    size_t sent;
    int ticks = 0;
    pad[0x14] = 0x00; /* the list's address */
    pad[0x15] = 0x50;
    used = 0;
    pc = 0x0040;
    answer = step(out);
    printf("An I/O answers %d: the list at %02X%02X is due in %d tick.\n", answer, pad[0xCC], pad[0xCD], pad[0xCE]);
    expect(answer == ARGOLYTHE_DONE && pad[0xCD] == 0x50 && pad[0xCE] == 1 && source == 0, "a list in GROM");

    for (; pad[0xCE] != 0; ticks += 1) {
        expect(tick(output, &sent) == ARGOLYTHE_DONE, "a tick");
        for (size_t i = 0; i < sent; i += 1)
            printf("Tick %d sends %02X to the sound chip.\n", ticks + 1, output[i]);
    }
    expect(ticks == 6 && sent == 1 && output[0] == 0xFF && pad[0xCD] == 0x57, "the end, past the list");
    expect(pc == 0x0043 && pad[0x73] == 0x7E, "pc was pushed and popped");

    answer = step_back(out);
    printf("A step back answers %d: the list stands at %02X%02X again, due in %d tick. What was sent stays sent.\n",
           answer, pad[0xCC], pad[0xCD], pad[0xCE]);
    expect(answer == ARGOLYTHE_DONE && pad[0xCD] == 0x54 && pad[0xCE] == 1, "as it was before tick 6");
    expect(pc == 0x0043 && output[0] == 0xFF, "the byte is not recalled");
}

/* The image as a dump, read back; and a dump whose third line names an address twice. */
static void dump_and_back(void)
{
    static const char twice[] = ":0100050000FA\n:0100060001F8\n:0100050000FA\n:00000001FF\n";
    static uint8_t text[ARGOLYTHE_HEX(ARGOLYTHE_GROUP)];
    static uint8_t again[ARGOLYTHE_GROUP];
    size_t count, line;
    uint8_t answer = argolythe_write_hex(image, sizeof image, text, sizeof text, &count);
    printf("The image as a dump has %d bytes, and begins with %.43s.\n", (int)count, (const char *)text);
    expect(answer == ARGOLYTHE_DONE && count == sizeof text, "44 bytes for 16, and 12");
    answer = argolythe_read_hex(text, count, again, sizeof again, &line);
    expect(answer == ARGOLYTHE_DONE && line == 0 && memcmp(again, image, sizeof image) == 0,
           "read back, the image is the same");
    answer = argolythe_read_hex((const uint8_t *)twice, sizeof twice - 1, again, sizeof again, &line);
    printf("Another dump answers %d (21: an address is named twice) in line %d.\n", answer, (int)line);
    expect(answer == ARGOLYTHE_NAMED_TWICE && line == 3, "the line at fault");
    expect(again[6] == 0, "the image is all 0");
    answer = argolythe_write_hex(image, sizeof image, text, sizeof text - 1, &count);
    expect(answer == ARGOLYTHE_OUT_SHORT && count == 0, "no room for the last line feed");
}

/* The other cartridge in the image, from its start, in a ring of 64 words. */
static void insert_overrun(void)
{
    memset(image, 0, sizeof image);
    memset(pad, 0, sizeof pad);
    memcpy(image, overrun, sizeof overrun);
    memcpy(pad, "ABCDEFGH", 8); /* the table */
    writable = 0;
    pc = 0;
    used = 0;
    place = 0;
    ring = 1;
}

static void a_wrong_byte(void)
{
    uint64_t out[ARGOLYTHE_OUTS], who[ARGOLYTHE_WHO_OUTS];
    insert_overrun();
    uint8_t ran = run(100, out);
    uint8_t answer = who_wrote(ARGOLYTHE_CELL_CPU, 0x08, who);
    printf("After another cartridge pad >08 holds %02X, and should hold 03. Who wrote it answers %d:\n",
           (unsigned)see(ARGOLYTHE_SEE_CPU, 0x08), answer);
    printf("the step at %04X, with %d steps after it; %02X before, %02X left.\n", (unsigned)who[ARGOLYTHE_WHO_PC],
           (int)who[ARGOLYTHE_WHO_AFTER], (unsigned)who[ARGOLYTHE_WHO_BEFORE], (unsigned)who[ARGOLYTHE_WHO_LEFT]);
    expect(ran == ARGOLYTHE_ENDED && out[ARGOLYTHE_OUT_STEPS] == 39 && pc == 0x0013, "39 steps to EXIT");
    expect(answer == ARGOLYTHE_DONE && who[ARGOLYTHE_WHO_FOUND] == 1, "a step is named");
    expect(who[ARGOLYTHE_WHO_PC] == 0x0005 && who[ARGOLYTHE_WHO_AFTER] == 4, "the CLR of the ninth turn");
    expect(who[ARGOLYTHE_WHO_BEFORE] == 3 && who[ARGOLYTHE_WHO_LEFT] == 0, "3 to 0");

    answer = who_wrote(ARGOLYTHE_CELL_CPU, 0x00, who);
    printf("For pad >00 it answers %d and finds %d: the step that cleared it is no longer kept.\n", answer,
           (int)who[ARGOLYTHE_WHO_FOUND]);
    expect(answer == ARGOLYTHE_DONE && who[ARGOLYTHE_WHO_FOUND] == 0, "none kept");
    answer = who_wrote(ARGOLYTHE_CELL_REG, 7, who);
    expect(answer == ARGOLYTHE_DONE && who[ARGOLYTHE_WHO_FOUND] == 1 && who[ARGOLYTHE_WHO_AFTER] == 0 &&
           who[ARGOLYTHE_WHO_PC] == 0x0011 && who[ARGOLYTHE_WHO_LEFT] == 6, "BACK, the newest step");
}

/* As many steps back as came after the culprit, and one more. */
static void before_the_culprit(void)
{
    uint64_t out[ARGOLYTHE_OUTS];
    for (int i = 0; i < 5; i += 1)
        expect(step_back(out) == ARGOLYTHE_DONE, "a kept step");
    printf("Five steps back: pc is %04X, pad >08 holds %02X, and the index is %02X%02X, one past the table.\n", pc,
           (unsigned)see(ARGOLYTHE_SEE_CPU, 0x08), (unsigned)see(ARGOLYTHE_SEE_CPU, 0x10),
           (unsigned)see(ARGOLYTHE_SEE_CPU, 0x11));
    expect(pc == 0x0005 && see(ARGOLYTHE_SEE_CPU, 0x08) == 3 && see(ARGOLYTHE_SEE_CPU, 0x11) == 8,
           "the state before the CLR");
}

/* The same cartridge: which of its bytes a run reads, and that another may be any. */
static void a_worn_byte(void)
{
    static uint8_t map[ARGOLYTHE_GROUP], before[ARGOLYTHE_PAD];
    uint64_t out[ARGOLYTHE_OUTS], again[ARGOLYTHE_OUTS];
    int read = 0;
    insert_overrun();
    expect(run_mapped(map, sizeof map - 1, 100, out) == ARGOLYTHE_WRONG_LENGTH && pc == 0, "a map is as long as the image");
    uint8_t answer = run_mapped(map, sizeof map, 100, out);
    for (size_t i = 0; i < sizeof map; i += 1)
        read += map[i];
    printf("A run of it with a map answers %d: of the image's %d bytes it read %d.\n", answer, (int)sizeof map, read);
    expect(answer == ARGOLYTHE_ENDED && out[ARGOLYTHE_OUT_STEPS] == 39, "39 steps to EXIT again");
    expect(read == (int)sizeof overrun && map[0x13] == 1 && map[0x14] == 0, "all of the cartridge, up to EXIT");

    memcpy(before, pad, sizeof pad);
    insert_overrun();
    image[0x14] = 0xA5; /* not read, so it may be any */
    answer = run(100, again);
    printf("With another byte at >0014, which it did not read, a run answers %d: pc is %04X, and the pad is the same.\n",
           answer, pc);
    expect(answer == ARGOLYTHE_ENDED && memcmp(again, out, sizeof out) == 0 && memcmp(pad, before, sizeof pad) == 0,
           "nothing moved");
}

int main(void)
{
    to_the_end();
    look();
    past_the_end();
    beyond_the_image();
    back_to_the_start();
    a_card_that_writes_itself();
    a_loop_in_a_ring();
    a_sound();
    dump_and_back();
    a_wrong_byte();
    before_the_culprit();
    a_worn_byte();
    printf(wrong ? "Something was not as expected.\n" : "All as expected.\n");
    return wrong ? 1 : 0;
}
