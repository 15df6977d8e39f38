/* Argolythe for C11 and C++: steps, runs, mapped runs, ticks, steps back, the viewer, who wrote a cell, and dumps.
 *
 * Link `libexport.a` for x86-64 Linux: host/run and the scripts of compare/ build it to target/staticlib/. It is the
 * out/libexport_c.a that `rt lib` writes in crates/export_c, under the name that it has always had.
 *
 * What the library promises is proved: each call ends, touches nothing beyond what it is lent, and
 * leaves what the rules give (crates/export_c/src/ has the contracts, crates/export/specs/ how the numbers
 * here are read). What a caller owes is checked by nothing:
 *
 * - Each pointer is valid for as many elements as its length says, which are initialised, and is
 *   aligned for its type. That holds for the call alone: nothing is kept when it returns.
 * - A pointer to const is only read. Any other is read and written, the image too: of that only
 *   the groups named writable, but it is lent for writing also where none is.
 * - No two things lent to one call overlap, `out`, `sent`, `offset`, `line` and `count` among them, except that two
 *   const ones may. No other thread writes what is lent const, or touches what is not, until the call
 *   returns.
 * - No pointer is NULL, also where its length is 0: a journal of 0 words is any aligned pointer
 *   with the length 0. No object is larger than PTRDIFF_MAX bytes.
 *
 * No length is a duty: a part of another length is answered by 11, before anything is touched.
 *
 * The library has no state, makes no system call and uses no heap, so calls on different machines
 * may run at the same time on different threads. It calls nothing outside itself but the C library's
 * memset.
 *
 * A call needs less than 4 KiB of stack, whatever it is lent and however many steps it makes. The
 * compiled functions do not call themselves, none has a frame of variable size, and the deepest
 * chain of calls, argolythe_run's, takes at most 1,008 bytes: every push and every subtraction from
 * the stack pointer in its functions, and the return addresses. The 128 bytes below the stack
 * pointer that x86-64 leaves to a function come on top. This is read off the archive, not proved.
 *
 * From Rust a slice is two arguments as well: host/host.rs has the declarations, and host/host.c is
 * a program in C.
 */
#ifndef ARGOLYTHE_H
#define ARGOLYTHE_H

#include <stddef.h>
#include <stdint.h>

#ifdef __cplusplus
extern "C" {
#endif

/* ---- what is lent, in elements */

#define ARGOLYTHE_GROUP 8192          /* bytes of a GROM group; an image is 1 to 8 of them */
#define ARGOLYTHE_IMAGE_MAX 65536     /* bytes */
#define ARGOLYTHE_PAD 256             /* bytes of CPU RAM, of which >00 to >DF can be reached */
#define ARGOLYTHE_PAD_REACH 224       /* bytes */
#define ARGOLYTHE_VDP 16384           /* bytes of VDP RAM */
#define ARGOLYTHE_REG 8               /* bytes: the VDP's registers */
#define ARGOLYTHE_JOURNAL_MAX 1048576 /* 32-bit words; a journal has 0 to this many */

/* ---- what a call answers */

enum argolythe_answer {
    ARGOLYTHE_DONE = 0,
    ARGOLYTHE_ENDED = 1,           /* opcode >0B (EXIT): nothing changes, pc stays on it */
    ARGOLYTHE_NO_INSTRUCTION = 2,  /* no such instruction */
    ARGOLYTHE_NEEDS_HOST = 3,      /* >03, >0F; >F4 to >F7 with another function than 0 or 1, or a VDP destination */
    ARGOLYTHE_OFF_CPU = 4,         /* CPU offset above >DF, or a format operand in VDP RAM */
    ARGOLYTHE_OFF_VDP = 5,         /* VDP address above >3FFF */
    ARGOLYTHE_OFF_IMAGE = 6,       /* GROM address beyond the image */
    ARGOLYTHE_OFF_STACK = 7,       /* stack pointer out of its area */
    ARGOLYTHE_FORMAT_TOO_LONG = 8, /* a 16,385th format code in one FMT */
    ARGOLYTHE_NO_ROOM = 10,        /* no journal word left; in a ring: one step needs more than all of it */
    ARGOLYTHE_WRONG_LENGTH = 11,   /* a lent part has a wrong length, or used or a ring's place is past the journal */
    ARGOLYTHE_NO_RECORD = 12,      /* step_back finds no sound record; who_wrote, that not every record is sound */
    ARGOLYTHE_OFF_REGISTERS = 13,  /* VDP register above 7 */
    ARGOLYTHE_BAD_RECORD = 20,     /* a dump: form, sum, type, address beyond the image, or more after the end */
    ARGOLYTHE_NAMED_TWICE = 21,    /* a dump: address named twice */
    ARGOLYTHE_NO_END = 22,         /* a dump: no end record */
    ARGOLYTHE_TOO_COARSE = 23,     /* COINC's granularity above 7 */
    ARGOLYTHE_READ_ONLY = 24,      /* a MOVE into a GROM group that is not writable */
    ARGOLYTHE_OUTPUT_FULL = 26,    /* a tick has more bytes to send than the output holds */
    ARGOLYTHE_OUT_SHORT = 31       /* output too short */
};

/* ---- what comes out: seven numbers, whatever the answer */

enum argolythe_out {
    ARGOLYTHE_OUT_PC = 0,      /* pc for the next call; that of this call if a step was refused */
    ARGOLYTHE_OUT_USED = 1,    /* used journal words for the next call */
    ARGOLYTHE_OUT_STEPS = 2,   /* how many steps were done, or taken back */
    ARGOLYTHE_OUT_STORES = 3,  /* how many bytes these steps stored; 0 for a step back */
    ARGOLYTHE_OUT_ADDRESS = 4, /* the address that was turned down, see below */
    ARGOLYTHE_OUT_PLACE = 5,   /* place of the oldest kept journal word for the next call */
    ARGOLYTHE_OUT_SOURCE = 6,  /* source flag for the next call: 0 or 1 */
    ARGOLYTHE_OUTS = 7
};

/* ARGOLYTHE_OUT_ADDRESS is, with answer 4, the pad offset that was turned down, or a format operand's
 * VDP address; with 5 the VDP address; with 6 the GROM address, that of a sound list's byte too. Of a
 * word it is the first byte out of range. It has 16 bits, and is 0 with every other answer, so of a step
 * back always. */

/* ---- the calls
 *
 * image, pad, vdp, reg and journal are each a pointer and a length in elements. pc is the GROM
 * address of the next instruction. used says how many words of the journal are in use: 0 for an
 * empty one, and then what the last call left in out. writable names the groups of the image that a
 * program may write, bit g for the group at g times >2000: 0 for cartridges that cannot be written. A
 * group that the image does not have may be named. Calls on one journal want the same groups, since a
 * step back puts nothing back in others and answers 12. source says where the sound list is: 0 in GROM,
 * any other value in VDP RAM. It begins as 0 and goes with pc: each call is handed what the last one left
 * in out, a step back gives it back with pc, and a refused step leaves it. The host may write pad, vdp,
 * reg and the image between calls; a step back then puts back the bytes that its step had found. A call
 * that answers 11 or 12 touches only out, and a tick's sent. A refused step puts all back, and zeroes the
 * journal words that it had begun to use.
 *
 * ring says how the journal is used; 0 is no, any other value yes. It is chosen while the journal is
 * empty, and kept: no call can tell in which way the words were laid.
 *
 * - Without, the words in use stand from the journal's start. A step that finds no word left answers
 *   10. place is not looked at, and comes back as it was lent.
 * - With, they stand from place on, the oldest first, and go on at the journal's start after its last
 *   word. A caller begins with used 0 and place 0, and hands back both as the last call left them;
 *   place is below the journal's length, or 0, else the answer is 11. When a step needs a word and none
 *   is left, the oldest steps are dropped, each as a whole and as few as will do, so that a long run
 *   goes on. 10 is then answered only if one step alone needs more than the whole journal. Each step still kept can be taken back, and the state before it is exact; past the oldest
 *   of them a step back answers 12. Words of dropped steps hold 0 until they are used again. Lost steps
 *   stay lost, also if the step that needed their room is refused: used and place then say what is
 *   left. */

/* One step. */
uint8_t argolythe_step(uint8_t *image, size_t image_len,
                       uint8_t *pad, size_t pad_len,
                       uint8_t *vdp, size_t vdp_len,
                       uint8_t *reg, size_t reg_len,
                       uint32_t *journal, size_t journal_len,
                       uint16_t pc, size_t used, uint8_t ring, size_t place, uint8_t writable, uint8_t source,
                       uint64_t out[ARGOLYTHE_OUTS]);

/* Up to n steps, to the first answer other than 0. The numbers are those of the steps done before
 * it. With n = 0 it answers 0 or 11. */
uint8_t argolythe_run(uint8_t *image, size_t image_len,
                      uint8_t *pad, size_t pad_len,
                      uint8_t *vdp, size_t vdp_len,
                      uint8_t *reg, size_t reg_len,
                      uint32_t *journal, size_t journal_len,
                      uint16_t pc, size_t used, uint8_t ring, size_t place, uint8_t writable, uint8_t source,
                      uint32_t n, uint64_t out[ARGOLYTHE_OUTS]);

/* The same run, with a map of what it read: argolythe_run in all that it answers and leaves, and each byte
 * of the image that the rules read gets 1 in map, which has one byte for each of the image. The others stay
 * as they are: so a map of zeros says what was read, and one that is lent again gathers several runs. A map
 * of another length than the image's is answered 11.
 *
 * Read are opcodes, operands, immediates and format strings, the second byte of a branch also where it is
 * not taken, FETCH's byte, a MOVE's source in GROM, and COINC's table; of a refused step too, up to its
 * refusal, and so of the one that ends the run. A store into GROM reads nothing, and beyond the image there
 * is nothing to read. What was not read doesn't matter: with other bytes there the run answers the same and
 * leaves the same, but for those bytes themselves, and for them as old bytes in the journal. */
uint8_t argolythe_run_mapped(uint8_t *image, size_t image_len,
                             uint8_t *map, size_t map_len,
                             uint8_t *pad, size_t pad_len,
                             uint8_t *vdp, size_t vdp_len,
                             uint8_t *reg, size_t reg_len,
                             uint32_t *journal, size_t journal_len,
                             uint16_t pc, size_t used, uint8_t ring, size_t place, uint8_t writable, uint8_t source,
                             uint32_t n, uint64_t out[ARGOLYTHE_OUTS]);

/* One tick of the sound list, which a console makes sixty times a second; no run makes any. The pad's >CE
 * counts down, and when it comes to 0 the block at >CC's address is due: its bytes are sent, and its last
 * byte is the new count. A size of 0 or >FF is followed by a new address, in the same memory or in the
 * other one, and sends nothing. With 0 in >CE no list plays, and the tick does no more than its mark.
 *
 * A tick is a step: it takes a mark and a word for each store, and can be taken back. It answers 0, 5, 6,
 * 7, 10, 11 or 26, and ARGOLYTHE_OUT_STEPS is 1 if it was done, else 0. Nothing is read at pc, which may
 * be any. What it sends goes to output from its first byte on, *sent bytes; the rest of output stays as it
 * was. An output may have any length, 0 too: 26 is answered when a byte finds no room in it, and no block
 * has more than 254. A refused tick leaves 0 in the bytes of output that it had written, and *sent is 0. A
 * step back does not recall the bytes that its tick had sent. */
uint8_t argolythe_tick(uint8_t *image, size_t image_len,
                       uint8_t *pad, size_t pad_len,
                       uint8_t *vdp, size_t vdp_len,
                       uint8_t *reg, size_t reg_len,
                       uint32_t *journal, size_t journal_len,
                       uint16_t pc, size_t used, uint8_t ring, size_t place, uint8_t writable, uint8_t source,
                       uint8_t *output, size_t output_len, size_t *sent,
                       uint64_t out[ARGOLYTHE_OUTS]);

/* The newest step in the journal, or tick, taken back: 0, 11 or 12. */
uint8_t argolythe_step_back(uint8_t *image, size_t image_len,
                            uint8_t *pad, size_t pad_len,
                            uint8_t *vdp, size_t vdp_len,
                            uint8_t *reg, size_t reg_len,
                            uint32_t *journal, size_t journal_len,
                            uint16_t pc, size_t used, uint8_t ring, size_t place, uint8_t writable, uint8_t source,
                            uint64_t out[ARGOLYTHE_OUTS]);

enum argolythe_memory { ARGOLYTHE_SEE_CPU = 0, ARGOLYTHE_SEE_VDP = 1 };

/* How many bytes can be seen of a memory at an address: len, or 0 unless all of them lie in reach,
 * in memories of the right length. Those bytes are the caller's own, from pad + *offset or
 * vdp + *offset on. *offset is 0 where none can be seen. Any other memory has none. */
size_t argolythe_view(const uint8_t *pad, size_t pad_len,
                      const uint8_t *vdp, size_t vdp_len,
                      uint8_t memory, size_t at, size_t len,
                      size_t *offset);

/* ---- who wrote a cell */

/* Memories, as the journal's words number them. Any other has no cell. */
enum argolythe_cell {
    ARGOLYTHE_CELL_CPU = 0,  /* pad >00 to >DF */
    ARGOLYTHE_CELL_VDP = 1,  /* VDP RAM >0000 to >3FFF */
    ARGOLYTHE_CELL_REG = 2,  /* VDP registers 0 to 7 */
    ARGOLYTHE_CELL_GROM = 4  /* the image's groups that are named writable */
};

/* What comes out: five numbers, all 0 unless a step is named. */
enum argolythe_who {
    ARGOLYTHE_WHO_FOUND = 0,  /* 1 if a kept step stored to the cell */
    ARGOLYTHE_WHO_AFTER = 1,  /* how many kept steps came after it: 0 is the newest */
    ARGOLYTHE_WHO_PC = 2,     /* where its instruction stood; of a tick, the next one */
    ARGOLYTHE_WHO_BEFORE = 3, /* the byte in the cell before that step */
    ARGOLYTHE_WHO_LEFT = 4,   /* the byte that the step left */
    ARGOLYTHE_WHO_OUTS = 5
};

/* The newest kept step that stored to a cell: 0, 11 or 12. A store of an equal byte counts. Answer 0 with nothing
 * found says that no step in the journal stored there; so it is for an empty journal, and for a cell out of
 * reach. 12 is answered, before anything is named, unless every word in use is sound and the oldest is
 * a step's first, which holds of all that steps and steps back leave. WHO_AFTER steps back lead to the state that
 * the named step left, one more to the state before it. WHO_LEFT is the byte that stands in the cell
 * now: the step's, if nobody but steps wrote there since. The call changes nothing. */
uint8_t argolythe_who_wrote(const uint8_t *image, size_t image_len,
                            const uint8_t *pad, size_t pad_len,
                            const uint8_t *vdp, size_t vdp_len,
                            const uint8_t *reg, size_t reg_len,
                            const uint32_t *journal, size_t journal_len,
                            size_t used, uint8_t ring, size_t place, uint8_t writable,
                            uint8_t memory, uint16_t at,
                            uint64_t out[ARGOLYTHE_WHO_OUTS]);

/* ---- dumps in Intel HEX (crates/export/src/dump.rt)
 *
 * An image is 1 to 8 groups, else the answer is 11 and only the number is touched. No text and no
 * output has a wrong length. */

/* Data and end records read into an image: 0, 11, 20, 21 or 22. Lines end with LF or CR LF, the last
 * one may lack it, and digits are of either case. Bytes that no record names are 0. After 20, 21 and
 * 22 the image is all 0, and *line is the line at fault, counted from 1: for 22 the line after the
 * last one. After 0 and 11 it is 0. */
uint8_t argolythe_read_hex(const uint8_t *text, size_t text_len,
                           uint8_t *image, size_t image_len,
                           size_t *line);

/* Bytes of the text of an image. */
#define ARGOLYTHE_HEX(image_len) ((image_len) / 16 * 44 + 12)

/* An image written as records of 16 bytes, ascending, then the end record, in capitals, each line
 * ended by LF: 0, 11 or 31. *count is how many bytes of out are the text; the others stay as they
 * were, and all of them after 11 and 31, when *count is 0. */
uint8_t argolythe_write_hex(const uint8_t *image, size_t image_len,
                            uint8_t *out, size_t out_len,
                            size_t *count);

#ifdef __cplusplus
}
#endif

#endif
