/* A bench machine for the graphics programming language of document 01, as document 02 changes it.
   Each rule is quoted, in a comment, in their own words. */
#include "peer.h"

#include <stdbool.h>

enum {
    GROUP_LEN = 8192,
    MAX_GROUPS = 8,
    PAD_LEN = 256,
    VDP_LEN = 16384,
    REG_LEN = 8,
    JOURNAL_MAX = 1048576,
    PAD_LAST = 0xDF,
    VDP_LAST = 0x3FFF,
    REG_LAST = 7
};

/* "Pad cells" */
enum {
    DATA_POINTER = 0x72,
    CALL_POINTER = 0x73,
    RANDOM_NUMBER = 0x78,
    STATUS = 0x7C,
    CHARACTER = 0x7D,
    ROW = 0x7E,
    COLUMN = 0x7F,
    SEED = 0xC0,
    LIST_ADDRESS = 0xCC, /* 02, item 10 */
    LIST_COUNT = 0xCE,   /* likewise */
    REGISTER_1_COPY = 0xD4
};

/* "What a call says" */
enum {
    DONE = 0,
    ENDED = 1,
    NO_INSTRUCTION = 2,
    NEEDS_HOST = 3,
    BAD_CPU = 4,
    BAD_VDP = 5,
    BAD_GROM = 6,
    BAD_STACK = 7,
    LONG_FORMAT = 8,
    JOURNAL_FULL = 10,
    BAD_LENGTH = 11,
    NO_RECORD = 12,
    BAD_REGISTER = 13,
    TOO_COARSE = 23, /* 02, item 3 */
    READ_ONLY = 24,  /* 02, item 9 */
    OUTPUT_FULL = 26 /* 02, item 10 */
};

/* "Status": the five flags, and the parity of 02, item 6 */
enum { HIGH = 0x80, GREATER = 0x40, CONDITION = 0x20, CARRY = 0x10, OVERFLOW = 0x08, PARITY = 0x04 };

/* 02, item 9: "a fourth memory, kind 4, so its words change: kind times 2^29" */
#define KIND_CPU 0u
#define KIND_VDP 1u
#define KIND_REG 2u
#define KIND_MARK 3u
#define KIND_GROM 4u
#define KIND_SHIFT 29
#define MARK_SOURCE 0x00010000u  /* 02, item 10: "The source flag .. is bit 16 of the mark word" */
#define MARK_SURPLUS 0x1FFE0000u /* between a mark's kind and its flag */

#define FORMAT_CODES 16384u

/* Where a byte lies. */
enum space { CPU, VDP, REG, GROM };

/* "The result of decoding is a CPU cell, a VDP cell or a refusal": a pad
   offset, VDP_BASE plus a VDP address, or REFUSED.  A value read is a word
   or REFUSED likewise. */
#define VDP_BASE 0x10000u
#define REFUSED UINT32_MAX

struct bench {
    uint8_t *image;
    uint8_t *pad;
    uint8_t *vdp;
    uint8_t *reg;
    uint32_t *journal;
    size_t journal_len;
    bool ring;
    size_t place; /* of the oldest kept word; 0 in the plain mode */
    size_t used;
    size_t older; /* of these, how many aren't the current step's own */
    uint32_t image_len;
    uint16_t pc;
    uint32_t source; /* of the sound list, as a mark has it: MARK_SOURCE for VDP RAM, 0 for GROM */
    uint8_t writable;
    uint8_t why;    /* set when a helper returns false */
    uint16_t where; /* set with it */
    uint8_t *map;   /* 1 for each image byte that is read; NULL where nobody asks */
};

/* 02, item 2: "It is 0 for every other answer" */
static inline bool refuse(struct bench *b, uint8_t why)
{
    b->why = why;
    b->where = 0;
    return false;
}

/* "Wherever an address is turned down .. the offending 16-bit address .. must come out with the refusal" */
static inline bool refuse_at(struct bench *b, uint8_t why, uint32_t address)
{
    b->why = why;
    b->where = (uint16_t)address;
    return false;
}

static inline uint32_t refuse_value(struct bench *b, uint8_t why)
{
    refuse(b, why);
    return REFUSED;
}

static inline uint32_t refuse_value_at(struct bench *b, uint8_t why, uint32_t address)
{
    refuse_at(b, why, address);
    return REFUSED;
}

/* "of a word, the first byte out of range": the second one, if the first is the last in reach */
static inline uint32_t first_out(uint32_t at, uint32_t last)
{
    return at == last ? at + 1 : at;
}

/* ---- reading GROM ---- */

/* 02, item 13: "every address the rules read during the run".  They read the image by this alone. */
static inline uint8_t image_byte(struct bench *b, uint32_t at)
{
    if (__builtin_expect(b->map != NULL, 0)) /* so that a run without one is as quick as before */
        b->map[at] = 1;
    return b->image[at];
}

/* "Reading GROM at pc moves pc on: the low 13 bits count and wrap, the top 3 stay." */
static inline uint16_t after(uint16_t pc)
{
    return (uint16_t)((pc & 0xE000u) | ((pc + 1u) & 0x1FFFu));
}

/* Only used where the group of pc is known to be in the image. */
static inline uint32_t next_byte(struct bench *b)
{
    uint8_t byte = image_byte(b, b->pc);
    b->pc = after(b->pc);
    return byte;
}

/* "Words are high byte first." */
static inline uint32_t next_word(struct bench *b)
{
    uint32_t high = next_byte(b);
    uint32_t low = next_byte(b);
    return high << 8 | low;
}

/* ---- the journal: plain, or the ring of 02, item 5 ---- */

/* Where the i-th kept word is, from the oldest on, and past the journal's end at its start again. */
static inline size_t slot(const struct bench *b, size_t i)
{
    size_t at = b->place + i;
    return at < b->journal_len ? at : at - b->journal_len;
}

/* By its kind alone: one with a surplus bit is a mark too. */
static inline bool is_mark(uint32_t word)
{
    return word >> KIND_SHIFT == KIND_MARK;
}

/* "Lent words with no mark below them are dropped together, as one oldest step": so a step is
   the first word, mark or not, and all up to the next mark.  False if the step at work has all. */
static bool drop_oldest(struct bench *b)
{
    size_t count = 0;

    if (b->older == 0)
        return false;
    do
        b->journal[slot(b, count++)] = 0; /* "Words of dropped steps that aren't yet reused hold 0" */
    while (count < b->older && !is_mark(b->journal[slot(b, count)]));
    b->place = slot(b, count);
    b->used -= count;
    b->older -= count;
    return true;
}

/* "when a step needs room, let whole oldest steps be dropped .., as few as will do": one gives room.
   Not in line, so that the stores stay short. */
__attribute__((noinline)) static bool make_room(struct bench *b)
{
    if (!b->ring || !drop_oldest(b))
        return refuse(b, JOURNAL_FULL); /* "no journal word left" */
    return true;
}

/* "Steps are dropped as each word is needed" */
static inline bool lay(struct bench *b, uint32_t word)
{
    if (b->used == b->journal_len && !make_room(b))
        return false;
    b->journal[slot(b, b->used++)] = word;
    return true;
}

/* ---- stores ---- */

/* "the address times 256 plus the byte that stood there" */
static inline bool keep(struct bench *b, uint32_t kind, uint32_t at, uint8_t old)
{
    return lay(b, kind << KIND_SHIFT | at << 8 | old);
}

/* "For one store, 4, 5, .. or 13 comes before 10." */
static inline bool store_cpu(struct bench *b, uint32_t at, uint32_t byte)
{
    if (at > PAD_LAST)
        return refuse_at(b, BAD_CPU, at); /* "CPU offset above >DF" */
    if (!keep(b, KIND_CPU, at, b->pad[at]))
        return false;
    b->pad[at] = (uint8_t)byte;
    return true;
}

static inline bool store_vdp(struct bench *b, uint32_t at, uint32_t byte)
{
    if (at > VDP_LAST)
        return refuse_at(b, BAD_VDP, at); /* "VDP address above >3FFF" */
    if (!keep(b, KIND_VDP, at, b->vdp[at]))
        return false;
    b->vdp[at] = (uint8_t)byte;
    return true;
}

static inline bool store_reg(struct bench *b, uint32_t at, uint32_t byte)
{
    if (at > REG_LAST)
        return refuse(b, BAD_REGISTER); /* "VDP register above 7" */
    if (!keep(b, KIND_REG, at, b->reg[at]))
        return false;
    b->reg[at] = (uint8_t)byte;
    return true;
}

/* "groups named writable by the caller": bit g for group g */
static inline bool may_write(uint8_t writable, uint32_t at)
{
    return writable >> at / GROUP_LEN & 1;
}

/* "a two-byte address that counts in 16 bits"; "24 group not writable, just after 6 for that byte, both before 10" */
static inline bool store_grom(struct bench *b, uint32_t at, uint32_t byte)
{
    at &= 0xFFFF;
    if (at >= b->image_len)
        return refuse_at(b, BAD_GROM, at);
    if (!may_write(b->writable, at))
        return refuse(b, READ_ONLY);
    if (!keep(b, KIND_GROM, at, b->image[at])) /* kept, but not read: no rule sees it */
        return false;
    b->image[at] = (uint8_t)byte;
    return true;
}

static inline bool store_byte(struct bench *b, uint32_t place, uint32_t byte)
{
    return place >= VDP_BASE ? store_vdp(b, place - VDP_BASE, byte) : store_cpu(b, place, byte);
}

static inline bool store_status(struct bench *b, uint32_t status)
{
    return store_cpu(b, STATUS, status);
}

/* "change only the condition bit" */
static inline bool store_condition(struct bench *b, bool set)
{
    uint32_t rest = b->pad[STATUS] & ~(uint32_t)CONDITION;
    return store_status(b, set ? rest | CONDITION : rest);
}

/* "Screen position: YPT times 32 plus XPT modulo 32." */
static inline uint32_t screen_position(const struct bench *b)
{
    return b->pad[ROW] * 32u + b->pad[COLUMN] % 32u;
}

/* ---- operands ---- */

/* "a pad word" named by an index byte or by an indirection */
static inline uint32_t pad_word(struct bench *b, uint32_t at)
{
    if (at >= PAD_LAST)
        return refuse_value_at(b, BAD_CPU, first_out(at, PAD_LAST)); /* both bytes must be in reach */
    return (uint32_t)b->pad[at] << 8 | b->pad[at + 1];
}

/* "pointer >72 must be >A0 to >BF; the operand is the cell it names; >72 goes down by one" */
static uint32_t pop_cell(struct bench *b)
{
    uint32_t pointer = b->pad[DATA_POINTER];
    if (pointer < 0xA0 || pointer > 0xBF)
        return refuse_value(b, BAD_STACK);
    return store_cpu(b, DATA_POINTER, pointer - 1) ? pointer : REFUSED;
}

/* "bits 1XVIaaaa and a second byte give a 12-bit offset" */
static uint32_t decode_long(struct bench *b, uint32_t first, uint32_t width)
{
    uint32_t at;

    if ((first & 0x0F) == 0x0F)
        at = next_word(b); /* "if aaaa is 1111 a 16-bit offset stands in the two bytes after the first" */
    else
        at = (first & 0x0F) << 8 | next_byte(b);
    if (first & 0x40) { /* "With X one more byte names a pad word that is added, modulo 65,536" */
        uint32_t index = pad_word(b, next_byte(b));
        if (index == REFUSED)
            return REFUSED;
        at = (at + index) & 0xFFFF;
    }
    if (first & 0x20) { /* "V: VDP RAM, else CPU." */
        if (first & 0x10) { /* "the offset names a pad word holding the VDP address" */
            at = pad_word(b, at);
            if (at == REFUSED)
                return REFUSED;
        }
        if (at + width - 1 > VDP_LAST)
            return refuse_value_at(b, BAD_VDP, first_out(at, VDP_LAST));
        return VDP_BASE + at;
    }
    if (first & 0x10) {
        if (at == STATUS) { /* "I without V at offset >7C pops" */
            at = pop_cell(b);
            if (at == REFUSED)
                return REFUSED;
        } else { /* "it names a pad byte holding a pad offset" */
            if (at > PAD_LAST)
                return refuse_value_at(b, BAD_CPU, at);
            at = b->pad[at];
        }
    }
    if (at + width - 1 > PAD_LAST) /* "A word operand needs both bytes in range." */
        return refuse_value_at(b, BAD_CPU, first_out(at, PAD_LAST));
    return at;
}

static inline uint32_t decode(struct bench *b, uint32_t width)
{
    uint32_t first = next_byte(b);
    if (first < 0x80) /* "First byte >00 to >7F: that pad offset." */
        return first;
    return decode_long(b, first, width);
}

/* "Byte values count as sign-extended unless said." */
static inline uint32_t extend(uint32_t byte)
{
    return byte & 0x80 ? byte | 0xFF00 : byte;
}

static inline uint32_t value_at(const uint8_t *cell, uint32_t width)
{
    return width == 1 ? extend(cell[0]) : (uint32_t)cell[0] << 8 | cell[1];
}

/* The place of a decoded operand is in reach, both bytes of a word included. */
static inline uint32_t read_value(struct bench *b, uint32_t place, uint32_t width)
{
    if (place >= VDP_BASE)
        return value_at(b->vdp + (place - VDP_BASE), width);
    if (place == CHARACTER && /* "first stores the screen byte there" */
        !store_cpu(b, CHARACTER, b->vdp[screen_position(b)]))
        return REFUSED;
    return value_at(b->pad + place, width);
}

/* The word that an operand names, read in 01's way. */
static inline uint32_t word_operand(struct bench *b)
{
    uint32_t place = decode(b, 2);
    return place == REFUSED ? REFUSED : read_value(b, place, 2);
}

static inline bool store_result(struct bench *b, uint32_t place, uint32_t width, uint32_t value)
{
    if (width == 2) {
        if (!store_byte(b, place, value >> 8))
            return false;
        place++;
    }
    if (!store_byte(b, place, value))
        return false;
    if (place == CHARACTER) /* "that byte then goes to the screen too" */
        return store_vdp(b, screen_position(b), value);
    return true;
}

/* ---- stacks ---- */

/* "must be even, >80 to >9E" */
static inline bool call_slot(uint32_t pointer)
{
    return pointer >= 0x80 && pointer <= 0x9E && pointer % 2 == 0;
}

/* "Subroutine push: >73 up by 2 must be even, >80 to >9E; stored" */
static inline bool raise_pointer(struct bench *b, uint32_t *pointer)
{
    *pointer = (b->pad[CALL_POINTER] + 2u) & 0xFF;
    if (!call_slot(*pointer))
        return refuse(b, BAD_STACK);
    return store_cpu(b, CALL_POINTER, *pointer);
}

/* "then pc high and low" */
static bool push_pc(struct bench *b)
{
    uint32_t pointer;
    return raise_pointer(b, &pointer) &&
           store_cpu(b, pointer, b->pc >> 8) &&
           store_cpu(b, pointer + 1, b->pc & 0xFF);
}

/* "Pop needs the same of the old pointer; >73 down by 2." */
static bool pop_pc(struct bench *b)
{
    uint32_t pointer = b->pad[CALL_POINTER];
    if (!call_slot(pointer))
        return refuse(b, BAD_STACK);
    uint16_t to = (uint16_t)(b->pad[pointer] << 8 | b->pad[pointer + 1]);
    if (!store_cpu(b, CALL_POINTER, pointer - 2))
        return false;
    b->pc = to;
    return true;
}

/* ---- arithmetic ---- */

static inline uint32_t mask_of(uint32_t width)
{
    return width == 1 ? 0xFF : 0xFFFF;
}

static inline uint32_t sign_of(uint32_t width)
{
    return width == 1 ? 0x80 : 0x8000;
}

/* "logical high (not 0), greater (above 0, signed), condition" */
static inline uint32_t status_of(uint32_t result, uint32_t width)
{
    if (result == 0)
        return CONDITION;
    return result & sign_of(width) ? HIGH : HIGH | GREATER;
}

/* Both values sign-extended or words: "high, greater, condition (equal), rest 0" */
static inline uint32_t status_of_pair(uint32_t left, uint32_t right)
{
    return (left > right ? HIGH : 0u) |
           ((int16_t)left > (int16_t)right ? GREATER : 0u) |
           (left == right ? CONDITION : 0u);
}

/* 02, item 6: "when the result has an odd number of one bits" */
static inline bool odd_ones(uint32_t byte)
{
    byte ^= byte >> 4;
    byte ^= byte >> 2;
    byte ^= byte >> 1;
    return byte & 1;
}

/* "ADD group: status stored, then result."  02, item 6: "For word adds .. >04 is always set." */
static inline bool add(struct bench *b, uint32_t place, uint32_t width, uint32_t left, uint32_t right)
{
    uint32_t mask = mask_of(width);
    uint32_t sum = (left & mask) + (right & mask);
    uint32_t result = sum & mask;
    uint32_t status = status_of(result, width);

    if (sum > mask)
        status |= CARRY;
    if (~(left ^ right) & (left ^ result) & sign_of(width))
        status |= OVERFLOW;
    if (width == 2 || odd_ones(result))
        status |= PARITY;
    return store_status(b, status) && store_result(b, place, width, result);
}

/* "AND, OR, XOR do the same with carry and overflow 0" */
static inline bool logic(struct bench *b, uint32_t place, uint32_t width, uint32_t value)
{
    uint32_t result = value & mask_of(width);
    return store_status(b, status_of(result, width)) && store_result(b, place, width, result);
}

/* "unsigned, double-width, no status; high half stored, then low" */
static bool multiply(struct bench *b, uint32_t place, uint32_t width, uint32_t left, uint32_t right)
{
    uint32_t mask = mask_of(width);
    uint32_t product = (left & mask) * (right & mask);

    return store_result(b, place, width, product >> (8 * width)) &&
           store_result(b, place + width, width, product & mask);
}

/* One byte read as it stands, with its own range test. */
static inline uint32_t read_byte(struct bench *b, enum space space, uint32_t at)
{
    switch (space) {
    case CPU:
        return at > PAD_LAST ? refuse_value_at(b, BAD_CPU, at) : b->pad[at];
    case VDP:
        return at > VDP_LAST ? refuse_value_at(b, BAD_VDP, at) : b->vdp[at];
    default: /* "GROM source addresses count in 16 bits."  "GROM address beyond the image" */
        at &= 0xFFFF;
        return at >= b->image_len ? refuse_value_at(b, BAD_GROM, at) : image_byte(b, at);
    }
}

static inline enum space space_of(uint32_t place)
{
    return place >= VDP_BASE ? VDP : CPU;
}

static inline uint32_t address_of(uint32_t place)
{
    return place & 0xFFFF;
}

static bool divide(struct bench *b, uint32_t place, uint32_t width, uint32_t left, uint32_t right)
{
    uint32_t high = left & mask_of(width);
    uint32_t divisor = right & mask_of(width);
    uint32_t status = width == 2 ? 1 : 0;
    uint32_t rest = place + width;
    uint32_t low = 0;

    /* "status stored as 0 for bytes, 1 for words, before the dividend's low half is read" */
    if (!store_status(b, status))
        return false;
    for (uint32_t i = 0; i < width; i++) {
        uint32_t byte = read_byte(b, space_of(rest), address_of(rest) + i);
        if (byte == REFUSED)
            return false;
        low = low << 8 | byte;
    }
    /* "If the high half is at least the divisor, status is stored again with >08 added and no more." */
    if (high >= divisor)
        return store_status(b, status | OVERFLOW);
    uint32_t dividend = high << (8 * width) | low;
    /* "Else quotient, then remainder." */
    return store_result(b, place, width, dividend / divisor) &&
           store_result(b, rest, width, dividend % divisor);
}

/* "Shifts: low 4 bits of the count, 0 meaning 16." */
static inline uint32_t shift_count(uint32_t value)
{
    return value % 16 == 0 ? 16 : value % 16;
}

static inline uint32_t shift_right_signed(uint32_t value, uint32_t count)
{
    uint32_t filled = value & 0x8000 ? value | 0xFFFF0000u : value;
    return filled >> count & 0xFFFF;
}

/* "SRL clears a byte's upper half first" */
static inline uint32_t shift_right_logical(uint32_t value, uint32_t count, uint32_t width)
{
    return (value & mask_of(width)) >> count;
}

/* "SRC repeats the byte in it" */
static inline uint32_t rotate_right(uint32_t value, uint32_t count, uint32_t width)
{
    if (width == 1)
        value = (value & 0xFF) * 0x0101;
    return (value >> count | value << (16 - count)) & 0xFFFF;
}

/* ---- instructions ---- */

/* "13 bits within the group, else one byte is skipped" */
static inline bool branch(struct bench *b, uint32_t op, bool taken)
{
    uint32_t low = next_byte(b);
    if (taken)
        b->pc = (uint16_t)((b->pc & 0xE000u) | (op & 0x1F) << 8 | low);
    return store_condition(b, false);
}

/* "B and CALL read the address to load" */
static bool jump(struct bench *b)
{
    b->pc = (uint16_t)next_word(b);
    return store_condition(b, false);
}

/* "(CALL then pushes pc)" */
static bool call(struct bench *b)
{
    uint16_t to = (uint16_t)next_word(b);
    if (!push_pc(b))
        return false;
    b->pc = to;
    return store_condition(b, false);
}

/* "the seed becomes the seed times 28,645 plus 31,417, keeping 16 bits" */
static bool make_random(struct bench *b)
{
    uint32_t seed = (uint32_t)b->pad[SEED] << 8 | b->pad[SEED + 1];
    seed = (seed * 28645u + 31417u) & 0xFFFF;
    if (!store_cpu(b, SEED, seed >> 8) || !store_cpu(b, SEED + 1, seed & 0xFF))
        return false;
    /* ">78 gets the byte-swapped seed modulo (next byte plus 1)" */
    uint32_t swapped = (seed & 0xFF) << 8 | seed >> 8;
    return store_cpu(b, RANDOM_NUMBER, swapped % (next_byte(b) + 1));
}

/* "768 screen bytes from 0, then >7E and >7F become 0" */
static bool fill_screen(struct bench *b)
{
    uint32_t byte = next_byte(b);
    for (uint32_t at = 0; at < 768; at++)
        if (!store_vdp(b, at, byte))
            return false;
    return store_cpu(b, ROW, 0) && store_cpu(b, COLUMN, 0);
}

/* "FETCH: pc is pushed and >73 put back, so the slot above keeps it" */
static bool fetch(struct bench *b, uint32_t place, uint32_t width)
{
    uint32_t pointer = b->pad[CALL_POINTER];

    if (!push_pc(b) || !store_cpu(b, CALL_POINTER, pointer))
        return false;
    /* "the top is the word at the old pointer, >7E included" */
    uint32_t top = (uint32_t)b->pad[pointer] << 8 | b->pad[pointer + 1];
    /* "the byte at its GROM address is read" */
    uint32_t byte = read_byte(b, GROM, top);
    if (byte == REFUSED)
        return false;
    /* "the top word goes up by 1 in 16 bits, unwrapped" */
    top = (top + 1) & 0xFFFF;
    return store_cpu(b, pointer, top >> 8) &&
           store_cpu(b, pointer + 1, top & 0xFF) &&
           store_result(b, place, width, extend(byte));
}

/* "CASE adds twice the value to pc's low 13 bits, after its operand." */
static bool choose(struct bench *b, uint32_t value)
{
    b->pc = (uint16_t)((b->pc & 0xE000u) | ((b->pc + 2 * value) & 0x1FFFu));
    return store_condition(b, false);
}

/* "PUSH: >72 up by 1 must be >A0 to >BF, then the low byte." */
static bool push_byte(struct bench *b, uint32_t value)
{
    uint32_t pointer = (b->pad[DATA_POINTER] + 1u) & 0xFF;
    if (pointer < 0xA0 || pointer > 0xBF)
        return refuse(b, BAD_STACK);
    return store_cpu(b, DATA_POINTER, pointer) && store_cpu(b, pointer, value);
}

/* One byte of a MOVE goes to its place. */
static inline bool move_store(struct bench *b, enum space space, uint32_t at, uint32_t byte)
{
    switch (space) {
    case CPU:
        return store_cpu(b, at, byte);
    case VDP:
        return store_vdp(b, at, byte);
    case GROM:
        return store_grom(b, at, byte);
    default:
        /* "A byte for register 1 has bit >80 set and goes to >D4 first, then to the register." */
        if (at == 1) {
            byte |= 0x80;
            if (!store_cpu(b, REGISTER_1_COPY, byte))
                return false;
        }
        return store_reg(b, at, byte);
    }
}

/* Where a MOVE's bytes come from or go to. */
struct end {
    enum space space;
    uint32_t at;
};

/* "its source and destination operands only name a place" */
static bool move_operand(struct bench *b, struct end *end)
{
    uint32_t place = decode(b, 1);
    if (place == REFUSED)
        return false;
    *end = (struct end){space_of(place), address_of(place)};
    return true;
}

/* "length (bit 0: two bytes, else a word operand)" */
static inline uint32_t move_length(struct bench *b, uint32_t op)
{
    return op & 1 ? next_word(b) : word_operand(b);
}

/* "destination (bit 3: a register number)"; 02, item 9: "Opcodes >20 to >25 become MOVE into GROM" */
static inline bool move_destination(struct bench *b, uint32_t op, struct end *to)
{
    if (op < 0x30)
        *to = (struct end){GROM, next_word(b)};
    else if (op & 8)
        *to = (struct end){REG, next_byte(b)};
    else
        return move_operand(b, to);
    return true;
}

/* "source (bit 2: operand; else a two-byte GROM address, with bit 1 a further byte naming a pad word to add)" */
static inline bool move_source(struct bench *b, uint32_t op, struct end *from)
{
    if (op & 4)
        return move_operand(b, from);
    *from = (struct end){GROM, next_word(b)};
    if (op & 2) {
        uint32_t index = pad_word(b, next_byte(b));
        if (index == REFUSED)
            return false;
        from->at += index;
    }
    return true;
}

/* "bytes go one by one" */
static bool move_bytes(struct bench *b, uint32_t count, struct end to, struct end from)
{
    for (uint32_t i = 0; i < count; i++) {
        uint32_t byte = read_byte(b, from.space, from.at + i);
        if (byte == REFUSED || !move_store(b, to.space, to.at + i, byte))
            return false;
    }
    return true;
}

/* "MOVE: length, destination, source" */
static bool move(struct bench *b, uint32_t op)
{
    struct end to, from;
    uint32_t length = move_length(b, op);

    if (length == REFUSED || !move_destination(b, op, &to) || !move_source(b, op, &from))
        return false;
    /* "L from 1 to >8000 moves L bytes, any other moves one." */
    uint32_t count = length >= 1 && length <= 0x8000 ? length : 1;
    /* "pc is pushed, bytes go one by one, pc is popped from wherever >73 then points" */
    return push_pc(b) && move_bytes(b, count, to, from) && pop_pc(b);
}

/* ---- format strings ---- */

/* "row (modulo 256) and column are stored" */
static inline bool store_position(struct bench *b, uint32_t position)
{
    return store_cpu(b, ROW, position / 32 & 0xFF) && store_cpu(b, COLUMN, position % 32);
}

/* "A character plus bias (modulo 256) is stored to the screen" */
static inline bool show(struct bench *b, uint32_t character, uint32_t pace)
{
    uint32_t position = screen_position(b);
    if (!store_vdp(b, position, character & 0xFF))
        return false;
    position += pace; /* "the position grows by 1 or 32" */
    if (position >= 0x300 && position <= 0x31F)
        position -= 0x300; /* ">300 to >31F loses >300, >320 and up doesn't" */
    return store_position(b, position);
}

/* ">00 text across, >20 text down" */
static bool show_text(struct bench *b, uint32_t bias, uint32_t count, uint32_t pace)
{
    for (; count > 0; count--)
        if (!show(b, next_byte(b) + bias, pace))
            return false;
    return true;
}

/* ">40 one character repeated across, >60 down" */
static bool show_repeated(struct bench *b, uint32_t bias, uint32_t count, uint32_t pace)
{
    uint32_t character = next_byte(b) + bias;
    for (; count > 0; count--)
        if (!show(b, character, pace))
            return false;
    return true;
}

/* "A skip loses >300 once from >300 up, then stores row and column likewise." */
static bool skip(struct bench *b, uint32_t distance)
{
    uint32_t position = screen_position(b) + distance;
    if (position >= 0x300)
        position -= 0x300;
    return store_position(b, position);
}

/* "a format operand decoded to a VDP cell" answers 4; 02, item 2: "of a format operand, its VDP cell" */
static uint32_t format_operand(struct bench *b)
{
    uint32_t place = decode(b, 1);
    if (place != REFUSED && space_of(place) == VDP)
        return refuse_value_at(b, BAD_CPU, address_of(place));
    return place;
}

/* ">E0 to >FA: text across from a CPU operand" */
static bool show_operand(struct bench *b, uint32_t bias, uint32_t count)
{
    uint32_t at = format_operand(b);
    if (at == REFUSED)
        return false;
    for (uint32_t i = 0; i < count; i++) {
        uint32_t character = read_byte(b, CPU, at + i);
        if (character == REFUSED || !show(b, character + bias, 1))
            return false;
    }
    return true;
}

/* "A block raises >73 by 2 (push test) and stores 256 minus the count there." */
static bool open_block(struct bench *b, uint32_t count)
{
    uint32_t pointer;
    return raise_pointer(b, &pointer) && store_cpu(b, pointer, 256 - count);
}

/* "An end inside a block reads two address bytes, adds 1 to that byte;
   at 0 it lowers >73, else pc goes there." */
static bool end_block(struct bench *b, uint32_t *blocks)
{
    uint16_t to = (uint16_t)next_word(b);
    uint32_t pointer = b->pad[CALL_POINTER];
    uint32_t count = (b->pad[pointer] + 1u) & 0xFF;

    if (!store_cpu(b, pointer, count))
        return false;
    if (count != 0) {
        b->pc = to;
        return true;
    }
    --*blocks;
    return store_cpu(b, CALL_POINTER, pointer - 2);
}

/* "Row and column codes store both first, then the new byte." */
static bool set_position(struct bench *b, uint32_t cell)
{
    return store_position(b, screen_position(b)) && store_cpu(b, cell, next_byte(b));
}

static bool format(struct bench *b)
{
    uint32_t bias = 0; /* "Bias starts at 0." */
    uint32_t blocks = 0;

    for (uint32_t codes = 0; codes < FORMAT_CODES; codes++) {
        if (b->pc >= b->image_len)
            return refuse_at(b, BAD_GROM, b->pc);
        uint32_t code = next_byte(b);
        uint32_t count = (code & 0x1F) + 1; /* "Code n is the low 5 bits, count n+1" */
        bool good;

        switch (code >> 5) {
        case 0:
            good = show_text(b, bias, count, 1);
            break;
        case 1:
            good = show_text(b, bias, count, 32);
            break;
        case 2:
            good = show_repeated(b, bias, count, 1);
            break;
        case 3:
            good = show_repeated(b, bias, count, 32);
            break;
        case 4: /* ">80 skip across" */
            good = skip(b, count);
            break;
        case 5: /* ">A0 skip down" */
            good = skip(b, count * 32);
            break;
        case 6: /* ">C0 block" */
            good = open_block(b, count);
            blocks++;
            break;
        default:
            switch (code) {
            case 0xFB: /* "An end outside stores row and column." */
                if (blocks == 0)
                    return store_position(b, screen_position(b));
                good = end_block(b, &blocks);
                break;
            case 0xFC: /* ">FC bias from GROM" */
                bias = next_byte(b);
                good = true;
                break;
            case 0xFD: { /* ">FD from a CPU operand" */
                uint32_t at = format_operand(b);
                good = at != REFUSED;
                if (good)
                    bias = b->pad[at];
                break;
            }
            case 0xFE: /* ">FE row" */
                good = set_position(b, ROW);
                break;
            case 0xFF: /* ">FF column" */
                good = set_position(b, COLUMN);
                break;
            default:
                good = show_operand(b, bias, count);
                break;
            }
        }
        if (!good)
            return false;
    }
    return refuse(b, LONG_FORMAT); /* "a 16,385th format code in one FMT, before it is read" */
}

/* ---- COINC: 02, item 3 ---- */

/* "(source minus destination, as signed bytes) are shifted down by the granularity",
   rounding down; "the table's two size bytes are added as unsigned" */
static inline int32_t sum_along(uint32_t source, uint32_t destination, uint32_t granularity, uint32_t size)
{
    int32_t difference = (int8_t)(uint8_t)(source - destination);
    int32_t unit = 1 << granularity;
    int32_t below = difference < 0 ? unit - 1 : 0;
    return (difference - below) / unit + (int32_t)size;
}

/* "each sum must lie from 0 to its limit" */
static inline bool within(int32_t sum, uint32_t limit)
{
    return sum >= 0 && (uint32_t)sum <= limit;
}

/* "two word operands as row and column pairs, then a granularity byte and a table address" */
static bool coincide(struct bench *b)
{
    uint32_t head[4]; /* limits of rows and columns, their sizes */
    uint32_t destination = word_operand(b);
    if (destination == REFUSED)
        return false;
    uint32_t source = word_operand(b);
    if (source == REFUSED)
        return false;
    uint32_t granularity = next_byte(b);
    if (granularity > 7)
        return refuse(b, TOO_COARSE); /* "before the table address is read" */
    uint32_t table = next_word(b);
    if (!push_pc(b)) /* "pc is pushed before the table is read" */
        return false;
    for (uint32_t i = 0; i < 4; i++) {
        head[i] = read_byte(b, GROM, table + i); /* "Table addresses count in 16 bits." */
        if (head[i] == REFUSED)
            return false;
    }
    int32_t row = sum_along(source >> 8, destination >> 8, granularity, head[2]);
    int32_t column = sum_along(source & 0xFF, destination & 0xFF, granularity, head[3]);
    bool set = false; /* "outside it is cleared" */
    if (within(row, head[0]) && within(column, head[1])) {
        uint32_t bit = (uint32_t)row * (head[1] + 1) + (uint32_t)column; /* "row by row" */
        uint32_t byte = read_byte(b, GROM, table + 4 + bit / 8);
        if (byte == REFUSED)
            return false;
        set = (byte << bit % 8 & 0x80) != 0; /* "counted from the left" */
    }
    return store_condition(b, set) && pop_pc(b); /* "popped after that store" */
}

/* ---- sound lists: 02, item 10 ---- */

/* "goes to >CC, then 1 to >CE": address and count, which a tick stores likewise */
static inline bool store_list(struct bench *b, uint32_t address, uint32_t count)
{
    return store_cpu(b, LIST_ADDRESS, address >> 8 & 0xFF) &&
           store_cpu(b, LIST_ADDRESS + 1, address & 0xFF) &&
           store_cpu(b, LIST_COUNT, count);
}

/* "start a list when the source is 0 (GROM) or 1 (VDP RAM)" */
static bool start_list(struct bench *b, uint32_t place, uint32_t function)
{
    /* "Other functions, or a VDP destination, answer 3 after the mark and the operands." */
    if (function > 1 || space_of(place) == VDP)
        return refuse(b, NEEDS_HOST);
    uint32_t address = pad_word(b, place);
    if (address == REFUSED || !store_list(b, address, 1))
        return false;
    b->source = function == 1 ? MARK_SOURCE : 0; /* past every refusal, so no refused step has changed it */
    return true;
}

/* "a lent output", of which so many bytes are sent */
struct output {
    uint8_t *bytes;
    size_t len;
    size_t sent;
};

/* The next byte of a list, which goes on after it: "List addresses count in 16 bits." */
static inline uint32_t list_byte(struct bench *b, struct end *list)
{
    return read_byte(b, list->space, list->at++ & 0xFFFF);
}

/* "send the next block's bytes to a lent output" */
static bool send_bytes(struct bench *b, struct end *list, uint32_t size, struct output *out)
{
    for (; size > 0; size--) {
        uint32_t byte = list_byte(b, list);
        if (byte == REFUSED)
            return false;
        if (out->sent == out->len)
            return refuse(b, OUTPUT_FULL); /* "after 6 or 5 for the byte concerned" */
        out->bytes[out->sent++] = (uint8_t)byte;
    }
    return true;
}

/* "take a size of 0 as a new address and >FF as a change of source with a new address";
   both bytes of it are read where the size was */
static bool go_on_elsewhere(struct bench *b, struct end *list, bool other)
{
    uint32_t high = list_byte(b, list);
    uint32_t low = high == REFUSED ? REFUSED : list_byte(b, list);
    if (low == REFUSED)
        return false;
    if (other)
        list->space = list->space == VDP ? GROM : VDP;
    list->at = high << 8 | low;
    return true;
}

/* One block of a list, after which the list stands at the next one.  *count: what >CE gets. */
static bool play_block(struct bench *b, struct end *list, struct output *out, uint32_t *count)
{
    uint32_t size = list_byte(b, list);

    if (size == REFUSED)
        return false;
    if (size == 0 || size == 0xFF) {
        *count = 1; /* "either ends the tick with 1 in >CE" */
        return go_on_elsewhere(b, list, size == 0xFF);
    }
    if (!send_bytes(b, list, size, out))
        return false;
    *count = list_byte(b, list);
    return *count != REFUSED;
}

/* "A due GROM block is read between a push and a pop of pc." */
static bool due_block(struct bench *b, struct output *out)
{
    bool in_grom = b->source == 0; /* where the tick began, also if the block changes the source */
    struct end list = {in_grom ? GROM : VDP, (uint32_t)b->pad[LIST_ADDRESS] << 8 | b->pad[LIST_ADDRESS + 1]};
    uint32_t count;

    if (in_grom && !push_pc(b))
        return false;
    if (!play_block(b, &list, out, &count) || !store_list(b, list.at, count) || (in_grom && !pop_pc(b)))
        return false;
    b->source = list.space == VDP ? MARK_SOURCE : 0; /* past every refusal here too */
    return true;
}

/* "count down", and at 0 the block is due; "end on a count of 0": then there is nothing to count */
static bool count_down(struct bench *b, struct output *out)
{
    uint32_t count = b->pad[LIST_COUNT];

    if (count == 0)
        return true;
    return store_cpu(b, LIST_COUNT, count - 1) && (count > 1 || due_block(b, out));
}

/* ---- one step ---- */

/* >80 to >97: one operand; "From >80 on, bit 0 means word." */
static inline bool one_operand(struct bench *b, uint32_t op)
{
    uint32_t width = 1 + (op & 1);
    uint32_t p = decode(b, width);
    if (p == REFUSED)
        return false;
    uint32_t value = read_value(b, p, width); /* "Every operand is read, also one only stored to." */
    if (value == REFUSED)
        return false;
    switch (op & 0xFE) {
    case 0x80: /* ABS */
        return store_result(b, p, width, value & 0x8000 ? 0x10000 - value : value);
    case 0x82: /* NEG */
        return store_result(b, p, width, 0x10000 - value);
    case 0x84: /* INV */
        return store_result(b, p, width, ~value);
    case 0x86: /* CLR */
        return store_result(b, p, width, 0);
    case 0x88: /* FETCH */
        return fetch(b, p, width);
    case 0x8A: /* CASE */
        return choose(b, value);
    case 0x8C: /* PUSH */
        return push_byte(b, value);
    case 0x8E: /* "CZ (value against 0)" */
        return store_status(b, status_of_pair(value, 0));
    case 0x90: /* "INC to DECT add 1, -1, 2, -2." */
        return add(b, p, width, value, 1);
    case 0x92:
        return add(b, p, width, value, 0xFFFF);
    case 0x94:
        return add(b, p, width, value, 2);
    default:
        return add(b, p, width, value, 0xFFFE);
    }
}

/* >A0 to >EB, and >F4 to >F7: "Two, destination first, bit 1 meaning immediate source" */
static inline bool two_operands(struct bench *b, uint32_t op)
{
    uint32_t width = 1 + (op & 1);
    uint32_t p = decode(b, width);
    if (p == REFUSED)
        return false;
    uint32_t left = read_value(b, p, width);
    if (left == REFUSED)
        return false;

    uint32_t q = REFUSED, right;
    if (op & 2) {
        right = width == 1 ? extend(next_byte(b)) : next_word(b);
    } else {
        q = decode(b, width);
        if (q == REFUSED)
            return false;
        right = read_value(b, q, width);
        if (right == REFUSED)
            return false;
    }

    switch (op & 0xFC) {
    case 0xA0: /* ADD */
        return add(b, p, width, left, right);
    case 0xA4: /* "SUB adds the two's complement: taking 0 gives no carry." */
        return add(b, p, width, left, 0x10000 - right);
    case 0xA8: /* MUL */
        return multiply(b, p, width, left, right);
    case 0xAC: /* DIV */
        return divide(b, p, width, left, right);
    case 0xB0: /* AND */
        return logic(b, p, width, left & right);
    case 0xB4: /* OR */
        return logic(b, p, width, left | right);
    case 0xB8: /* XOR */
        return logic(b, p, width, left ^ right);
    case 0xBC: /* ST */
        return store_result(b, p, width, right);
    case 0xC0: /* "EX stores destination first." */
        return store_result(b, p, width, right) && store_result(b, q, width, left);
    case 0xC4: /* "CH, CHE (unsigned)" */
        return store_condition(b, left > right);
    case 0xC8:
        return store_condition(b, left >= right);
    case 0xCC: /* "CGT, CGE (signed)" */
        return store_condition(b, (int16_t)left > (int16_t)right);
    case 0xD0:
        return store_condition(b, (int16_t)left >= (int16_t)right);
    case 0xD4: /* "CEQ (destination against source)" */
        return store_status(b, status_of_pair(left, right));
    case 0xD8: /* "CLOG (AND is zero)" */
        return store_condition(b, (left & right) == 0);
    case 0xDC: /* SRA */
        return store_result(b, p, width, shift_right_signed(left, shift_count(right)));
    case 0xE0: /* SLL */
        return store_result(b, p, width, left << shift_count(right));
    case 0xE4: /* SRL */
        return store_result(b, p, width, shift_right_logical(left, shift_count(right), width));
    case 0xF4: /* I/O; 02, item 10: "two operands in 01's way" */
        return start_list(b, p, right);
    default: /* SRC */
        return store_result(b, p, width, rotate_right(left, shift_count(right), width));
    }
}

static inline bool execute(struct bench *b, uint32_t op)
{
    if (op == 0xED)
        return coincide(b);
    if (op >= 0xA0)
        return two_operands(b, op);
    if (op >= 0x80)
        return one_operand(b, op);
    if (op >= 0x60) /* "BS if set" */
        return branch(b, op, (b->pad[STATUS] & CONDITION) != 0);
    if (op >= 0x40) /* "BR taken if condition is clear" */
        return branch(b, op, (b->pad[STATUS] & CONDITION) == 0);
    if (op >= 0x20)
        return move(b, op);
    switch (op) {
    case 0x00: /* RTN: a cleared condition "before its pop" */
        return store_condition(b, false) && pop_pc(b);
    case 0x01: /* "RTNC doesn't." */
        return pop_pc(b);
    case 0x02:
        return make_random(b);
    case 0x04: /* "BACK: register 7." */
        return store_reg(b, 7, next_byte(b));
    case 0x05:
        return jump(b);
    case 0x06:
        return call(b);
    case 0x07:
        return fill_screen(b);
    case 0x08:
        return format(b);
    case 0x09: /* H: "the four bit tests change only the condition bit" */
        return store_condition(b, (b->pad[STATUS] & HIGH) != 0);
    case 0x0A: /* GT */
        return store_condition(b, (b->pad[STATUS] & GREATER) != 0);
    case 0x0C: /* CARRY */
        return store_condition(b, (b->pad[STATUS] & CARRY) != 0);
    default: /* OVF */
        return store_condition(b, (b->pad[STATUS] & OVERFLOW) != 0);
    }
}

/* Answers 2, 3 and 1, which the opcode alone gives; else 0. */
static inline uint8_t opcode_answer(uint32_t op)
{
    if (op >= 0xF4 && op <= 0xF7)
        return DONE; /* 02, item 10: 3 only "after the mark and the operands" */
    if (op >= 0xEC)
        return op == 0xED ? DONE : NO_INSTRUCTION; /* "Other opcodes >EC to >EF still answer 2." */
    if (op >= 0xA0)
        return (op & 0xFE) == 0xC2 ? NO_INSTRUCTION : DONE; /* "Immediate EX" */
    if (op >= 0x98)
        return NO_INSTRUCTION;
    if (op >= 0x40)
        return DONE;
    if (op >= 0x30)
        return (op & 6) == 6 ? NO_INSTRUCTION : DONE; /* ">36, >37, >3E, >3F" */
    if (op >= 0x20)
        return op <= 0x25 ? DONE : NO_INSTRUCTION; /* 02, item 9: ">26 to >2F still answer 2" */
    if (op == 0x03 || op == 0x0F)
        return NEEDS_HOST; /* "needs the host: >03, >0F, .." */
    if (op == 0x0B)
        return ENDED; /* "opcode >0B (EXIT); nothing changes, pc stays on it" */
    return op <= 0x0D ? DONE : NO_INSTRUCTION;
}

/* The address of a journal word, between its kind and its byte. */
static inline uint32_t address_in(uint32_t word)
{
    return word >> 8 & 0x1FFFFF;
}

/* Takes so many words off the top of the journal: each cell gets back the byte that stood there. */
static inline void take_off(struct bench *b, size_t count)
{
    uint8_t *const memory[] = {
        [KIND_CPU] = b->pad, [KIND_VDP] = b->vdp, [KIND_REG] = b->reg, [KIND_MARK] = NULL, [KIND_GROM] = b->image};

    for (; count > 0; count--) {
        uint32_t *top = &b->journal[slot(b, --b->used)];
        uint32_t word = *top;
        *top = 0;
        if (!is_mark(word)) /* a mark names no cell */
            memory[word >> KIND_SHIFT][address_in(word)] = (uint8_t)word;
    }
}

/* "A step takes a mark word first": it "carries the old pc in its low 16 bits", and above them the old source flag. */
static inline bool lay_mark(struct bench *b)
{
    return lay(b, KIND_MARK << KIND_SHIFT | b->source | b->pc);
}

/* Everything of a step that moves pc or stores; put back by its caller if refused. */
static inline bool attempt(struct bench *b)
{
    uint16_t pc = b->pc;

    if (pc >= b->image_len)
        return refuse_at(b, BAD_GROM, pc);
    uint32_t op = image_byte(b, pc);
    uint8_t answer = opcode_answer(op);
    if (answer != DONE)
        return refuse(b, answer);
    if (!lay_mark(b)) /* "for every opcode that 2, 3 and 1 don't stop" */
        return false;
    b->pc = after(pc);
    return execute(b, op);
}

/* "A refused step puts all back; the journal words it had taken become 0."
   02, item 5: "a refused step, 10 included, has still lost them", item 9: "returns the image too". */
static inline void put_back(struct bench *b, uint16_t pc)
{
    take_off(b, b->used - b->older);
    b->pc = pc;
}

/* False if the step was refused: then why and where are set. */
static inline bool step(struct bench *b)
{
    uint16_t pc = b->pc;

    b->older = b->used;
    if (attempt(b))
        return true;
    put_back(b, pc);
    return false;
}

/* "A tick is a step": its mark first, also where nothing is stored.  False if it was refused. */
static bool tick(struct bench *b, struct output *out)
{
    uint16_t pc = b->pc;

    b->older = b->used;
    if (lay_mark(b) && count_down(b, out))
        return true;
    put_back(b, pc);
    while (out->sent > 0) /* "a refused tick zeroes what it wrote there" */
        out->bytes[--out->sent] = 0;
    return false;
}

/* ---- the calls ---- */

/* "1 to 8 groups of 8,192 bytes" */
static bool bad_image(size_t image_len)
{
    return image_len == 0 || image_len > (size_t)MAX_GROUPS * GROUP_LEN || image_len % GROUP_LEN != 0;
}

/* "(11 if not 0 and past the journal)", in a ring: the plain mode doesn't look at it */
static bool bad_place(size_t journal_len, uint8_t ring, size_t place)
{
    return ring != 0 && place != 0 && place >= journal_len;
}

/* "a lent part has a wrong length, or used exceeds the journal" */
static bool bad_lengths(size_t image_len, size_t pad_len, size_t vdp_len, size_t reg_len, size_t journal_len,
                        size_t used)
{
    return bad_image(image_len) || pad_len != PAD_LEN || vdp_len != VDP_LEN || reg_len != REG_LEN ||
           journal_len > JOURNAL_MAX || used > journal_len;
}

/* The machine that a call is lent, with nothing refused and no map. */
static struct bench lent(uint8_t *image, size_t image_len, uint8_t *pad, uint8_t *vdp, uint8_t *reg,
                         uint32_t *journal, size_t journal_len,
                         uint16_t pc, size_t used, uint8_t ring, size_t place, uint8_t writable, uint8_t source)
{
    return (struct bench){
        .image = image,
        .pad = pad,
        .vdp = vdp,
        .reg = reg,
        .journal = journal,
        .journal_len = journal_len,
        .ring = ring != 0,
        .place = ring ? place : 0,
        .used = used,
        .image_len = (uint32_t)image_len,
        .pc = pc,
        .source = source ? MARK_SOURCE : 0,
        .writable = writable,
        .why = DONE,
        .where = 0,
        .map = NULL,
    };
}

/* "A run makes up to n steps, stops at the first answer other than 0"; place: as it was lent */
static inline peer_report run(struct bench *b, size_t place, uint32_t n)
{
    uint32_t steps = 0;
    uint64_t stores = 0;

    for (; steps < n && step(b); steps++)
        stores += b->used - b->older - 1; /* each step done took one mark; every other word is a store */
    return (peer_report){b->why, b->pc, b->used, steps, stores, b->where, b->ring ? b->place : place, b->source != 0};
}

peer_report peer_run(uint8_t *image, size_t image_len,
                     uint8_t *pad, size_t pad_len,
                     uint8_t *vdp, size_t vdp_len,
                     uint8_t *reg, size_t reg_len,
                     uint32_t *journal, size_t journal_len,
                     uint16_t pc, size_t used, uint8_t ring, size_t place, uint8_t writable, uint8_t source,
                     uint32_t n)
{
    /* "Answer 11 is tested first and touches nothing." */
    if (bad_lengths(image_len, pad_len, vdp_len, reg_len, journal_len, used) || bad_place(journal_len, ring, place))
        return (peer_report){BAD_LENGTH, pc, used, 0, 0, 0, place, source != 0};

    struct bench b = lent(image, image_len, pad, vdp, reg, journal, journal_len, pc, used, ring, place, writable, source);
    return run(&b, place, n);
}

peer_report peer_run_mapped(uint8_t *image, size_t image_len,
                            uint8_t *map, size_t map_len,
                            uint8_t *pad, size_t pad_len,
                            uint8_t *vdp, size_t vdp_len,
                            uint8_t *reg, size_t reg_len,
                            uint32_t *journal, size_t journal_len,
                            uint16_t pc, size_t used, uint8_t ring, size_t place, uint8_t writable, uint8_t source,
                            uint32_t n)
{
    if (bad_lengths(image_len, pad_len, vdp_len, reg_len, journal_len, used) || bad_place(journal_len, ring, place) ||
        map_len != image_len)
        return (peer_report){BAD_LENGTH, pc, used, 0, 0, 0, place, source != 0};

    struct bench b = lent(image, image_len, pad, vdp, reg, journal, journal_len, pc, used, ring, place, writable, source);
    b.map = map;
    return run(&b, place, n);
}

peer_report peer_step(uint8_t *image, size_t image_len,
                      uint8_t *pad, size_t pad_len,
                      uint8_t *vdp, size_t vdp_len,
                      uint8_t *reg, size_t reg_len,
                      uint32_t *journal, size_t journal_len,
                      uint16_t pc, size_t used, uint8_t ring, size_t place, uint8_t writable, uint8_t source)
{
    return peer_run(image, image_len, pad, pad_len, vdp, vdp_len, reg, reg_len,
                    journal, journal_len, pc, used, ring, place, writable, source, 1);
}

peer_report peer_tick(uint8_t *image, size_t image_len,
                      uint8_t *pad, size_t pad_len,
                      uint8_t *vdp, size_t vdp_len,
                      uint8_t *reg, size_t reg_len,
                      uint32_t *journal, size_t journal_len,
                      uint16_t pc, size_t used, uint8_t ring, size_t place, uint8_t writable, uint8_t source,
                      uint8_t *output, size_t output_len, size_t *sent)
{
    *sent = 0;
    if (bad_lengths(image_len, pad_len, vdp_len, reg_len, journal_len, used) || bad_place(journal_len, ring, place))
        return (peer_report){BAD_LENGTH, pc, used, 0, 0, 0, place, source != 0};

    struct bench b = lent(image, image_len, pad, vdp, reg, journal, journal_len, pc, used, ring, place, writable, source);
    struct output out = {output, output_len, 0};
    bool done = tick(&b, &out);
    *sent = out.sent;
    return (peer_report){b.why, b.pc, b.used, done ? 1 : 0, done ? b.used - b.older - 1 : 0, b.where,
                         ring ? b.place : place, b.source != 0};
}

/* "names no cell (pad above >DF, register above 7, VDP above >3FFF) or has a surplus bit";
   02, item 9: "kinds 5 to 7 and kind 4 outside those groups or beyond the image" */
static bool sound(uint32_t word, size_t image_len, uint8_t writable)
{
    uint32_t at = address_in(word);
    switch (word >> KIND_SHIFT) {
    case KIND_CPU:
        return at <= PAD_LAST;
    case KIND_VDP:
        return at <= VDP_LAST;
    case KIND_REG:
        return at <= REG_LAST;
    case KIND_MARK:
        return (word & MARK_SURPLUS) == 0;
    case KIND_GROM:
        return at < image_len && may_write(writable, at);
    default:
        return false;
    }
}

/* How many words the newest record has; 0 if there is none or one of them isn't sound. */
static size_t newest_record(const struct bench *b)
{
    for (size_t count = 1; count <= b->used; count++) {
        uint32_t word = b->journal[slot(b, b->used - count)];
        if (!sound(word, b->image_len, b->writable))
            return 0;
        if (is_mark(word))
            return count;
    }
    return 0;
}

peer_report peer_step_back(uint8_t *image, size_t image_len,
                           uint8_t *pad, size_t pad_len,
                           uint8_t *vdp, size_t vdp_len,
                           uint8_t *reg, size_t reg_len,
                           uint32_t *journal, size_t journal_len,
                           uint16_t pc, size_t used, uint8_t ring, size_t place, uint8_t writable, uint8_t source)
{
    if (bad_lengths(image_len, pad_len, vdp_len, reg_len, journal_len, used) || bad_place(journal_len, ring, place))
        return (peer_report){BAD_LENGTH, pc, used, 0, 0, 0, place, source != 0};

    struct bench b = lent(image, image_len, pad, vdp, reg, journal, journal_len, pc, used, ring, place, writable, source);
    /* "takes words from the top down to the newest mark" */
    size_t count = newest_record(&b);
    if (count == 0)
        return (peer_report){NO_RECORD, pc, used, 0, 0, 0, place, source != 0};
    /* "restores each, sets pc, zeroes them"; 02, item 10: "step-back sets it with pc" */
    uint32_t mark = journal[slot(&b, used - count)];
    take_off(&b, count);
    return (peer_report){DONE, (uint16_t)mark, b.used, 0, 0, 0, place, (mark & MARK_SOURCE) != 0};
}

size_t peer_view(size_t pad_len, size_t vdp_len, int memory,
                 size_t at, size_t len, size_t *offset)
{
    /* "the reachable range" of the memory asked for */
    size_t reach = memory == 0 ? PAD_LAST + 1 : memory == 1 ? VDP_LAST + 1 : 0;

    *offset = 0;
    /* "it is empty unless all lie in the reachable range of memories of the right length" */
    if (pad_len != PAD_LEN || vdp_len != VDP_LEN || at > reach || len > reach - at || len == 0)
        return 0;
    *offset = at;
    return len;
}

/* ---- who wrote a cell: 02, item 7 ---- */

/* The kept words of a journal that is only read, the oldest first. */
struct kept {
    const uint32_t *journal;
    size_t len;
    size_t place;
    size_t used;
};

static uint32_t kept_word(const struct kept *k, size_t i)
{
    size_t before_end = k->len - k->place;
    return k->journal[i < before_end ? k->place + i : i - before_end];
}

/* "12 if any record below the used count is unsound by step-back's rule or a word has no mark below it" */
static bool all_sound(const struct kept *k, size_t image_len, uint8_t writable)
{
    for (size_t i = 0; i < k->used; i++)
        if (!sound(kept_word(k, i), image_len, writable))
            return false;
    return k->used == 0 || is_mark(kept_word(k, 0));
}

/* "name the newest kept step that stored to it": from the top down, and from that store on to its own step's mark */
static peer_wrote newest_store(const struct kept *k, uint32_t cell)
{
    peer_wrote w = {DONE, 0, 0, 0, 0, 0};

    for (size_t i = k->used; i > 0; i--) {
        uint32_t word = kept_word(k, i - 1);
        if (is_mark(word) && w.found) {
            w.pc = word & 0xFFFF;
            return w;
        }
        if (is_mark(word)) {
            w.after++; /* "by how many kept steps came after" */
        } else if (word >> 8 == cell) { /* "A store of an equal byte counts." */
            w.found = 1;
            w.before = word & 0xFF; /* before the step, so the lowest word's */
        }
    }
    return (peer_wrote){DONE, 0, 0, 0, 0, 0}; /* "none kept" */
}

peer_wrote peer_who_wrote(const uint8_t *image, size_t image_len,
                          const uint8_t *pad, size_t pad_len,
                          const uint8_t *vdp, size_t vdp_len,
                          const uint8_t *reg, size_t reg_len,
                          const uint32_t *journal, size_t journal_len,
                          size_t used, uint8_t ring, size_t place, uint8_t writable,
                          uint8_t memory, uint16_t at)
{
    const uint8_t *const memories[] = {
        [KIND_CPU] = pad, [KIND_VDP] = vdp, [KIND_REG] = reg, [KIND_MARK] = NULL, [KIND_GROM] = image};

    if (bad_lengths(image_len, pad_len, vdp_len, reg_len, journal_len, used) || bad_place(journal_len, ring, place))
        return (peer_wrote){BAD_LENGTH, 0, 0, 0, 0, 0};

    struct kept kept = {journal, journal_len, ring ? place : 0, used};
    if (!all_sound(&kept, image_len, writable))
        return (peer_wrote){NO_RECORD, 0, 0, 0, 0, 0};
    /* As words have it, above their byte.  A cell that isn't there has no sound word, so none is found. */
    peer_wrote w = newest_store(&kept, (uint32_t)memory << (KIND_SHIFT - 8) | at);
    if (w.found)
        w.left = memories[memory][at]; /* no later kept step stored there */
    return w;
}
