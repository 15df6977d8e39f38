/* A bench machine for the graphics programming language of document 01. */
#ifndef PEER_H
#define PEER_H

#include <stddef.h>
#include <stdint.h>

/* What a call says: 01's answer number, pc, the journal's used count,
   the steps done, the byte stores those steps made, the address that was
   turned down with 4, 5 or 6 (02, item 2), else 0, the place of the
   oldest kept word (02, item 5), and the source flag, 0 or 1 (02, item 10). */
typedef struct {
    uint8_t answer;
    uint16_t pc;
    size_t used;
    uint32_t steps;
    uint64_t stores;
    uint16_t address;
    size_t place;
    uint8_t source;
} peer_report;

/* One instruction at pc.  ring 0: the journal is plain, and place is handed
   back as it is; else its kept words begin at place and go on at its start
   (02, item 5).  writable has bit g set for each group g of the image that
   may be written (02, item 9).  source: the sound list is in GROM if 0, else
   in VDP RAM (02, item 10). */
peer_report peer_step(uint8_t *image, size_t image_len,
                      uint8_t *pad, size_t pad_len,
                      uint8_t *vdp, size_t vdp_len,
                      uint8_t *reg, size_t reg_len,
                      uint32_t *journal, size_t journal_len,
                      uint16_t pc, size_t used, uint8_t ring, size_t place, uint8_t writable, uint8_t source);

/* Up to n instructions; stops at the first answer other than 0. */
peer_report peer_run(uint8_t *image, size_t image_len,
                     uint8_t *pad, size_t pad_len,
                     uint8_t *vdp, size_t vdp_len,
                     uint8_t *reg, size_t reg_len,
                     uint32_t *journal, size_t journal_len,
                     uint16_t pc, size_t used, uint8_t ring, size_t place, uint8_t writable, uint8_t source,
                     uint32_t n);

/* The same run, and which bytes of the image its rules read (02, item 13): each
   gets 1 in map, the others there stay as they are.  11 also if map hasn't one
   byte for each of the image. */
peer_report peer_run_mapped(uint8_t *image, size_t image_len,
                            uint8_t *map, size_t map_len,
                            uint8_t *pad, size_t pad_len,
                            uint8_t *vdp, size_t vdp_len,
                            uint8_t *reg, size_t reg_len,
                            uint32_t *journal, size_t journal_len,
                            uint16_t pc, size_t used, uint8_t ring, size_t place, uint8_t writable, uint8_t source,
                            uint32_t n);

/* One tick of the sound list (02, item 10).  Its bytes go to output from the
   first on, *sent of them; the others stay as they are.  A refused tick
   leaves 0 in those that it had written, and *sent is 0. */
peer_report peer_tick(uint8_t *image, size_t image_len,
                      uint8_t *pad, size_t pad_len,
                      uint8_t *vdp, size_t vdp_len,
                      uint8_t *reg, size_t reg_len,
                      uint32_t *journal, size_t journal_len,
                      uint16_t pc, size_t used, uint8_t ring, size_t place, uint8_t writable, uint8_t source,
                      uint8_t *output, size_t output_len, size_t *sent);

/* Takes the newest record out of the journal and restores what it names. */
peer_report peer_step_back(uint8_t *image, size_t image_len,
                           uint8_t *pad, size_t pad_len,
                           uint8_t *vdp, size_t vdp_len,
                           uint8_t *reg, size_t reg_len,
                           uint32_t *journal, size_t journal_len,
                           uint16_t pc, size_t used, uint8_t ring, size_t place, uint8_t writable, uint8_t source);

/* memory: 0 CPU, 1 VDP.  Returns the number of bytes shown (0: empty) and
   their offset in that memory in *offset (0 if empty). */
size_t peer_view(size_t pad_len, size_t vdp_len, int memory,
                 size_t at, size_t len, size_t *offset);

/* What peer_who_wrote says: its answer, and, if a kept step stored to the
   cell, 1, how many kept steps came after it, its pc, the byte before it and
   the byte that it left; else five times 0. */
typedef struct {
    uint8_t answer;
    uint64_t found, after, pc, before, left;
} peer_wrote;

/* Who wrote this cell? (02, item 7)  memory: 0 CPU, 1 VDP, 2 register,
   4 GROM; any other has no cell. */
peer_wrote peer_who_wrote(const uint8_t *image, size_t image_len,
                          const uint8_t *pad, size_t pad_len,
                          const uint8_t *vdp, size_t vdp_len,
                          const uint8_t *reg, size_t reg_len,
                          const uint32_t *journal, size_t journal_len,
                          size_t used, uint8_t ring, size_t place, uint8_t writable,
                          uint8_t memory, uint16_t at);

#endif
