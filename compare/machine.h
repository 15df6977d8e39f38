/* A machine under comparison: the seven calls of peer.h as function pointers. */
#ifndef MACHINE_H
#define MACHINE_H

#include "peer.h"

struct machine {
    const char *name;
    peer_report (*step)(uint8_t *image, size_t image_len, uint8_t *pad, size_t pad_len,
                        uint8_t *vdp, size_t vdp_len, uint8_t *reg, size_t reg_len,
                        uint32_t *journal, size_t journal_len,
                        uint16_t pc, size_t used, uint8_t ring, size_t place, uint8_t writable, uint8_t source);
    peer_report (*run)(uint8_t *image, size_t image_len, uint8_t *pad, size_t pad_len,
                       uint8_t *vdp, size_t vdp_len, uint8_t *reg, size_t reg_len,
                       uint32_t *journal, size_t journal_len,
                       uint16_t pc, size_t used, uint8_t ring, size_t place, uint8_t writable, uint8_t source,
                       uint32_t n);
    peer_report (*run_mapped)(uint8_t *image, size_t image_len, uint8_t *map, size_t map_len,
                              uint8_t *pad, size_t pad_len, uint8_t *vdp, size_t vdp_len, uint8_t *reg, size_t reg_len,
                              uint32_t *journal, size_t journal_len,
                              uint16_t pc, size_t used, uint8_t ring, size_t place, uint8_t writable, uint8_t source,
                              uint32_t n);
    peer_report (*tick)(uint8_t *image, size_t image_len, uint8_t *pad, size_t pad_len,
                        uint8_t *vdp, size_t vdp_len, uint8_t *reg, size_t reg_len,
                        uint32_t *journal, size_t journal_len,
                        uint16_t pc, size_t used, uint8_t ring, size_t place, uint8_t writable, uint8_t source,
                        uint8_t *output, size_t output_len, size_t *sent);
    peer_report (*step_back)(uint8_t *image, size_t image_len, uint8_t *pad, size_t pad_len,
                             uint8_t *vdp, size_t vdp_len, uint8_t *reg, size_t reg_len,
                             uint32_t *journal, size_t journal_len,
                             uint16_t pc, size_t used, uint8_t ring, size_t place, uint8_t writable, uint8_t source);
    size_t (*view)(size_t pad_len, size_t vdp_len, int memory, size_t at, size_t len, size_t *offset);
    peer_wrote (*who_wrote)(const uint8_t *image, size_t image_len, const uint8_t *pad, size_t pad_len,
                            const uint8_t *vdp, size_t vdp_len, const uint8_t *reg, size_t reg_len,
                            const uint32_t *journal, size_t journal_len,
                            size_t used, uint8_t ring, size_t place, uint8_t writable,
                            uint8_t memory, uint16_t at);
};

/* Given by the adapter of the other implementation. */
extern const struct machine other_machine;

#endif
