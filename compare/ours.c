/* The adapter from the proved archive to the calls of the comparison. */
#include "argolythe.h"
#include "cases.h"
#include "machine.h"

/* The numbers as the comparison's report. */
static peer_report report_of(uint8_t answer, const uint64_t out[ARGOLYTHE_OUTS])
{
    return (peer_report){answer, (uint16_t)out[ARGOLYTHE_OUT_PC], (size_t)out[ARGOLYTHE_OUT_USED],
                         (uint32_t)out[ARGOLYTHE_OUT_STEPS], out[ARGOLYTHE_OUT_STORES],
                         (uint16_t)out[ARGOLYTHE_OUT_ADDRESS], (size_t)out[ARGOLYTHE_OUT_PLACE],
                         (uint8_t)out[ARGOLYTHE_OUT_SOURCE]};
}

/* Numbers that no call may leave standing, so that one that says nothing is seen. */
static void spoil(uint64_t *out, int count)
{
    for (int i = 0; i < count; i++)
        out[i] = 0xA5A5A5A5A5A5A5A5u;
}

/* One step, as the harness asks for it. */
static peer_report step(uint8_t *image, size_t image_len, uint8_t *pad, size_t pad_len,
                        uint8_t *vdp, size_t vdp_len, uint8_t *reg, size_t reg_len,
                        uint32_t *journal, size_t journal_len,
                        uint16_t pc, size_t used, uint8_t ring, size_t place, uint8_t writable, uint8_t source)
{
    uint64_t out[ARGOLYTHE_OUTS];
    spoil(out, ARGOLYTHE_OUTS);
    uint8_t answer = argolythe_step(image, image_len, pad, pad_len, vdp, vdp_len, reg, reg_len,
                                    journal, journal_len, pc, used, ring, place, writable, source, out);
    return report_of(answer, out);
}

/* A run, as the harness asks for it. */
static peer_report run(uint8_t *image, size_t image_len, uint8_t *pad, size_t pad_len,
                       uint8_t *vdp, size_t vdp_len, uint8_t *reg, size_t reg_len,
                       uint32_t *journal, size_t journal_len,
                       uint16_t pc, size_t used, uint8_t ring, size_t place, uint8_t writable, uint8_t source,
                       uint32_t n)
{
    uint64_t out[ARGOLYTHE_OUTS];
    spoil(out, ARGOLYTHE_OUTS);
    uint8_t answer = argolythe_run(image, image_len, pad, pad_len, vdp, vdp_len, reg, reg_len,
                                   journal, journal_len, pc, used, ring, place, writable, source, n, out);
    return report_of(answer, out);
}

/* A mapped run, as the harness asks for it. */
static peer_report run_mapped(uint8_t *image, size_t image_len, uint8_t *map, size_t map_len,
                              uint8_t *pad, size_t pad_len, uint8_t *vdp, size_t vdp_len, uint8_t *reg, size_t reg_len,
                              uint32_t *journal, size_t journal_len,
                              uint16_t pc, size_t used, uint8_t ring, size_t place, uint8_t writable, uint8_t source,
                              uint32_t n)
{
    uint64_t out[ARGOLYTHE_OUTS];
    spoil(out, ARGOLYTHE_OUTS);
    uint8_t answer = argolythe_run_mapped(image, image_len, map, map_len, pad, pad_len, vdp, vdp_len, reg, reg_len,
                                          journal, journal_len, pc, used, ring, place, writable, source, n, out);
    return report_of(answer, out);
}

/* A tick, as the harness asks for it. */
static peer_report tick(uint8_t *image, size_t image_len, uint8_t *pad, size_t pad_len,
                        uint8_t *vdp, size_t vdp_len, uint8_t *reg, size_t reg_len,
                        uint32_t *journal, size_t journal_len,
                        uint16_t pc, size_t used, uint8_t ring, size_t place, uint8_t writable, uint8_t source,
                        uint8_t *output, size_t output_len, size_t *sent)
{
    uint64_t out[ARGOLYTHE_OUTS];
    spoil(out, ARGOLYTHE_OUTS);
    *sent = (size_t)-1;
    uint8_t answer = argolythe_tick(image, image_len, pad, pad_len, vdp, vdp_len, reg, reg_len,
                                    journal, journal_len, pc, used, ring, place, writable, source,
                                    output, output_len, sent, out);
    return report_of(answer, out);
}

/* The archive counts a step taken back as one step, the peer as none: any other count stays a difference. */
static peer_report step_back(uint8_t *image, size_t image_len, uint8_t *pad, size_t pad_len,
                             uint8_t *vdp, size_t vdp_len, uint8_t *reg, size_t reg_len,
                             uint32_t *journal, size_t journal_len,
                             uint16_t pc, size_t used, uint8_t ring, size_t place, uint8_t writable, uint8_t source)
{
    uint64_t out[ARGOLYTHE_OUTS];
    spoil(out, ARGOLYTHE_OUTS);
    uint8_t answer = argolythe_step_back(image, image_len, pad, pad_len, vdp, vdp_len, reg, reg_len,
                                         journal, journal_len, pc, used, ring, place, writable, source, out);
    out[ARGOLYTHE_OUT_STEPS] -= answer == ARGOLYTHE_DONE ? 1 : 0;
    return report_of(answer, out);
}

/* The harness asks for a view by lengths alone, so it is lent bytes of the adapter's own, as many as the longest lent part has. */
static size_t view(size_t pad_len, size_t vdp_len, int memory, size_t at, size_t len, size_t *offset)
{
    static const uint8_t pad[ARGOLYTHE_PAD + CASE_LENT_EXTRA], vdp[ARGOLYTHE_VDP + CASE_LENT_EXTRA];
    *offset = (size_t)-1;
    return argolythe_view(pad, pad_len, vdp, vdp_len, (uint8_t)memory, at, len, offset);
}

/* Who wrote a cell, as the harness asks for it. */
static peer_wrote who_wrote(const uint8_t *image, size_t image_len, const uint8_t *pad, size_t pad_len,
                            const uint8_t *vdp, size_t vdp_len, const uint8_t *reg, size_t reg_len,
                            const uint32_t *journal, size_t journal_len,
                            size_t used, uint8_t ring, size_t place, uint8_t writable, uint8_t memory, uint16_t at)
{
    uint64_t out[ARGOLYTHE_WHO_OUTS];
    spoil(out, ARGOLYTHE_WHO_OUTS);
    uint8_t answer = argolythe_who_wrote(image, image_len, pad, pad_len, vdp, vdp_len, reg, reg_len,
                                         journal, journal_len, used, ring, place, writable, memory, at, out);
    return (peer_wrote){answer, out[ARGOLYTHE_WHO_FOUND], out[ARGOLYTHE_WHO_AFTER], out[ARGOLYTHE_WHO_PC],
                        out[ARGOLYTHE_WHO_BEFORE], out[ARGOLYTHE_WHO_LEFT]};
}

const struct machine other_machine = {"argolythe", step, run, run_mapped, tick, step_back, view, who_wrote};
