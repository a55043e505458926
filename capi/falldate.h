/* Falldate for C: the safety code, the kinds of frames and packets, and whole rehearsals.
 *
 * Every function may be called with any values. A pointer is never null and points to as many
 * bytes as the length beside it says, also where that is 0, and `out` overlaps nothing else. No
 * function keeps a pointer, writes elsewhere than to `out`, or has a state of its own.
 * docs/CAPI.md has the numbers and how to link. */
#ifndef FALLDATE_H
#define FALLDATE_H

#include <stddef.h>
#include <stdint.h>

#ifdef __cplusplus
extern "C" {
#endif

/* The safety code of the bytes under the word: the first check in the high half, the second in
 * the low half, both exclusive-ored with the word. */
uint64_t falldate_safety_code(uint64_t word, const uint8_t *bytes, size_t len);

/* What the string is as a frame: one of the kinds below, or the refusal's number, negative. */
enum {
    FALLDATE_BARE_DI = 0,
    FALLDATE_AU1 = 1,
    FALLDATE_AU2 = 2,
    FALLDATE_AU3 = 3,
    FALLDATE_AR = 4,
    FALLDATE_DI = 5,
    FALLDATE_DT = 6
};
int32_t falldate_frame_kind(const uint8_t *bytes, size_t len);

/* The type of the packet, 1 to 4, or the refusal's number, negative. */
int32_t falldate_packet_type(const uint8_t *bytes, size_t len);

/* Rehearses the script with the sheet and writes what the program `rehearse` prints, the listing
 * or the one line of a fault, to the start of `out`. Answers its length in bytes;
 * FALLDATE_TOO_SHORT if `out` is too short, and FALLDATE_NO_MEMORY for want of memory, and then
 * `out` is as it was. */
enum { FALLDATE_NO_MEMORY = -1, FALLDATE_TOO_SHORT = -7 };
int64_t falldate_rehearse(const uint8_t *sheet, size_t sheet_len,
                          const uint8_t *script, size_t script_len,
                          uint8_t *out, size_t out_len);

/* For measuring. Both answer FALLDATE_NO_MEMORY for want of memory. */

/* Opens two ends over a wire, lets them come up, and then for each round ticks the initiator
 * with a message of `size` bytes (at most 1,023, more are cut to that), ticks the responder with
 * none, and lets the initiator and then the responder fetch three times, which is more than can
 * wait. Answers how many messages the responder was delivered. */
int64_t falldate_steady_rounds(uint32_t rounds, uint32_t size);

/* Puts `held` strings of `size` bytes (at most 1,100, more are cut to that) on a wire with room
 * for one more, and then for each round puts one and fetches one. Answers how many fetches
 * answered a string. */
int64_t falldate_wire_rounds(uint32_t held, uint32_t size, uint32_t rounds);

#ifdef __cplusplus
}
#endif
#endif
