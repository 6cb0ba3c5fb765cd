/* What a C program may call of Tavzsumer. Link it with libhost.a, which host/run builds.
 *
 * A buffer is a pointer and its length in bytes; the pointer may be NULL only where the length is 0, and the buffers of one call may not overlap.
 * A call answers 0, or the number of the first check that refuses it, and then leaves every buffer as it was. */
#ifndef TAVZSUMER_H
#define TAVZSUMER_H

#include <stddef.h>
#include <stdint.h>

#ifdef __cplusplus
extern "C" {
#endif

enum {
    TAVZSUMER_UNKNOWN_MODE = 11,
    TAVZSUMER_UNKNOWN_CONSTELLATION = 12,
    TAVZSUMER_UNKNOWN_RATE = 13,
    TAVZSUMER_UNKNOWN_GUARD = 14,
    TAVZSUMER_PACKET_LENGTH = 15,
    TAVZSUMER_BUFFER_SHORT = 16,
    TAVZSUMER_NO_FRAME = 17,
    TAVZSUMER_RECORD_MALFORMED = 18
};

/* Writes the TPS block of a frame, s1 to s67 of EN 300 744, clause 4.6.2, one bit to a byte, at the front of the buffer; the rest stays.
 * record: ten bytes: 0, 8, 1, mode, constellation, rate, guard, identifier flag, identifier with its high byte first.
 * frame: 1 to 4.
 * Checks, in this order: 18 the record, 11 its mode, 12 its constellation, 13 its rate, 14 its guard, 17 the frame, 16 a buffer below 67 bytes. */
uint8_t tavzsumer_tps(const uint8_t *record, size_t record_length, uint32_t frame, uint8_t *buffer, size_t buffer_length);

/* Writes the 188 bytes of the packet and their sixteen parity bytes (EN 300 744, clause 4.3.2) into the output, which has exactly 204. The packet is any bytes.
 * Checks, in this order: 15 the packet isn't 188 bytes, 15 the output isn't 204. */
uint8_t tavzsumer_protect(const uint8_t *packet, size_t packet_length, uint8_t *output, size_t output_length);

#ifdef __cplusplus
}
#endif

#endif
