/* Calls every function of tavzsumer.h on good input and on every refusal, and compares answers and buffers byte for byte.
 * Ends with 1 at the first difference, and says what differed. */
#include <stdio.h>
#include <stdlib.h>
#include <string.h>

#include "expected_parity.h"
#include "expected_tps.h"
#include "tavzsumer.h"

enum { ROOM = 80, BLOCK = 67, RECORD = 10, PACKET = 188, PROTECTED = 204, UNTOUCHED = 0xA5 };

static unsigned calls;

static void fail(const char *what, size_t place, unsigned expected, unsigned got)
{
    printf("host: %s: place %zu: expected %u, got %u\n", what, place, expected, got);
    exit(1);
}

/* One call with a buffer of the given length in front of untouched bytes; the first `written` bytes of `block` are expected there, and nothing else. */
static void call_tps(const char *what, const uint8_t *record, size_t record_length, uint32_t frame, size_t buffer_length, unsigned answer, const uint8_t *block, size_t written)
{
    uint8_t buffer[ROOM];
    memset(buffer, UNTOUCHED, sizeof buffer);
    unsigned got = tavzsumer_tps(record, record_length, frame, buffer, buffer_length);
    calls++;
    if (got != answer)
        fail(what, frame, answer, got);
    for (size_t i = 0; i < ROOM; i++) {
        unsigned expected = i < written ? block[i] : UNTOUCHED;
        if (buffer[i] != expected)
            fail(what, i, expected, buffer[i]);
    }
}

static void refused(const char *what, const uint8_t *record, size_t record_length, uint32_t frame, size_t buffer_length, unsigned answer)
{
    call_tps(what, record, record_length, frame, buffer_length, answer, NULL, 0);
}

static unsigned hex(char digit)
{
    return digit <= '9' ? (unsigned)(digit - '0') : (unsigned)(digit - 'a') + 10;
}

/* 17 hexadecimal digits: a zero bit, and s1 to s67. */
static void read_block(const char *digits, uint8_t *block)
{
    for (size_t i = 0; i < BLOCK; i++) {
        block[i] = (uint8_t)(hex(digits[(i + 1) / 4]) >> (3 - (i + 1) % 4) & 1);
    }
}

static void blocks(void)
{
    for (size_t i = 0; i < sizeof expected_tps / sizeof expected_tps[0]; i++) {
        uint8_t record[RECORD] = {
            0, 8, 1, expected_tps[i].mode, expected_tps[i].constellation, expected_tps[i].rate, expected_tps[i].guard,
            expected_tps[i].has_identifier, (uint8_t)(expected_tps[i].identifier >> 8), (uint8_t)(expected_tps[i].identifier & 255),
        };
        for (uint32_t frame = 1; frame <= 4; frame++) {
            uint8_t block[BLOCK];
            read_block(expected_tps[i].blocks[frame - 1], block);
            call_tps("block, exact buffer", record, RECORD, frame, BLOCK, 0, block, BLOCK);
            call_tps("block, larger buffer", record, RECORD, frame, ROOM, 0, block, BLOCK);
        }
    }
}

/* A good record with one byte changed. */
static const uint8_t *changed(size_t place, uint8_t byte)
{
    static const uint8_t good[RECORD] = {0, 8, 1, 1, 2, 4, 3, 0, 0, 0};
    static uint8_t record[RECORD + 1];
    memcpy(record, good, RECORD);
    record[RECORD] = 0;
    record[place] = byte;
    return record;
}

/* Each refusal, with all that later checks look at wrong as well: what the first check finds is answered. */
static void refusals(void)
{
    static const uint8_t all_codes_unknown[RECORD] = {0, 8, 1, 2, 3, 5, 4, 0, 0, 0};
    static const uint8_t no_known_constellation[RECORD] = {0, 8, 1, 1, 3, 5, 4, 0, 0, 0};
    static const uint8_t no_known_rate[RECORD] = {0, 8, 1, 1, 2, 5, 4, 0, 0, 0};
    static const uint8_t no_known_guard[RECORD] = {0, 8, 1, 1, 2, 4, 4, 0, 0, 0};
    static const uint8_t malformed_and_unknown[RECORD] = {0, 8, 2, 2, 3, 5, 4, 0, 0, 0};
    static const uint32_t no_frames[] = {0, 5, 6, 7, 8, 255, 256, 257, 258, 259, 260, 65537, 0x80000001u, 0xFFFFFFFFu};

    for (size_t length = 0; length <= RECORD + 1; length++)
        if (length != RECORD)
            refused("record of another byte count", changed(0, 0), length, 1, ROOM, TAVZSUMER_RECORD_MALFORMED);
    refused("record of no bytes", NULL, 0, 1, ROOM, TAVZSUMER_RECORD_MALFORMED);
    refused("high byte of the length", changed(0, 1), RECORD, 1, ROOM, TAVZSUMER_RECORD_MALFORMED);
    refused("length 7", changed(1, 7), RECORD, 1, ROOM, TAVZSUMER_RECORD_MALFORMED);
    refused("length 10", changed(1, 10), RECORD, 1, ROOM, TAVZSUMER_RECORD_MALFORMED);
    refused("version 0", changed(2, 0), RECORD, 1, ROOM, TAVZSUMER_RECORD_MALFORMED);
    refused("version 2", changed(2, 2), RECORD, 1, ROOM, TAVZSUMER_RECORD_MALFORMED);
    refused("flag 2", changed(7, 2), RECORD, 1, ROOM, TAVZSUMER_RECORD_MALFORMED);
    refused("flag 0, high byte", changed(8, 1), RECORD, 1, ROOM, TAVZSUMER_RECORD_MALFORMED);
    refused("flag 0, low byte", changed(9, 1), RECORD, 1, ROOM, TAVZSUMER_RECORD_MALFORMED);
    refused("record before codes, frame and buffer", malformed_and_unknown, RECORD, 0, 0, TAVZSUMER_RECORD_MALFORMED);

    refused("mode 2", changed(3, 2), RECORD, 1, ROOM, TAVZSUMER_UNKNOWN_MODE);
    refused("mode before the rest", all_codes_unknown, RECORD, 0, 0, TAVZSUMER_UNKNOWN_MODE);
    refused("constellation 3", changed(4, 3), RECORD, 1, ROOM, TAVZSUMER_UNKNOWN_CONSTELLATION);
    refused("constellation before the rest", no_known_constellation, RECORD, 0, 0, TAVZSUMER_UNKNOWN_CONSTELLATION);
    refused("rate 5", changed(5, 5), RECORD, 1, ROOM, TAVZSUMER_UNKNOWN_RATE);
    refused("rate before the rest", no_known_rate, RECORD, 0, 0, TAVZSUMER_UNKNOWN_RATE);
    refused("guard 4", changed(6, 4), RECORD, 1, ROOM, TAVZSUMER_UNKNOWN_GUARD);
    refused("guard before frame and buffer", no_known_guard, RECORD, 0, 0, TAVZSUMER_UNKNOWN_GUARD);

    for (size_t i = 0; i < sizeof no_frames / sizeof no_frames[0]; i++) {
        refused("no frame", changed(0, 0), RECORD, no_frames[i], ROOM, TAVZSUMER_NO_FRAME);
        refused("frame before buffer", changed(0, 0), RECORD, no_frames[i], BLOCK - 1, TAVZSUMER_NO_FRAME);
    }
    for (size_t length = 0; length < BLOCK; length++)
        refused("short buffer", changed(0, 0), RECORD, 4, length, TAVZSUMER_BUFFER_SHORT);
    calls++;
    if (tavzsumer_tps(changed(0, 0), RECORD, 4, NULL, 0) != TAVZSUMER_BUFFER_SHORT)
        fail("no buffer", 0, TAVZSUMER_BUFFER_SHORT, 0);
}

/* One call with an output of the given length in front of untouched bytes; where it isn't refused, `expected` is what the 204 bytes are to be. */
static void call_protect(const char *what, const uint8_t *packet, size_t packet_length, size_t output_length, unsigned answer, const uint8_t *expected)
{
    uint8_t output[PROTECTED + 2];
    memset(output, UNTOUCHED, sizeof output);
    unsigned got = tavzsumer_protect(packet, packet_length, output, output_length);
    calls++;
    if (got != answer)
        fail(what, packet_length, answer, got);
    for (size_t i = 0; i < sizeof output; i++) {
        unsigned wanted = answer == 0 && i < PROTECTED ? expected[i] : UNTOUCHED;
        if (output[i] != wanted)
            fail(what, i, wanted, output[i]);
    }
}

static void protected_packets(void)
{
    uint8_t block[PROTECTED + 1] = {0};
    call_protect("zeros", block, PACKET, PROTECTED, 0, block);
    for (size_t k = 0; k < sizeof expected_parity / sizeof expected_parity[0]; k++) {
        for (size_t i = 0; i < PACKET; i++) {
            size_t x = 1 + 31 * k + 17 * i;
            block[i] = (uint8_t)(x * x / 8);
        }
        for (size_t i = 0; i < PROTECTED - PACKET; i++)
            block[PACKET + i] = (uint8_t)(16 * hex(expected_parity[k][2 * i]) + hex(expected_parity[k][2 * i + 1]));
        call_protect("made message", block, PACKET, PROTECTED, 0, block);
    }
    for (size_t length = 0; length <= PROTECTED + 1; length++) {
        if (length != PACKET)
            call_protect("packet of another length", block, length, PROTECTED, TAVZSUMER_PACKET_LENGTH, NULL);
        if (length != PROTECTED)
            call_protect("output of another length", block, PACKET, length, TAVZSUMER_PACKET_LENGTH, NULL);
    }
    call_protect("lengths exchanged", block, PROTECTED, PACKET, TAVZSUMER_PACKET_LENGTH, NULL);
}

int main(void)
{
    blocks();
    refusals();
    protected_packets();
    printf("host: %u calls answered and wrote as expected\n", calls);
    return 0;
}
