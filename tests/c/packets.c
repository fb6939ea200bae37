/* Transport packets, null packets and stuffing, and energy dispersal over packets. */
#include "check.h"

#include <string.h>

/* A payload of each length up to ten packets comes back out of its packets, which are whitened, the first and the ninth with a flipped first byte. */
static void there_and_back(void) {
    uint8_t payload[10 * SALT_PAYLOAD_BYTES], packets[10 * SALT_PACKET_BYTES], back[10 * SALT_PAYLOAD_BYTES];
    for (size_t i = 0; i < sizeof payload; i++) {
        payload[i] = noise();
    }
    for (size_t length = 0; length <= sizeof payload; length++) {
        size_t count = length == 0 ? 1 : (length + SALT_PAYLOAD_BYTES - 1) / SALT_PAYLOAD_BYTES;
        SaltCounted made = salt_ts_packetize_dispersed(payload, length, packets, sizeof packets);
        CHECK(made.number == SALT_ACCEPTED && made.count == count * SALT_PACKET_BYTES);
        for (size_t i = 0; i < count; i++) {
            CHECK(packets[i * SALT_PACKET_BYTES] == (i % SALT_GROUP_PACKETS == 0 ? 0xB8 : SALT_SYNC_BYTE));
        }
        CHECK(salt_ts_energy_disperse(packets, made.count).count == count);
        for (size_t i = 0; i < count; i++) {
            CHECK(packets[i * SALT_PACKET_BYTES] == SALT_SYNC_BYTE);
        }
        SaltCounted apart = salt_ts_depacketize(packets, made.count, back, sizeof back);
        CHECK(apart.number == SALT_ACCEPTED && apart.count == count * SALT_PAYLOAD_BYTES);
        CHECK(memcmp(back, payload, length) == 0);
        size_t zeros = 0;
        while (length + zeros < apart.count && back[length + zeros] == 0) {
            zeros++;
        }
        CHECK(length + zeros == apart.count);
    }
}

/* The null packet, and null packets behind what is in use. */
static void stuffing(void) {
    const SaltPacket null = salt_ts_null_packet();
    const uint8_t head[5] = {0x47, 0x1F, 0xFF, 0x10, 0xFF};
    CHECK(memcmp(null.bytes, head, sizeof head) == 0 && null.bytes[SALT_PACKET_BYTES - 1] == 0xFF);
    Lent ts = lend(4 * SALT_PACKET_BYTES, 1);
    uint8_t *at = ts.at;
    SaltCounted stuffed = salt_ts_stuff_null_packets(at, ts.length, SALT_PACKET_BYTES, 3);
    CHECK(stuffed.number == SALT_ACCEPTED && stuffed.count == 3 * SALT_PACKET_BYTES);
    CHECK(memcmp(at, ts.was, SALT_PACKET_BYTES) == 0);
    CHECK(memcmp(at + SALT_PACKET_BYTES, null.bytes, SALT_PACKET_BYTES) == 0);
    CHECK(memcmp(at + 2 * SALT_PACKET_BYTES, null.bytes, SALT_PACKET_BYTES) == 0);
    CHECK(unchanged_from(&ts, 3 * SALT_PACKET_BYTES));
    CHECK(salt_ts_stuff_null_packets(at, ts.length, 2 * SALT_PACKET_BYTES, 1).count == 2 * SALT_PACKET_BYTES);
    CHECK(salt_ts_stuff_null_packets(at, ts.length, 1, 1).number == SALT_LENGTH);
    CHECK(salt_ts_stuff_null_packets(at, ts.length, 5 * SALT_PACKET_BYTES, 9).number == SALT_LENGTH);
    CHECK(salt_ts_stuff_null_packets(at, ts.length, 0, 5).number == SALT_OUTPUT_SHORT);
    CHECK(salt_ts_stuff_null_packets(at, ts.length, 0, SIZE_MAX).number == SALT_OUTPUT_SHORT);
    CHECK(salt_ts_stuff_null_packets(at, ts.length, 1, 0).number == SALT_LENGTH);
    CHECK(salt_ts_stuff_null_packets(at, 0, SALT_PACKET_BYTES, 0).number == SALT_LENGTH);
    CHECK(salt_ts_stuff_null_packets(at, 0, 0, 1).number == SALT_OUTPUT_SHORT);
    CHECK(salt_ts_stuff_null_packets(at, ts.length, 0, SIZE_MAX / 4 + 1).number == SALT_OUTPUT_SHORT); /* its bytes are 0 modulo 2^64 */
    give_back(&ts);
}

/* Nine packets of zeros whiten to the register's outputs, and whitening twice gives all back. */
static void dispersal(void) {
    Lent packets = lend(9 * SALT_PACKET_BYTES, 1);
    uint8_t *at = packets.at, zeros[9 * SALT_PACKET_BYTES] = {0};
    const uint8_t first[4] = {0x03, 0xF6, 0x08, 0x34};
    CHECK(salt_ts_energy_disperse(at, packets.length).count == 9 && !unchanged_from(&packets, 0));
    CHECK((at[0] ^ ((uint8_t *)packets.was)[0]) == 0xFF);
    CHECK(salt_ts_energy_disperse(at, packets.length).count == 9 && unchanged_from(&packets, 0));
    CHECK(salt_ts_energy_disperse(zeros, sizeof zeros).number == SALT_ACCEPTED);
    CHECK(zeros[0] == 0xFF && memcmp(zeros + 1, first, sizeof first) == 0);
    CHECK(zeros[SALT_PACKET_BYTES] == 0 && memcmp(zeros + SALT_PACKET_BYTES + 1, first, sizeof first) != 0);
    CHECK(memcmp(zeros + 8 * SALT_PACKET_BYTES, zeros, SALT_PACKET_BYTES) == 0);
    SaltCounted refused = salt_ts_energy_disperse(at, SALT_PACKET_BYTES + 1);
    CHECK(refused.number == SALT_LENGTH && refused.count == 0 && unchanged_from(&packets, 0));
    give_back(&packets);
}

void test_packets(void) {
    there_and_back();
    stuffing();
    dispersal();
}
