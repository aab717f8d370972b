/* Calls of each library through gritwheel.h: document 01's desk checks, and each refusal with what it returns. */
#include "gritwheel.h"

#include <stdio.h>
#include <stdlib.h>
#include <string.h>

static int checks, faults;

#define CHECK(said)                                                    \
    do {                                                               \
        checks++;                                                      \
        if (!(said)) {                                                 \
            faults++;                                                  \
            fprintf(stderr, "test.c:%d: not so: %s\n", __LINE__, #said); \
        }                                                              \
    } while (0)

/* Every word of an answer must be written, so none is what it must become. */
#define UNWRITTEN 0xdeadbeefa5a5a5a5u

static void unwrite(uint64_t *out, size_t words) {
    for (size_t i = 0; i < words; i++)
        out[i] = UNWRITTEN;
}

static bool says(const uint64_t *out, const uint64_t *expected, size_t words) {
    if (memcmp(out, expected, words * sizeof *out) == 0)
        return true;
    for (size_t i = 0; i < words; i++)
        fprintf(stderr, " %llu", (unsigned long long)out[i]);
    fprintf(stderr, " is the answer\n");
    return false;
}

#define SEVEN(...) says(out, (const uint64_t[]){__VA_ARGS__}, 7)
#define EIGHT(...) says(out, (const uint64_t[]){__VA_ARGS__}, 8)

static void windows(void) {
    const uint8_t data[3] = {0xff, 0x01, 0x80};
    uint64_t out[7];
    unwrite(out, 7);
    gritwheel_new(data, 3, out);
    CHECK(SEVEN(0, 0, 0, 0, 0, 0, 24));
    gritwheel_with_bit_len(data, 3, 17, out);
    CHECK(SEVEN(0, 0, 0, 0, 0, 0, 17));
    gritwheel_with_bit_len(data, 3, 25, out);
    CHECK(SEVEN(5, 25, 24, 0, 0, 0, 0));
    CHECK(gritwheel_position(1, 2, 3) == 2);
    CHECK(gritwheel_len_bits(1, 2, 3) == 3);
    CHECK(!gritwheel_at_end(1, 2, 3));
    CHECK(gritwheel_at_end(1, 3, 3));
    gritwheel_bits_remaining(1, 2, 7, out);
    CHECK(SEVEN(0, 5, 0, 0, 1, 2, 7));
    gritwheel_bits_remaining(1, 8, 7, out);
    CHECK(SEVEN(5, 8, 7, 0, 1, 8, 7));
    gritwheel_sub_reader(data, 3, 4, 2, 16, 9, out);
    CHECK(SEVEN(0, 6, 0, 9, 4, 11, 16));
    gritwheel_skip_bits(data, 3, 4, 2, 16, 15, out);
    CHECK(SEVEN(1, 2, 16, 15, 4, 2, 16));
    gritwheel_skip_remaining(data, 3, 4, 2, 16, out);
    CHECK(SEVEN(0, 0, 0, 0, 4, 16, 16));
}

static void reads(void) {
    uint64_t out[7];
    unwrite(out, 7);
    /* "Packed 06: 3. 01 00: 0 in 16 bits. Fifth byte 20: refusal 3. 21: refusal 2." */
    gritwheel_read_int_packed((const uint8_t[]){0x06}, 1, 0, 0, 8, out);
    CHECK(SEVEN(0, 3, 0, 0, 0, 8, 8));
    gritwheel_read_int_packed((const uint8_t[]){0x01, 0x00}, 2, 0, 0, 16, out);
    CHECK(SEVEN(0, 0, 0, 0, 0, 16, 16));
    gritwheel_read_int_packed((const uint8_t[]){1, 1, 1, 1, 0x20}, 5, 0, 0, 40, out);
    CHECK(SEVEN(3, 0, 0, 0, 0, 40, 40));
    gritwheel_read_int_packed((const uint8_t[]){1, 1, 1, 1, 0x21}, 5, 0, 0, 40, out);
    CHECK(SEVEN(2, 0, 0, 0, 0, 40, 40));
    /* "Maximum 1, empty window: 0. Maximum 3, bits 0,1: 2; bit 1: 1. Maximum 0: refusal 4." */
    const uint8_t bits[9] = {0x02, 0x01, 0, 0, 0x80, 0x3f, 0x40, 0xe2, 0x01};
    gritwheel_read_serialized_int(bits, 9, 0, 0, 0, 1, out);
    CHECK(SEVEN(0, 0, 0, 0, 0, 0, 0));
    gritwheel_read_serialized_int(bits, 9, 0, 0, 2, 3, out);
    CHECK(SEVEN(0, 2, 0, 0, 0, 2, 2));
    gritwheel_read_serialized_int(bits, 9, 1, 0, 1, 3, out);
    CHECK(SEVEN(0, 1, 0, 0, 1, 1, 1));
    gritwheel_read_serialized_int(bits, 9, 0, 0, 2, 0, out);
    CHECK(SEVEN(4, 0, 0, 0, 0, 0, 2));
    gritwheel_read_bit(bits, 9, 0, 1, 8, out);
    CHECK(SEVEN(0, 1, 0, 0, 0, 2, 8));
    gritwheel_read_bits(bits, 9, 0, 1, 12, 8, out);
    CHECK(SEVEN(0, 0x81, 0, 0, 0, 9, 12));
    gritwheel_read_bits(bits, 9, 0, 1, 12, 65, out);
    CHECK(SEVEN(6, 65, 0, 0, 0, 1, 12));
    gritwheel_read_bits(bits, 9, 72, 0, 0, 0, out);
    CHECK(SEVEN(0, 0, 0, 0, 72, 0, 0));
    gritwheel_read_bits(bits, 9, 71, 0, 2, 1, out);
    CHECK(SEVEN(5, 2, 1, 0, 71, 0, 2));
    gritwheel_read_u8(bits, 9, 32, 0, 40, out);
    CHECK(SEVEN(0, 0x80, 0, 0, 32, 8, 40));
    gritwheel_read_u16(bits, 9, 32, 0, 40, out);
    CHECK(SEVEN(0, 0x3f80, 0, 0, 32, 16, 40));
    gritwheel_read_u32(bits, 9, 32, 0, 40, out);
    CHECK(SEVEN(0, 0xe2403f80u, 0, 0, 32, 32, 40));
    gritwheel_read_i32(bits, 9, 32, 0, 40, out);
    CHECK(out[0] == 0 && (int32_t)(uint32_t)out[1] == -499105920);
    gritwheel_read_u64(bits, 9, 1, 0, 71, out);
    CHECK(SEVEN(0, 0xf1201fc000000081u, 0, 0, 1, 64, 71));
    gritwheel_read_u64(bits, 9, 32, 0, 40, out);
    CHECK(SEVEN(1, 0, 40, 64, 32, 0, 40));
}

static void floats_and_copies(void) {
    uint64_t out[7];
    float single = 7;
    gritwheel_read_f32((const uint8_t[]){0, 0, 0x80, 0xbf}, 4, 0, 0, 32, &single, out);
    CHECK(SEVEN(0, 0, 0, 0, 0, 32, 32) && single == -1.0f);
    gritwheel_read_f32((const uint8_t[]){5, 0, 0x80, 0xff}, 4, 0, 0, 32, &single, out);
    CHECK(SEVEN(0, 1, 0xff800005u, 0, 0, 32, 32) && single == -1.0f);
    double number = 7;
    gritwheel_read_f64((const uint8_t[]){0, 0, 0, 0, 0, 0, 0xf8, 0x3f}, 8, 0, 0, 64, &number, out);
    CHECK(SEVEN(0, 0, 0, 0, 0, 64, 64) && number == 1.5);
    gritwheel_read_f64((const uint8_t[]){0}, 1, 0, 0, 8, &number, out);
    CHECK(SEVEN(1, 0, 8, 64, 0, 0, 8) && number == 1.5);
    uint8_t target[4] = {0xaa, 0xaa, 0xaa, 0xaa};
    gritwheel_copy_bits_to((const uint8_t[]){0xff, 0xff}, 2, 0, 3, 16, target, 4, 10, out);
    CHECK(SEVEN(0, 0, 0, 0, 0, 13, 16));
    CHECK(target[0] == 0xff && target[1] == 0x03 && target[2] == 0xaa && target[3] == 0xaa);
    gritwheel_copy_bits_to((const uint8_t[]){0, 0}, 2, 0, 0, 16, target, 1, 9, out);
    CHECK(SEVEN(5, 9, 8, 0, 0, 0, 16) && target[0] == 0xff);
    uint8_t *large = (uint8_t *)calloc(GRITWHEEL_MOST_DATA_BYTES + 1, 1);
    CHECK(large != NULL);
    if (large != NULL) {
        gritwheel_new(large, GRITWHEEL_MOST_DATA_BYTES, out);
        CHECK(SEVEN(0, 0, 0, 0, 0, 0, 536870912));
        gritwheel_new(large, GRITWHEEL_MOST_DATA_BYTES + 1, out);
        CHECK(SEVEN(7, 67108865, 0, 0, 0, 0, 0));
    }
    free(large);
}

static void walks(void) {
    uint64_t out[8];
    gritwheel_record list[2];
    memset(list, 0x55, sizeof list);
    /* "Nine zero bits as RepLayout: no record, nothing left. Eight as class net cache, count 2: 8 abandoned. Nine, count 1:
     * one empty record." */
    gritwheel_parse_rep_layout((const uint8_t[]){0, 0}, 2, 0, 0, 9, list, 2, out);
    CHECK(EIGHT(0, 0, 0, 0, 0, 9, 9, 0));
    gritwheel_parse_class_net_cache((const uint8_t[]){0}, 1, 0, 0, 8, 2, list, 2, out);
    CHECK(EIGHT(0, 2, 8, 0, 0, 8, 8, 0));
    gritwheel_parse_class_net_cache((const uint8_t[]){0, 0}, 2, 0, 0, 9, 1, list, 2, out);
    CHECK(EIGHT(0, 0, 0, 0, 0, 9, 9, 1));
    CHECK(list[0].handle == 0 && list[0].bit_count == 0 && list[0].position == 9 && list[0].start_bit == 9);
    CHECK(list[1].handle == 0x5555555555555555u);
    gritwheel_parse_class_net_cache((const uint8_t[]){0, 0}, 2, 3, 0, 9, 1, list, 0, out);
    CHECK(EIGHT(14, 0, 0, 0, 3, 0, 9, 0));
    gritwheel_parse_class_net_cache((const uint8_t[]){0, 0}, 2, 0, 0, 9, 0, list, 2, out);
    CHECK(EIGHT(15, 0, 0, 0, 0, 0, 9, 0));
    /* One ignored bit, handle 1, 3 bits of payload, the end, and 4 bits after it. */
    const uint8_t layout[5] = {0x08, 0x0c, 0x0e, 0x00, 0x0};
    gritwheel_parse_rep_layout_content_block(layout, 5, 0, 0, 32, list, 2, out);
    CHECK(EIGHT(0, 1, 4, 0, 0, 28, 32, 1));
    CHECK(list[0].handle == 1 && list[0].bit_count == 3 && list[0].position == 17 && list[0].start_bit == 17);
    gritwheel_parse_rep_layout(layout, 5, 0, 0, 32, list, 2, out);
    CHECK(EIGHT(0, 1, 4, 0, 0, 32, 32, 1));
    /* The same stream into field records, each list too short in turn. */
    gritwheel_field_record records[2];
    memset(records, 0x55, sizeof records);
    gritwheel_list_records(layout, 5, 0, 0, 32, 1, 0, records, 2, list, 2, out);
    CHECK(EIGHT(0, 1, 4, 0, 0, 28, 32, 1));
    CHECK(records[0].handle == 1 && records[0].bit_count == 3 && records[0].in_window == 17 && records[0].in_packet == 17);
    CHECK(records[1].handle == 0x55555555u);
    gritwheel_list_records(layout, 5, 0, 0, 32, 0, 0, records, 0, list, 2, out);
    CHECK(EIGHT(14, 1, 0, 0, 0, 1, 32, 0));
    gritwheel_list_records(layout, 5, 0, 0, 32, 0, 0, records, 2, list, 0, out);
    CHECK(EIGHT(14, 1, 0, 0, 0, 1, 32, 0));
    /* The class net cache by its word, its own 15, and a word that says no stream, also after 5. */
    gritwheel_list_records((const uint8_t[]){0, 0}, 2, 0, 0, 9, GRITWHEEL_CLASS_NET_CACHE, 1, records, 2, list, 2, out);
    CHECK(EIGHT(0, 0, 0, 0, 0, 9, 9, 1) && records[0].handle == 0 && records[0].in_packet == 9);
    memset(records, 0x55, sizeof records);
    memset(list, 0x55, sizeof list);
    gritwheel_list_records(layout, 5, 0, 0, 32, GRITWHEEL_CLASS_NET_CACHE, 0, records, 2, list, 2, out);
    CHECK(EIGHT(GRITWHEEL_FUNCTION_COUNT_0, 0, 0, 0, 0, 0, 32, 0));
    gritwheel_list_records(layout, 5, 0, 0, 32, 3, 1, records, 2, list, 2, out);
    CHECK(EIGHT(GRITWHEEL_NO_STREAM, 3, 0, 0, 0, 0, 32, 0));
    gritwheel_list_records(layout, 5, 0, 0, 41, UINT32_MAX, 1, records, 2, list, 2, out);
    CHECK(EIGHT(GRITWHEEL_BIT_LENGTH, 41, 40, 0, 0, 0, 41, 0));
    CHECK(records[0].handle == 0x55555555u && list[0].handle == 0x5555555555555555u);
}

/* A packet reader with room for four channels. */
typedef struct reader {
    uint32_t columns[5][4];
    uint64_t sequences, partials;
    uint64_t out[GRITWHEEL_BUNCH_WORDS];
} reader;

static void read_at(reader *r, const uint8_t *packet, size_t n, int32_t id, uint64_t at) {
    unwrite(r->out, GRITWHEEL_BUNCH_WORDS);
    gritwheel_read_bunch(packet, n, id, at, 4, r->sequences, r->partials, r->columns[0], 4, r->columns[1], 4, r->columns[2], 4,
                         r->columns[3], 4, r->columns[4], 4, r->out);
    r->sequences = r->out[GRITWHEEL_B_SEQUENCES];
    r->partials = r->out[GRITWHEEL_B_PARTIALS];
}

static void packets(void) {
    reader r;
    memset(&r, 0x33, sizeof r);
    uint32_t (*c)[4] = r.columns;
    uint64_t out[4];
    gritwheel_with_max_channels(4, c[0], 4, c[1], 4, c[2], 4, c[3], 4, c[4], 3, out);
    CHECK(says(out, (const uint64_t[]){9, 0, 0, 0}, 4));
    gritwheel_with_max_channels(4, c[0], 4, c[1], 4, c[2], 4, c[3], 4, c[4], 4, out);
    CHECK(says(out, (const uint64_t[]){0, 4, 0, 0}, 4));
    r.sequences = out[GRITWHEEL_R_SEQUENCES];
    r.partials = out[GRITWHEEL_R_PARTIALS];
    /* "Packet 01: no bunches, sound. Packet 00: malformed." */
    read_at(&r, (const uint8_t[]){0x01}, 1, 1, 0);
    CHECK(r.out[GRITWHEEL_B_REFUSAL] == 0 && r.out[GRITWHEEL_B_OUTCOME] == GRITWHEEL_END);
    read_at(&r, (const uint8_t[]){0x00}, 1, 1, 0);
    CHECK(r.out[GRITWHEEL_B_OUTCOME] == GRITWHEEL_MALFORMED && r.out[GRITWHEEL_B_MALFORMED] == 1);
    /* The two packets of document 01's log. */
    const uint8_t first[5] = {0x30, 0x00, 0x04, 0xa0, 0x34}, second[6] = {0x04, 0xa0, 0x01, 0x00, 0x00, 0x01};
    read_at(&r, first, 5, 7, 0);
    const uint64_t *header = r.out + GRITWHEEL_B_HEADER;
    CHECK(r.out[GRITWHEEL_B_OUTCOME] == GRITWHEEL_BUNCH && r.out[GRITWHEEL_B_NEXT] == 37 && r.out[GRITWHEEL_B_BUNCHES] == 1);
    CHECK(header[GRITWHEEL_H_PACKET_ID] == 7 && header[GRITWHEEL_H_CH_INDEX] == 3);
    CHECK(header[GRITWHEEL_H_PAYLOAD_BIT_COUNT] == 8 && header[GRITWHEEL_H_PAYLOAD_BIT_OFFSET] == 29);
    CHECK(says(r.out + GRITWHEEL_B_PAYLOAD_START, (const uint64_t[]){29, 0, 8}, 3));
    read_at(&r, first, 5, 7, 37);
    CHECK(r.out[GRITWHEEL_B_OUTCOME] == GRITWHEEL_END);
    read_at(&r, second, 6, -8, 0);
    CHECK((int32_t)(uint32_t)header[GRITWHEEL_H_PACKET_ID] == -8 && header[GRITWHEEL_H_CH_SEQUENCE] == 1);
    CHECK(header[GRITWHEEL_H_B_RELIABLE] && header[GRITWHEEL_H_B_PARTIAL] && header[GRITWHEEL_H_IS_PARTIAL_COMPLETED]);
    CHECK(r.sequences == 1 && c[0][0] == 0 && c[1][0] == 1 && c[0][1] == 0x33333333);
    read_at(&r, second, 6, 8, 41);
    CHECK(says(r.out, (const uint64_t[]){5, 41, 40, 0, 41, 0, 0, 0, 0, 1, 0}, 11));
    static const uint8_t large[65536];
    read_at(&r, large, 65536, 8, 0);
    CHECK(says(r.out, (const uint64_t[]){8, 65536, 0, 0, 0}, 5));
    r.sequences = 5;
    read_at(&r, second, 6, 8, 0);
    CHECK(r.out[GRITWHEEL_B_REFUSAL] == GRITWHEEL_UNSOUND && r.sequences == 5);
}

static void writes(void) {
    uint8_t packet[8];
    memset(packet, 0xff, sizeof packet);
    uint64_t out[3];
    gritwheel_write_bunch(3, false, false, false, false, false, false, false, false, false, false, false,
                          (const uint8_t[]){0xa5}, 1, 8, packet, 8, 0, out);
    CHECK(says(out, (const uint64_t[]){0, 37, 0}, 3));
    gritwheel_close_packet(packet, 8, 37, out);
    CHECK(says(out, (const uint64_t[]){0, 40, 0}, 3));
    /* Document 01's first packet, and the byte after it as it was. */
    CHECK(memcmp(packet, (const uint8_t[]){0x30, 0x00, 0x04, 0xa0, 0x34, 0xff}, 6) == 0);
    reader r;
    r.sequences = r.partials = 0;
    read_at(&r, packet, 5, 9, 0);
    CHECK(r.out[GRITWHEEL_B_HEADER + GRITWHEEL_H_CH_INDEX] == 3 && r.out[GRITWHEEL_B_PAYLOAD_LENGTH] == 8);
    uint64_t byte[7];
    gritwheel_read_u8(packet, 5, r.out[GRITWHEEL_B_PAYLOAD_START], 0, 8, byte);
    CHECK(byte[0] == 0 && byte[1] == 0xa5);
    const uint8_t none[1] = {0};
    gritwheel_close_packet(packet, 8, 65, out);
    CHECK(says(out, (const uint64_t[]){5, 65, 64}, 3));
    gritwheel_close_packet(packet, 8, 64, out);
    CHECK(says(out, (const uint64_t[]){17, 65, 0}, 3));
    /* Final without partial; a payload too long, short, and without room. */
    gritwheel_write_bunch(3, false, false, false, false, false, false, false, false, true, false, false, none, 1, 16384, packet,
                          8, 0, out);
    CHECK(says(out, (const uint64_t[]){16, 0, 0}, 3));
    gritwheel_write_bunch(3, false, false, false, false, false, false, false, false, false, false, false, none, 1, 16384,
                          packet, 8, 0, out);
    CHECK(says(out, (const uint64_t[]){11, 16384, 0}, 3));
    gritwheel_write_bunch(3, false, false, false, false, false, false, false, false, false, false, false, none, 1, 9, packet, 8,
                          0, out);
    CHECK(says(out, (const uint64_t[]){12, 9, 0}, 3));
    gritwheel_write_bunch(3, false, false, false, false, false, false, false, false, false, false, false, none, 1, 8, packet, 8,
                          30, out);
    CHECK(says(out, (const uint64_t[]){17, 67, 0}, 3));
    CHECK(packet[5] == 0xff && packet[7] == 0xff);
}

/* An accumulator of two channels and 40 bits, in the smallest memory for them. */
enum { ACTIVE = 2, BITS = 40, ARENA = GRITWHEEL_ARENA_BYTES(ACTIVE, BITS) };

typedef struct accumulator {
    uint64_t active, total;
    uint32_t channels[ACTIVE];
    gritwheel_place places[ACTIVE];
    uint8_t arena[ARENA], output[8];
    uint64_t out[GRITWHEEL_FRAGMENT_WORDS];
} accumulator;

static void add(accumulator *a, uint64_t sequence, bool initial, bool last, const uint8_t *payload, size_t n, uint64_t bits,
                size_t room) {
    uint64_t header[GRITWHEEL_HEADER_WORDS] = {0};
    header[GRITWHEEL_H_CH_SEQUENCE] = sequence;
    header[GRITWHEEL_H_B_PARTIAL_INITIAL] = initial;
    header[GRITWHEEL_H_B_PARTIAL_FINAL] = last;
    unwrite(a->out, GRITWHEEL_FRAGMENT_WORDS);
    gritwheel_add_fragment(ACTIVE, BITS, a->active, a->total, 3, header, payload, n, bits, a->channels, ACTIVE, a->places,
                           ACTIVE, a->arena, ARENA, a->output, room, a->out);
    a->active = a->out[GRITWHEEL_F_ACTIVE];
    a->total = a->out[GRITWHEEL_F_TOTAL];
}

static void take(accumulator *a, size_t room, bool retire) {
    unwrite(a->out, GRITWHEEL_HANDED_WORDS);
    (retire ? gritwheel_retire_channel : gritwheel_take_completed)(ACTIVE, BITS, a->active, a->total, 3, a->channels, ACTIVE,
                                                                   a->places, ACTIVE, a->arena, ARENA, a->output, room, a->out);
    a->active = a->out[GRITWHEEL_T_ACTIVE];
    a->total = a->out[GRITWHEEL_T_TOTAL];
}

static void fragments(void) {
    const uint8_t bytes[3] = {0x11, 0x22, 0x33};
    accumulator a;
    memset(&a, 0x77, sizeof a);
    uint64_t out[6];
    gritwheel_with_limits(ACTIVE, BITS, a.channels, ACTIVE, a.places, ACTIVE, a.arena, ARENA - 1, out);
    CHECK(says(out, (const uint64_t[]){9, 0, 0, 0, 0}, 5));
    gritwheel_with_limits(ACTIVE, BITS, a.channels, ACTIVE, a.places, ACTIVE, a.arena, ARENA, out);
    CHECK(says(out, (const uint64_t[]){0, ACTIVE, BITS, 0, 0}, 5));
    a.active = a.total = 0;
    /* "16 unfinished bits, initial and final of 8: errors 1, two displaced, 24 discarded." */
    add(&a, 5, true, false, bytes, 2, 16, 8);
    CHECK(a.out[0] == 0 && a.active == 1 && a.total == 16);
    add(&a, 6, true, true, bytes + 2, 1, 8, 2);
    CHECK(a.out[0] == GRITWHEEL_OUTPUT_SHORT && a.out[1] == 3 && a.active == 1 && a.total == 16 && a.output[0] == 0x77);
    add(&a, 6, true, true, bytes + 2, 1, 8, 3);
    CHECK(a.out[GRITWHEEL_F_ERRORS] == 1 && a.out[GRITWHEEL_F_DISPLACED] == 2 && a.out[GRITWHEEL_F_DISCARDED_BITS] == 24);
    CHECK(a.out[GRITWHEEL_F_FIRST + GRITWHEEL_D_BITS] == 16 && a.out[GRITWHEEL_F_SECOND + GRITWHEEL_D_BITS] == 8);
    CHECK(a.out[GRITWHEEL_F_FIRST + GRITWHEEL_D_CAUSE_VALUE] == GRITWHEEL_OVERLAPPING_INITIAL);
    CHECK(a.active == 0 && memcmp(a.output, bytes, 3) == 0 && a.output[3] == 0x77);
    /* "16 finished bits, continuation of 8: missing initial, 24 discarded." */
    add(&a, 5, true, true, bytes, 2, 16, 0);
    CHECK(a.out[GRITWHEEL_F_SHOULD_PROCESS] == 1 && a.out[GRITWHEEL_F_COMPLETED] == 1);
    add(&a, 6, false, false, bytes + 2, 1, 8, 8);
    CHECK(a.out[GRITWHEEL_F_ERROR_KIND] == GRITWHEEL_MISSING_INITIAL && a.out[GRITWHEEL_F_DISCARDED_BITS] == 24);
    /* A chain, taken. */
    add(&a, 1, true, false, bytes, 2, 16, 0);
    add(&a, 2, false, true, bytes + 2, 1, 7, 0);
    take(&a, 2, false);
    CHECK(a.out[0] == GRITWHEEL_OUTPUT_SHORT && a.out[1] == 3 && a.total == 23);
    take(&a, 3, false);
    CHECK(a.out[GRITWHEEL_T_MESSAGE] == 1 && a.out[GRITWHEEL_T_BITS] == 23 && memcmp(a.output, bytes, 3) == 0);
    take(&a, 0, false);
    CHECK(a.out[0] == 0 && a.out[GRITWHEEL_T_MESSAGE] == 0);
    add(&a, 1, true, false, bytes, 2, 16384, 0);
    CHECK(a.out[0] == GRITWHEEL_PAYLOAD_TOO_LONG && a.out[1] == 16384);
    add(&a, 1, true, false, bytes, 1, 16, 0);
    CHECK(a.out[0] == GRITWHEEL_PAYLOAD_SHORT && a.out[1] == 16);
    /* An unfinished message drained, and retired. */
    add(&a, 1, true, false, bytes, 2, 16, 0);
    gritwheel_listed list[1];
    gritwheel_drain_unfinished(ACTIVE, BITS, a.active, a.total, a.channels, ACTIVE, a.places, ACTIVE, a.arena, ARENA, a.output,
                               8, list, 0, out);
    CHECK(says(out, (const uint64_t[]){14, 1, 1, 16, 0, 0}, 6));
    gritwheel_drain_unfinished(ACTIVE, BITS, a.active, a.total, a.channels, ACTIVE, a.places, ACTIVE, a.arena, ARENA, a.output,
                               8, list, 1, out);
    CHECK(says(out, (const uint64_t[]){0, 0, 0, 0, 1, 2}, 6));
    CHECK(list[0].channel == 3 && list[0].bits == 16 && list[0].header[GRITWHEEL_H_CH_SEQUENCE] == 1);
    /* The drain left the memory as it was: with the counts from before it, the message is there still. */
    take(&a, 8, true);
    CHECK(a.out[GRITWHEEL_T_MESSAGE] == 1 && a.out[GRITWHEEL_T_BITS] == 16 && a.active == 0);
    a.total = 1;
    take(&a, 8, true);
    CHECK(a.out[0] == GRITWHEEL_UNSOUND && a.total == 1);
}

int main(void) {
    windows();
    reads();
    floats_and_copies();
    walks();
    packets();
    writes();
    fragments();
    printf("include/test: %d checks, %d of them failed\n", checks, faults);
    return faults != 0;
}
