/* Replays recorded answers through gritwheel.h, those of the bit reader through the reader that keeps its slice too: replay LIST
 *
 * A record is a line; oracle/driver/line.rs has its fields, and the records.rs of each part what they are for its calls. Every
 * word of an answer and all that is lent is held to the record. What differs is told with the record's number, and a record that
 * can't be replayed differs. */
#include "gritwheel.h"

#include <math.h>
#include <stdio.h>
#include <string.h>

enum { MOST_DATA = 0xffff, MOST_LENT = 0xff, FIRST_WORDS = 7, MOST_WORDS = GRITWHEEL_FRAGMENT_WORDS };

static struct record {
    uint64_t call, n, start, position, length, argument, m;
    uint8_t data[MOST_DATA], before[MOST_LENT], after[MOST_LENT];
} record;

static unsigned long number;
static bool differs;

/* The answer's words, and what is recorded of them. */
static uint64_t out[MOST_WORDS], recorded[MOST_WORDS];

/* What our call is lent: to read, and to write. */
static uint8_t data[MOST_DATA], lent[MOST_LENT];

static void fault(const char *why) {
    printf("record %lu: %s\n", number, why);
    differs = true;
}

static void same(const char *what, size_t index, uint64_t ours, uint64_t as_recorded) {
    if (ours != as_recorded) {
        printf("record %lu: %s %zu is %llx, and %llx in the list\n", number, what, index, (unsigned long long)ours,
               (unsigned long long)as_recorded);
        differs = true;
    }
}

/* ---- A record's text ---------------------------------------------------------------------------------------------------- */

static const char *rest;

static bool character(char wanted) {
    if (*rest != wanted)
        return false;
    rest++;
    return true;
}

static bool digits(size_t count, uint64_t *value) {
    static const char all[] = "0123456789abcdef";
    *value = 0;
    for (; count > 0; count--, rest++) {
        const char *digit = *rest == '\0' ? NULL : strchr(all, *rest);
        if (digit == NULL)
            return false;
        *value = 16 * *value + (uint64_t)(digit - all);
    }
    return true;
}

static bool numbers(size_t count, uint64_t *values) {
    for (size_t i = 0; i < count; i++)
        if (!character(' ') || !digits(16, values + i))
            return false;
    return true;
}

/* A dash where there are none. */
static bool bytes(uint64_t count, uint8_t *to) {
    if (!character(' ') || (count == 0 && !character('-')))
        return false;
    for (uint64_t i = 0, byte; i < count; i++) {
        if (!digits(2, &byte))
            return false;
        to[i] = (uint8_t)byte;
    }
    return true;
}

static bool parsed(const char *line) {
    uint64_t window[4];
    rest = line;
    bool whole = digits(2, &record.call) && character(' ') && digits(4, &record.n) && bytes(record.n, record.data) &&
                 numbers(4, window) && character(' ') && digits(2, &record.m) && bytes(record.m, record.before) &&
                 numbers(FIRST_WORDS, recorded) && bytes(record.m, record.after) && character('\n') && *rest == '\0';
    if (!whole) {
        printf("record %lu: cut, of another size, or with another character: column %zu\n", number, (size_t)(rest - line) + 1);
        differs = true;
        return false;
    }
    record.start = window[0];
    record.position = window[1];
    record.length = window[2];
    record.argument = window[3];
    return true;
}

static uint64_t big_endian(const uint8_t *from, size_t count) {
    uint64_t value = 0;
    for (size_t i = 0; i < count; i++)
        value = 256 * value + from[i];
    return value;
}

/* ---- Before and after a call -------------------------------------------------------------------------------------------- */

/* An answer of `own` words; those behind it are recorded as 0. No word is what it must become before it is written. */
static void unwrite(size_t own, size_t all) {
    for (size_t i = 0; i < all; i++)
        out[i] = i < own ? ~recorded[i] : 0;
}

static void same_words(size_t all) {
    for (size_t i = 0; i < all; i++)
        same("word", i, out[i], recorded[i]);
}

static void same_bytes(const uint8_t *ours, size_t count, const uint8_t *as_recorded) {
    for (size_t i = 0; i < count; i++)
        same("lent byte", i, ours[i], as_recorded[i]);
}

static bool too_wide(uint64_t value) {
    if (value <= UINT32_MAX)
        return false;
    fault("an argument is too wide for its type");
    return true;
}

static void no_such_size(void) { fault("data or lent memory of a size that its call has not"); }

/* ---- The bit reader ----------------------------------------------------------------------------------------------------- */

/* The reader that keeps its slice has a call for each of its methods too (libexports_reader.a). They answer as those of
 * gritwheel.h do and stand in no header. */
#define WINDOW const uint8_t *bytes, size_t n, uint64_t start, uint64_t position, uint64_t length
void gritwheel_reader_new(const uint8_t *bytes, size_t n, uint64_t *out);
void gritwheel_reader_with_bit_len(const uint8_t *bytes, size_t n, uint64_t bit_len, uint64_t *out);
uint64_t gritwheel_reader_position(WINDOW);
uint64_t gritwheel_reader_len_bits(WINDOW);
bool gritwheel_reader_at_end(WINDOW);
void gritwheel_reader_bits_remaining(WINDOW, uint64_t *out);
void gritwheel_reader_read_bit(WINDOW, uint64_t *out);
void gritwheel_reader_read_bits(WINDOW, uint32_t count, uint64_t *out);
void gritwheel_reader_read_u8(WINDOW, uint64_t *out);
void gritwheel_reader_read_u16(WINDOW, uint64_t *out);
void gritwheel_reader_read_u32(WINDOW, uint64_t *out);
void gritwheel_reader_read_i32(WINDOW, uint64_t *out);
void gritwheel_reader_read_u64(WINDOW, uint64_t *out);
void gritwheel_reader_read_f32(WINDOW, float *value, uint64_t *out);
void gritwheel_reader_read_f64(WINDOW, double *value, uint64_t *out);
void gritwheel_reader_read_int_packed(WINDOW, uint64_t *out);
void gritwheel_reader_read_serialized_int(WINDOW, uint32_t max, uint64_t *out);
void gritwheel_reader_copy_bits_to(WINDOW, uint8_t *target, size_t m, uint64_t count, uint64_t *out);
void gritwheel_reader_sub_reader(WINDOW, uint64_t count, uint64_t *out);
void gritwheel_reader_skip_bits(WINDOW, uint64_t count, uint64_t *out);
void gritwheel_reader_skip_remaining(WINDOW, uint64_t *out);

/* A number's bits are recorded where our word is 0 and the float goes out beside it; a NaN there counts as all ones. What is lent
 * before is a NaN, and stays to the last bit where no number is read. */
static void read_f32(void (*read)(WINDOW, float *value, uint64_t *out)) {
    uint32_t bits = 0x7fa5a5a5;
    const uint32_t unread = bits;
    float value;
    memcpy(&value, &bits, sizeof value);
    read(data, (size_t)record.n, record.start, record.position, record.length, &value, out);
    memcpy(&bits, &value, sizeof bits);
    if (out[0] == 0 && out[1] == 0)
        out[2] = isnan(value) ? UINT64_MAX : bits;
    else if (bits != unread)
        fault("the float was written");
}

static void read_f64(void (*read)(WINDOW, double *value, uint64_t *out)) {
    uint64_t bits = 0x7ff4a5a5a5a5a5a5;
    const uint64_t unread = bits;
    double value;
    memcpy(&value, &bits, sizeof value);
    read(data, (size_t)record.n, record.start, record.position, record.length, &value, out);
    memcpy(&bits, &value, sizeof bits);
    if (out[0] == 0 && out[1] == 0)
        out[2] = isnan(value) ? UINT64_MAX : bits;
    else if (bits != unread)
        fault("the float was written");
}

/* Calls that answer by a plain number. */
static void plain(uint64_t answer) {
    const uint64_t words[FIRST_WORDS] = {0, answer, 0, 0, record.start, record.position, record.length};
    memcpy(out, words, sizeof words);
}

static void ask_window(void) {
    const uint64_t s = record.start, p = record.position, l = record.length, a = record.argument;
    const size_t n = (size_t)record.n;
    switch (record.call) {
    case 1: gritwheel_new(data, n, out); break;
    case 2: gritwheel_with_bit_len(data, n, a, out); break;
    case 3: plain(gritwheel_position(s, p, l)); break;
    case 4: plain(gritwheel_len_bits(s, p, l)); break;
    case 5: gritwheel_bits_remaining(s, p, l, out); break;
    case 6: plain(gritwheel_at_end(s, p, l)); break;
    case 7: gritwheel_read_bit(data, n, s, p, l, out); break;
    case 8: gritwheel_read_bits(data, n, s, p, l, (uint32_t)a, out); break;
    case 9: gritwheel_read_u8(data, n, s, p, l, out); break;
    case 10: gritwheel_read_u16(data, n, s, p, l, out); break;
    case 11: gritwheel_read_u32(data, n, s, p, l, out); break;
    case 12: gritwheel_read_i32(data, n, s, p, l, out); break;
    case 13: gritwheel_read_u64(data, n, s, p, l, out); break;
    case 14: read_f32(gritwheel_read_f32); break;
    case 15: read_f64(gritwheel_read_f64); break;
    case 16: gritwheel_read_int_packed(data, n, s, p, l, out); break;
    case 17: gritwheel_read_serialized_int(data, n, s, p, l, (uint32_t)a, out); break;
    case 18: gritwheel_copy_bits_to(data, n, s, p, l, lent, (size_t)record.m, a, out); break;
    case 19: gritwheel_sub_reader(data, n, s, p, l, a, out); break;
    case 20: gritwheel_skip_bits(data, n, s, p, l, a, out); break;
    case 21: gritwheel_skip_remaining(data, n, s, p, l, out); break;
    }
}

static void ask_reader(void) {
    const uint64_t s = record.start, p = record.position, l = record.length, a = record.argument;
    const size_t n = (size_t)record.n;
    switch (record.call) {
    case 1: gritwheel_reader_new(data, n, out); break;
    case 2: gritwheel_reader_with_bit_len(data, n, a, out); break;
    case 3: plain(gritwheel_reader_position(data, n, s, p, l)); break;
    case 4: plain(gritwheel_reader_len_bits(data, n, s, p, l)); break;
    case 5: gritwheel_reader_bits_remaining(data, n, s, p, l, out); break;
    case 6: plain(gritwheel_reader_at_end(data, n, s, p, l)); break;
    case 7: gritwheel_reader_read_bit(data, n, s, p, l, out); break;
    case 8: gritwheel_reader_read_bits(data, n, s, p, l, (uint32_t)a, out); break;
    case 9: gritwheel_reader_read_u8(data, n, s, p, l, out); break;
    case 10: gritwheel_reader_read_u16(data, n, s, p, l, out); break;
    case 11: gritwheel_reader_read_u32(data, n, s, p, l, out); break;
    case 12: gritwheel_reader_read_i32(data, n, s, p, l, out); break;
    case 13: gritwheel_reader_read_u64(data, n, s, p, l, out); break;
    case 14: read_f32(gritwheel_reader_read_f32); break;
    case 15: read_f64(gritwheel_reader_read_f64); break;
    case 16: gritwheel_reader_read_int_packed(data, n, s, p, l, out); break;
    case 17: gritwheel_reader_read_serialized_int(data, n, s, p, l, (uint32_t)a, out); break;
    case 18: gritwheel_reader_copy_bits_to(data, n, s, p, l, lent, (size_t)record.m, a, out); break;
    case 19: gritwheel_reader_sub_reader(data, n, s, p, l, a, out); break;
    case 20: gritwheel_reader_skip_bits(data, n, s, p, l, a, out); break;
    case 21: gritwheel_reader_skip_remaining(data, n, s, p, l, out); break;
    }
}

static void read_bits(void) {
    static void (*const asks[2])(void) = {ask_window, ask_reader};
    if ((record.call == 8 || record.call == 17) && too_wide(record.argument))
        return;
    for (size_t i = 0; i < 2; i++) {
        memcpy(lent, record.before, (size_t)record.m);
        unwrite(FIRST_WORDS, FIRST_WORDS);
        asks[i]();
        same_words(FIRST_WORDS);
        same_bytes(lent, (size_t)record.m, record.after);
    }
}

/* ---- The walks: what is lent is the answer's eighth word and the places, words of 64 bits ------------------------------- */

enum { PLACE_BYTES = sizeof(gritwheel_record), MOST_PLACES = MOST_LENT / PLACE_BYTES };

static void put_places(gritwheel_record *places, size_t k, const uint8_t *from) {
    for (size_t i = 0; i < k; i++, from += PLACE_BYTES) {
        places[i].handle = big_endian(from, 8);
        places[i].bit_count = big_endian(from + 8, 8);
        places[i].position = big_endian(from + 16, 8);
        places[i].start_bit = big_endian(from + 24, 8);
    }
}

static void same_places(const gritwheel_record *places, size_t k, const gritwheel_record *expected) {
    for (size_t i = 0; i < k; i++) {
        same("handle in place", i, places[i].handle, expected[i].handle);
        same("bit count in place", i, places[i].bit_count, expected[i].bit_count);
        same("position in place", i, places[i].position, expected[i].position);
        same("start in place", i, places[i].start_bit, expected[i].start_bit);
    }
}

/* The walk on numbers. */
static void walk_numbers(size_t k, const gritwheel_record *expected) {
    const uint64_t s = record.start, p = record.position, l = record.length;
    const size_t n = (size_t)record.n;
    gritwheel_record places[MOST_PLACES];
    put_places(places, k, record.before + 8);
    unwrite(GRITWHEEL_WALK_WORDS, GRITWHEEL_WALK_WORDS);
    switch (record.call) {
    case 22: gritwheel_parse_rep_layout(data, n, s, p, l, places, k, out); break;
    case 23: gritwheel_parse_rep_layout_content_block(data, n, s, p, l, places, k, out); break;
    case 24: gritwheel_parse_class_net_cache(data, n, s, p, l, (uint32_t)record.argument, places, k, out); break;
    }
    same_words(GRITWHEEL_WALK_WORDS);
    same_places(places, k, expected);
}

/* The same into a list of field records, by the stream's word: a record for each place that was written, and no other. */
static void walk_records(uint32_t word, size_t k, const gritwheel_record *expected) {
    const gritwheel_field_record unwritten = {0xc3a5c3a5, 0x5a3c5a3c, 0xa5a5a5a5a5a5a5a5, 0xa5a5a5a5a5a5a5a5};
    gritwheel_record places[MOST_PLACES];
    gritwheel_field_record records[MOST_PLACES];
    put_places(places, k, record.before + 8);
    for (size_t i = 0; i < k; i++)
        records[i] = unwritten;
    unwrite(GRITWHEEL_WALK_WORDS, GRITWHEEL_WALK_WORDS);
    gritwheel_list_records(data, (size_t)record.n, record.start, record.position, record.length, word, (uint32_t)record.argument,
                           records, k, places, k, out);
    same_words(GRITWHEEL_WALK_WORDS);
    same_places(places, k, expected);
    for (size_t i = 0; i < k; i++) {
        const bool written = i < recorded[GRITWHEEL_W_COUNT];
        same("handle in record", i, records[i].handle, written ? expected[i].handle : unwritten.handle);
        same("bit count in record", i, records[i].bit_count, written ? expected[i].bit_count : unwritten.bit_count);
        same("position in record", i, records[i].in_window, written ? expected[i].position : unwritten.in_window);
        same("start in record", i, records[i].in_packet, written ? expected[i].start_bit : unwritten.in_packet);
    }
}

/* Each walk both ways. By its number alone, 25, the list of field records has its word above the function count. */
static void walk(void) {
    const size_t k = (size_t)record.m / PLACE_BYTES;
    gritwheel_record expected[MOST_PLACES];
    if (record.m != 8 + PLACE_BYTES * k) {
        no_such_size();
        return;
    }
    recorded[GRITWHEEL_W_COUNT] = big_endian(record.after, 8);
    put_places(expected, k, record.after + 8);
    if (record.call == 25) {
        walk_records((uint32_t)(record.argument >> 32), k, expected);
        return;
    }
    if (too_wide(record.argument))
        return;
    walk_numbers(k, expected);
    walk_records((uint32_t)(record.call - 22), k, expected);
}

/* ---- The packet reader: what is lent is the answer's words from the eighth on and five columns, words of 32 bits -------- */

enum { COLUMN = 5, LATER_WORDS = GRITWHEEL_BUNCH_WORDS - FIRST_WORDS };

static void read_bunch(void) {
    uint32_t columns[5 * COLUMN];
    if (record.m != 4 * (LATER_WORDS + 5 * COLUMN)) {
        no_such_size();
        return;
    }
    if (too_wide(record.start))
        return;
    for (size_t i = 0; i < LATER_WORDS; i++)
        recorded[FIRST_WORDS + i] = big_endian(record.after + 4 * i, 4);
    for (size_t i = 0; i < 5 * COLUMN; i++)
        columns[i] = (uint32_t)big_endian(record.before + 4 * (LATER_WORDS + i), 4);
    unwrite(GRITWHEEL_BUNCH_WORDS, GRITWHEEL_BUNCH_WORDS);
    gritwheel_read_bunch(data, (size_t)record.n, (int32_t)(uint32_t)record.start, record.position, (size_t)record.length,
                         (size_t)(record.argument % 256), (size_t)(record.argument / 256), columns, COLUMN, columns + COLUMN,
                         COLUMN, columns + 2 * COLUMN, COLUMN, columns + 3 * COLUMN, COLUMN, columns + 4 * COLUMN, COLUMN, out);
    same_words(GRITWHEEL_BUNCH_WORDS);
    for (size_t i = 0; i < 5 * COLUMN; i++)
        same("column word", i, columns[i], big_endian(record.after + 4 * (LATER_WORDS + i), 4));
}

/* ---- The writer: what is lent is the packet, start the channel, position the cursor, length the flags ------------------- */

enum { FLAGS = 11 };

static void write_packet(void) {
    const size_t m = (size_t)record.m;
    bool flags[FLAGS];
    if (too_wide(record.start))
        return;
    if (record.length >> FLAGS != 0) {
        fault("a flag that no header has");
        return;
    }
    for (size_t i = 0; i < FLAGS; i++)
        flags[i] = record.length >> i & 1;
    unwrite(GRITWHEEL_WRITTEN_WORDS, FIRST_WORDS);
    if (record.call == 27)
        gritwheel_write_bunch((uint32_t)record.start, flags[0], flags[1], flags[2], flags[3], flags[4], flags[5], flags[6],
                              flags[7], flags[8], flags[9], flags[10], data, (size_t)record.n, record.argument, lent, m,
                              record.position, out);
    else
        gritwheel_close_packet(lent, m, record.position, out);
    same_words(FIRST_WORDS);
    same_bytes(lent, m, record.after);
}

/* ---- The accumulator ---------------------------------------------------------------------------------------------------- */

enum { SIZES = 5, PLACE_WORDS = 24, LISTED_WORDS = 22, MOST_TABLE = MOST_LENT / 44 };

/* A word of 16 bits; one from 2^15 on stands for one around 2^31. */
static uint64_t short_word(const uint8_t *from) {
    const uint64_t word = big_endian(from, 2);
    return word < 0x8000 ? word : word + 0x7fff4000;
}

/* Words in a row: into a place or a listed message, and against one. */
static const uint8_t *put_words(uint64_t *to, size_t count, const uint8_t *from) {
    for (size_t i = 0; i < count; i++, from += 2)
        to[i] = short_word(from);
    return from;
}

static const uint8_t *same_short(const char *what, const uint64_t *ours, size_t count, const uint8_t *from) {
    for (size_t i = 0; i < count; i++, from += 2)
        same(what, i, ours[i], short_word(from));
    return from;
}

static struct memory {
    uint32_t channels[MOST_TABLE];
    gritwheel_place places[MOST_TABLE];
    gritwheel_listed list[MOST_TABLE];
    uint8_t arena[MOST_LENT], output[MOST_LENT];
    /* How much of it is lent. */
    size_t k, l, bytes, room;
} memory;

static void put_memory(const uint8_t *from) {
    for (size_t i = 0; i < memory.k; i++, from += 2)
        memory.channels[i] = (uint32_t)short_word(from);
    for (size_t i = 0; i < memory.k; i++) {
        uint64_t words[PLACE_WORDS];
        from = put_words(words, PLACE_WORDS, from);
        memcpy(memory.places + i, words, sizeof words);
    }
    for (size_t i = 0; i < memory.l; i++) {
        uint64_t words[LISTED_WORDS];
        from = put_words(words, LISTED_WORDS, from);
        memcpy(memory.list + i, words, sizeof words);
    }
    memcpy(memory.arena, from, memory.bytes);
    memcpy(memory.output, from + memory.bytes, memory.room);
}

static void same_memory(const uint8_t *from) {
    for (size_t i = 0; i < memory.k; i++, from += 2)
        same("channel", i, memory.channels[i], short_word(from));
    for (size_t i = 0; i < memory.k; i++) {
        uint64_t words[PLACE_WORDS];
        memcpy(words, memory.places + i, sizeof words);
        from = same_short("a place's word", words, PLACE_WORDS, from);
    }
    for (size_t i = 0; i < memory.l; i++) {
        uint64_t words[LISTED_WORDS];
        memcpy(words, memory.list + i, sizeof words);
        from = same_short("a listed message's word", words, LISTED_WORDS, from);
    }
    for (size_t i = 0; i < memory.bytes; i++)
        same("arena byte", i, memory.arena[i], from[i]);
    for (size_t i = 0; i < memory.room; i++)
        same("output byte", i, memory.output[i], from[memory.bytes + i]);
}

static const size_t own_words[5] = {GRITWHEEL_LIMITS_WORDS, GRITWHEEL_FRAGMENT_WORDS, GRITWHEEL_HANDED_WORDS,
                                    GRITWHEEL_HANDED_WORDS, GRITWHEEL_DRAINED_WORDS};

static void accumulator_call(size_t payload, const uint64_t *header) {
    const size_t max_active = (size_t)(record.length >> 32), active = (size_t)(record.argument >> 32);
    const uint64_t max_bits = record.length & UINT32_MAX, total = record.argument & UINT32_MAX;
    const uint32_t channel = (uint32_t)record.start;
    struct memory *m = &memory;
    switch (record.call) {
    case 29: gritwheel_with_limits(max_active, max_bits, m->channels, m->k, m->places, m->k, m->arena, m->bytes, out); break;
    case 30:
        gritwheel_add_fragment(max_active, max_bits, active, total, channel, header, data + SIZES, payload, record.position,
                               m->channels, m->k, m->places, m->k, m->arena, m->bytes, m->output, m->room, out);
        break;
    case 31:
        gritwheel_take_completed(max_active, max_bits, active, total, channel, m->channels, m->k, m->places, m->k, m->arena,
                                 m->bytes, m->output, m->room, out);
        break;
    case 32:
        gritwheel_retire_channel(max_active, max_bits, active, total, channel, m->channels, m->k, m->places, m->k, m->arena,
                                 m->bytes, m->output, m->room, out);
        break;
    case 33:
        gritwheel_drain_unfinished(max_active, max_bits, active, total, m->channels, m->k, m->places, m->k, m->arena, m->bytes,
                                   m->output, m->room, m->list, m->l, out);
        break;
    }
}

/* The data is five sizes, the payload, an add's header, and the answer's words from the eighth on but for zeros at their end. */
static void accumulate(void) {
    const size_t n = (size_t)record.n, payload = n < SIZES ? 0 : data[0];
    const size_t header_at = SIZES + payload, words_at = header_at + (record.call == 30 ? 2 * GRITWHEEL_HEADER_WORDS : 0);
    if (n < words_at || (n - words_at) % 2 != 0 || (n - words_at) / 2 > MOST_WORDS - FIRST_WORDS) {
        no_such_size();
        return;
    }
    memory.k = data[1];
    memory.bytes = data[2];
    memory.room = data[3];
    memory.l = data[4];
    if (record.m != (2 + 2 * PLACE_WORDS) * memory.k + 2 * LISTED_WORDS * memory.l + memory.bytes + memory.room) {
        no_such_size();
        return;
    }
    if (too_wide(record.start))
        return;
    uint64_t header[GRITWHEEL_HEADER_WORDS] = {0};
    put_words(header, (words_at - header_at) / 2, data + header_at);
    memset(recorded + FIRST_WORDS, 0, sizeof recorded - sizeof recorded[0] * FIRST_WORDS);
    put_words(recorded + FIRST_WORDS, (n - words_at) / 2, data + words_at);
    put_memory(record.before);
    unwrite(own_words[record.call - 29], MOST_WORDS);
    accumulator_call(payload, header);
    same_words(MOST_WORDS);
    same_memory(record.after);
}

/* ---- Document 01's desk checks that no theorem makes -------------------------------------------------------------------- */

static bool nine_of_one(void) {
    return record.call == 24 && record.length == 9 && record.argument == 1 && big_endian(data, 2) == 0 &&
           out[GRITWHEEL_W_REFUSAL] == 0 && out[GRITWHEEL_W_STOP] == GRITWHEEL_ENDED && out[GRITWHEEL_W_COUNT] == 1 &&
           big_endian(record.after + 16, 8) == 0;
}

/* A fragment of 8 bits on a channel that holds 16. */
static bool eight_over_sixteen(bool finished, bool initial, bool last) {
    const uint64_t *header = out + GRITWHEEL_F_HEADER;
    return record.call == 30 && record.position == 8 && record.argument == ((uint64_t)1 << 32) + 16 &&
           short_word(record.before + 2 * memory.k + 2) == finished && header[GRITWHEEL_H_B_PARTIAL_INITIAL] == initial &&
           header[GRITWHEEL_H_B_PARTIAL_FINAL] == last && out[GRITWHEEL_F_REFUSAL] == 0 && out[GRITWHEEL_F_DISCARDED_BITS] == 24;
}

static bool over_unfinished(void) {
    return eight_over_sixteen(false, true, true) && out[GRITWHEEL_F_ERRORS] == 1 && out[GRITWHEEL_F_DISPLACED] == 2;
}

static bool over_finished(void) {
    return eight_over_sixteen(true, false, false) && out[GRITWHEEL_F_ERROR_KIND] == GRITWHEEL_MISSING_INITIAL;
}

static struct desk_check {
    unsigned long number;
    const char *sentence;
    bool (*holds)(void);
    bool met;
} desk_checks[3] = {
    {1058, "Nine, count 1: one empty record.", nine_of_one, false},
    {2170, "16 unfinished bits, initial and final of 8: errors 1, two displaced, 24 discarded.", over_unfinished, false},
    {2172, "16 finished bits, continuation of 8: missing initial, 24 discarded.", over_finished, false},
};

static void desk_check(void) {
    for (size_t i = 0; i < 3; i++) {
        struct desk_check *check = desk_checks + i;
        if (check->number == number && !differs) {
            check->met = check->holds();
            printf("%s record %lu: %s\n", check->met ? "desk check," : "not the desk check,", number, check->sentence);
        }
    }
}

/* ---- The list ----------------------------------------------------------------------------------------------------------- */

static void replay(void) {
    memcpy(data, record.data, (size_t)record.n);
    memcpy(lent, record.before, (size_t)record.m);
    if (1 <= record.call && record.call <= 21)
        read_bits();
    else if (22 <= record.call && record.call <= 25)
        walk();
    else if (record.call == 26)
        read_bunch();
    else if (record.call == 27 || record.call == 28)
        write_packet();
    else if (29 <= record.call && record.call <= 33)
        accumulate();
    else
        fault("no call has this number");
    if (memcmp(data, record.data, (size_t)record.n) != 0)
        fault("what was lent to be read was written");
}

int main(int count, char **words) {
    static char line[1 << 18];
    FILE *list = count == 2 ? fopen(words[1], "r") : NULL;
    if (list == NULL) {
        fprintf(stderr, "replay LIST\n");
        return 2;
    }
    unsigned long differing = 0;
    while (fgets(line, sizeof line, list) != NULL) {
        number++;
        differs = false;
        if (parsed(line)) {
            replay();
            desk_check();
        }
        differing += differs;
    }
    bool whole = number > 0 && !ferror(list);
    fclose(list);
    for (size_t i = 0; i < 3; i++)
        whole = whole && desk_checks[i].met;
    if (!whole)
        printf("the list can't be read, is empty, or lacks a desk check\n");
    printf("%lu answers replayed, %lu differ\n", number, differing);
    return !whole || differing != 0;
}
