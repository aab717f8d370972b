/* Gritwheel's calls for C and C++: bit reader, record walks, packet reader, bunch writer, partial accumulator.
 *
 * Every call ends on all input, refuses bad input itself and allocates nothing: all memory is lent by the caller. Each call
 * writes its answer as 64-bit words to `out`; word 0 is 0 where it answers, or the number of the refusal. Words that a case
 * has no use for are 0.
 *
 * What the caller must see to, since no call can test it:
 *   - a pointer is valid for the length beside it (of bytes, or of whole elements), aligned for its type, and not null, also
 *     where the length is 0;
 *   - memory that a call may write (every pointer without const, `out` among them) overlaps no other memory of that call;
 *   - no other thread touches lent memory during a call. Calls keep nothing between them and share nothing.
 * All else is tested: numbers, lengths and the content of lent memory may be anything.
 *
 * "Document 01" is the paper that fixes each answer. Bit k is bit k mod 8, lowest first, of byte k div 8. Signed numbers
 * stand in a word as their two's complement of 32 bits: (int32_t)(uint32_t)word. Flags are 0 or 1.
 *
 * From packets to messages: what a program does with each bunch, in this order. joining.c (in include/examples; installed, in
 * share/gritwheel/examples) is the whole program, from a packet log to its messages; `told` prints a line.
 *
 *     static void bunch(joining *j, uint64_t *header, uint64_t bits, const uint8_t *bytes) {
 *         uint32_t channel = (uint32_t)header[GRITWHEEL_H_CH_INDEX];
 *         bool opens = header[GRITWHEEL_H_B_OPEN], partial = header[GRITWHEEL_H_B_PARTIAL];
 *         bool closes = header[GRITWHEEL_H_B_CLOSE] && !header[GRITWHEEL_H_B_DORMANT];
 *         if (opens)
 *             retire(j, channel, "its channel opened anew");
 *         if (header[GRITWHEEL_H_HAS_CHANNEL_LIMIT_ERROR])
 *             told("refused", channel, bits, bytes, "the channel limit");
 *         else if (partial)
 *             fragment(j, channel, header, bits, bytes);
 *         else
 *             told("message", channel, bits, bytes, "");
 *         if (closes)
 *             retire(j, channel, "its channel closed");
 *     }
 *
 *   - `retire` calls gritwheel_retire_channel and tells what it hands out, an unfinished message, as lost. The accumulator goes
 *     by sequences, and knows of no channel that it was closed or opened. After a close that isn't dormant the packet reader
 *     counts the channel's sequences anew, so a fragment of its next life may have just the number that a message of the life
 *     before waits for. A close comes last: the bunch that closes a channel may end its message.
 *   - `fragment` clears the packet reader's two flags, calls gritwheel_add_fragment, tells what was displaced or refused, and
 *     takes a message that is finished. Any other bunch is a message itself; handed in, it would be judged as a continuation,
 *     and join or displace what is held. A bunch with the limit flag has no sequence by which it could be judged.
 *   - At the log's end gritwheel_drain_unfinished hands out what is left, which is lost too.
 *
 * What this can't see: the reader takes packets in the order in which it is given them, and a reliable bunch has no sequence
 * in its packet, the reader counts it. So on a reliable channel packets that are missing, there twice or in another order
 * leave no gap: a message is joined without a middle fragment, with one twice, with two exchanged, or of the halves of two
 * messages. An unreliable fragment has its packet's id as its sequence: there a gap in the ids is refused, but a middle
 * fragment that is there twice is joined twice. Nothing else speaks of such packets but their ids.
 */
#ifndef GRITWHEEL_H
#define GRITWHEEL_H

#include <stdbool.h>
#include <stddef.h>
#include <stdint.h>

#ifdef __cplusplus
extern "C" {
#endif

/* Word 0 of every answer, and what the refusal returns in the words after it (in their order). */
enum gritwheel_refusal {
    GRITWHEEL_ANSWERED = 0,
    GRITWHEEL_TOO_FEW_BITS = 1,          /* too few bits: position, length, bits requested */
    GRITWHEEL_PACKED_RUNS_ON = 2,        /* fifth packed byte continues: start position */
    GRITWHEEL_PACKED_TOO_LARGE = 3,      /* fifth chunk above 15: start position */
    GRITWHEEL_SERIALIZED_MAXIMUM_0 = 4,  /* serialized maximum 0: the maximum */
    GRITWHEEL_BIT_LENGTH = 5,            /* window longer than its data, cursor past its end, or copy target short:
                                            requested, available bits */
    GRITWHEEL_WIDTH = 6,                 /* width above 64: width */
    GRITWHEEL_DATA_TOO_LONG = 7,         /* data above 67,108,864 bytes: length */
    GRITWHEEL_PACKET_TOO_LONG = 8,       /* packet above 65,535 bytes: length */
    GRITWHEEL_UNFIT = 9,                 /* opening limits or lent room unfit: nothing */
    GRITWHEEL_UNSOUND = 10,              /* lent state not sound: nothing */
    GRITWHEEL_PAYLOAD_TOO_LONG = 11,     /* payload above 16,383 bits: count */
    GRITWHEEL_PAYLOAD_SHORT = 12,        /* payload data shorter than its bits: count */
    GRITWHEEL_OUTPUT_SHORT = 13,         /* output bytes too few: bytes needed */
    GRITWHEEL_LIST_FULL = 14,            /* record list full: the position of that record's start; draining: places needed */
    GRITWHEEL_FUNCTION_COUNT_0 = 15,     /* function count 0: nothing */
    GRITWHEEL_UNWRITABLE = 16,           /* header can't be written: nothing */
    GRITWHEEL_NO_ROOM = 17,              /* no room for the bunch or end mark: the packet's bits with it */
    GRITWHEEL_NO_STREAM = 255            /* a word that says no stream, of gritwheel_list_records alone: the word. Document 01
                                            has no such number */
};

enum {
    GRITWHEEL_MOST_DATA_BYTES = 67108864,
    GRITWHEEL_MOST_PACKET_BYTES = 65535,
    GRITWHEEL_MOST_PAYLOAD_BITS = 16383,
    GRITWHEEL_MOST_CHANNELS = 4096,
    GRITWHEEL_MOST_ACTIVE = 4096,
    GRITWHEEL_MOST_BUFFERED_BITS = 536870912
};

/* ---- The bit reader (libexports_bitio.a) --------------------------------------------------------------------------------
 *
 * A reader is a byte slice and a window in it: `start` (its first bit, counted from the data's first), `position` (bits
 * consumed, counted from the window's first) and `length` (its bits). A call is handed the window and answers the window
 * afterwards; to read on, hand that in. No call of the bit reader writes to `bytes`.
 *
 * Refusals in order: 7; 5 for a window past its data (its length, and the data bits from its start, 0 if none), then for a
 * cursor past its window (its place, the window's length), then for a short copy target; 6; 4; 1, 2, 3. Afterwards the
 * window stands at the reported position for 1, forty bits past the start for 2 and 3, and where it was for 4 to 7. */
enum gritwheel_answer {
    GRITWHEEL_A_REFUSAL = 0,
    GRITWHEEL_A_VALUE = 1, /* to 3: the value's words, or what the refusal returns */
    GRITWHEEL_A_START = 4, /* the window afterwards */
    GRITWHEEL_A_POSITION = 5,
    GRITWHEEL_A_LENGTH = 6,
    GRITWHEEL_ANSWER_WORDS = 7
};

/* A window over all bits of the data, in words 4 to 6; zeros there where it refuses (7). */
void gritwheel_new(const uint8_t *bytes, size_t n, uint64_t out[GRITWHEEL_ANSWER_WORDS]);

/* A window over the first `bit_len` bits of the data (7, 5). */
void gritwheel_with_bit_len(const uint8_t *bytes, size_t n, uint64_t bit_len, uint64_t out[GRITWHEEL_ANSWER_WORDS]);

/* Three questions that look at no data and refuse nothing: the position, the length, and whether position >= length. */
uint64_t gritwheel_position(uint64_t start, uint64_t position, uint64_t length);
uint64_t gritwheel_len_bits(uint64_t start, uint64_t position, uint64_t length);
bool gritwheel_at_end(uint64_t start, uint64_t position, uint64_t length);

/* Word 1: the bits left to read. 5 where the cursor is past its window. */
void gritwheel_bits_remaining(uint64_t start, uint64_t position, uint64_t length, uint64_t out[GRITWHEEL_ANSWER_WORDS]);

/* Word 1: 0 or 1. */
void gritwheel_read_bit(const uint8_t *bytes, size_t n, uint64_t start, uint64_t position, uint64_t length,
                        uint64_t out[GRITWHEEL_ANSWER_WORDS]);

/* Word 1: `count` bits, the first lowest. Count 0 reads nothing, even at the end; above 64 it is 6. */
void gritwheel_read_bits(const uint8_t *bytes, size_t n, uint64_t start, uint64_t position, uint64_t length, uint32_t count,
                         uint64_t out[GRITWHEEL_ANSWER_WORDS]);

/* Word 1: 8, 16, 32, 32 (signed) or 64 bits. */
void gritwheel_read_u8(const uint8_t *bytes, size_t n, uint64_t start, uint64_t position, uint64_t length,
                       uint64_t out[GRITWHEEL_ANSWER_WORDS]);
void gritwheel_read_u16(const uint8_t *bytes, size_t n, uint64_t start, uint64_t position, uint64_t length,
                        uint64_t out[GRITWHEEL_ANSWER_WORDS]);
void gritwheel_read_u32(const uint8_t *bytes, size_t n, uint64_t start, uint64_t position, uint64_t length,
                        uint64_t out[GRITWHEEL_ANSWER_WORDS]);
void gritwheel_read_i32(const uint8_t *bytes, size_t n, uint64_t start, uint64_t position, uint64_t length,
                        uint64_t out[GRITWHEEL_ANSWER_WORDS]);
void gritwheel_read_u64(const uint8_t *bytes, size_t n, uint64_t start, uint64_t position, uint64_t length,
                        uint64_t out[GRITWHEEL_ANSWER_WORDS]);

/* An IEEE-754 single or double. Word 1 is 0: `*value` is the number. Word 1 is 1: the bits are a NaN's, word 2 has them, and
 * `*value` stays as it was. It also stays where the call refuses. `*value` is stored where there is a number, which is no NaN,
 * and never loaded: a NaN that stands there keeps its bits. What is proved is said of a `*value` that holds a float, so give it
 * one before the call. */
void gritwheel_read_f32(const uint8_t *bytes, size_t n, uint64_t start, uint64_t position, uint64_t length, float *value,
                        uint64_t out[GRITWHEEL_ANSWER_WORDS]);
void gritwheel_read_f64(const uint8_t *bytes, size_t n, uint64_t start, uint64_t position, uint64_t length, double *value,
                        uint64_t out[GRITWHEEL_ANSWER_WORDS]);

/* Word 1: a packed number (seven value bits a byte, low bit "more", at most five bytes). 1 asks for 8 bits; 2, 3. */
void gritwheel_read_int_packed(const uint8_t *bytes, size_t n, uint64_t start, uint64_t position, uint64_t length,
                               uint64_t out[GRITWHEEL_ANSWER_WORDS]);

/* Word 1: a serialized number of maximum `max`. Maximum 1 reads nothing; 0 is 4. */
void gritwheel_read_serialized_int(const uint8_t *bytes, size_t n, uint64_t start, uint64_t position, uint64_t length,
                                   uint32_t max, uint64_t out[GRITWHEEL_ANSWER_WORDS]);

/* Copies `count` bits to the target, the first lowest; the last byte's spare high bits become 0, no later byte is touched.
 * `m` is the target's length in bytes. A refused copy has written nothing. */
void gritwheel_copy_bits_to(const uint8_t *bytes, size_t n, uint64_t start, uint64_t position, uint64_t length, uint8_t *target,
                            size_t m, uint64_t count, uint64_t out[GRITWHEEL_ANSWER_WORDS]);

/* Words 1 to 3: the window (start, position 0, length) of the next `count` bits; words 4 to 6 the reader's, past them. */
void gritwheel_sub_reader(const uint8_t *bytes, size_t n, uint64_t start, uint64_t position, uint64_t length, uint64_t count,
                          uint64_t out[GRITWHEEL_ANSWER_WORDS]);

/* Past `count` bits, and past all that are left. */
void gritwheel_skip_bits(const uint8_t *bytes, size_t n, uint64_t start, uint64_t position, uint64_t length, uint64_t count,
                         uint64_t out[GRITWHEEL_ANSWER_WORDS]);
void gritwheel_skip_remaining(const uint8_t *bytes, size_t n, uint64_t start, uint64_t position, uint64_t length,
                              uint64_t out[GRITWHEEL_ANSWER_WORDS]);

/* ---- The record walks (libexports_field.a) ------------------------------------------------------------------------------
 *
 * A walk writes a record to each place of the lent list in order, and leaves the places after its last record as they were.
 * 1, 2, 3 and 14 keep the records already written; word 7 counts them, also then. Refusals in order: 7, 5, 15, then 1, 2, 3
 * and 14. Refusal 14 is given exactly when a complete further record finds no place; the window then stands at that record's
 * start. To have them all, walk again from the first window with more places. */
typedef struct gritwheel_record {
    uint64_t handle;
    uint64_t bit_count;
    uint64_t position;  /* the payload's first bit, counted from the window's first */
    uint64_t start_bit; /* the same, counted from the data's first: the start of the payload's window */
} gritwheel_record;

enum gritwheel_walk {
    GRITWHEEL_W_REFUSAL = 0, /* to 6: as of every reading call */
    GRITWHEEL_W_STOP = 1,    /* an enum gritwheel_stop */
    GRITWHEEL_W_BITS = 2,    /* of the tail, or abandoned */
    GRITWHEEL_W_START = 4,
    GRITWHEEL_W_POSITION = 5,
    GRITWHEEL_W_LENGTH = 6,
    GRITWHEEL_W_COUNT = 7, /* records written, also where it refuses */
    GRITWHEEL_WALK_WORDS = 8
};

enum gritwheel_stop {
    GRITWHEEL_ENDED = 0,
    GRITWHEEL_CLASS_NET_CACHE_TAIL = 1, /* RepLayout: bits stand after its end */
    GRITWHEEL_ABANDONED = 2             /* a record doesn't fit; its bits, from its start to the window's end, are skipped */
};

/* RepLayout: one ignored bit, then records up to handle 0. The second leaves the window at the tail's first bit, the first at
 * its end. `k` counts the list's places. */
void gritwheel_parse_rep_layout(const uint8_t *bytes, size_t n, uint64_t start, uint64_t position, uint64_t length,
                                gritwheel_record *records, size_t k, uint64_t out[GRITWHEEL_WALK_WORDS]);
void gritwheel_parse_rep_layout_content_block(const uint8_t *bytes, size_t n, uint64_t start, uint64_t position,
                                              uint64_t length, gritwheel_record *records, size_t k,
                                              uint64_t out[GRITWHEEL_WALK_WORDS]);

/* Class net cache: records up to the window's end. Function count 0 is 15. */
void gritwheel_parse_class_net_cache(const uint8_t *bytes, size_t n, uint64_t start, uint64_t position, uint64_t length,
                                     uint32_t function_count, gritwheel_record *records, size_t k,
                                     uint64_t out[GRITWHEEL_WALK_WORDS]);

/* The same walks into a list of field records: the walk runs on `numbers` first, and then a record is written for each place
 * that it filled. A record has a place where both lists have one, so 14 comes where the shorter list is full; places of
 * `records` after the last one, and of `numbers` after the first `i`, stay as they were. `stream` is 0 for RepLayout, 1 for
 * RepLayout with its tail kept, 2 for the class net cache; `function_count` is looked at there alone. Any other word is 255, in
 * 15's place: after 7 and 5, with nothing written to either list. */
enum gritwheel_stream { GRITWHEEL_REP_LAYOUT = 0, GRITWHEEL_REP_LAYOUT_CONTENT_BLOCK = 1, GRITWHEEL_CLASS_NET_CACHE = 2 };

typedef struct gritwheel_field_record {
    uint32_t handle;
    uint32_t bit_count;
    uint64_t in_window; /* the payload's first bit, counted from the window's first */
    uint64_t in_packet; /* the same, counted from the data's first */
} gritwheel_field_record;

void gritwheel_list_records(const uint8_t *bytes, size_t n, uint64_t start, uint64_t position, uint64_t length, uint32_t stream,
                            uint32_t function_count, gritwheel_field_record *records, size_t i, gritwheel_record *numbers,
                            size_t k, uint64_t out[GRITWHEEL_WALK_WORDS]);

/* ---- A bunch's header as twenty words -----------------------------------------------------------------------------------
 *
 * Handed in, any words are a header: a flag is any word but 0, a field of 32 bits the word's low ones, a close reason other
 * than 1 Destroyed, a word that is no kind's none. */
enum gritwheel_header {
    GRITWHEEL_H_PACKET_ID = 0, /* signed */
    GRITWHEEL_H_CH_INDEX = 1,
    GRITWHEEL_H_B_OPEN = 2,
    GRITWHEEL_H_B_CLOSE = 3,
    GRITWHEEL_H_B_DORMANT = 4,
    GRITWHEEL_H_B_IS_REPLICATION_PAUSED = 5,
    GRITWHEEL_H_B_RELIABLE = 6,
    GRITWHEEL_H_B_PARTIAL = 7,
    GRITWHEEL_H_B_PARTIAL_INITIAL = 8,
    GRITWHEEL_H_B_PARTIAL_FINAL = 9,
    GRITWHEEL_H_B_HAS_PACKAGE_MAP_EXPORTS = 10,
    GRITWHEEL_H_B_HAS_MUST_BE_MAPPED_GUIDS = 11,
    GRITWHEEL_H_CH_SEQUENCE = 12,  /* signed */
    GRITWHEEL_H_CLOSE_REASON = 13, /* 0 Destroyed, 1 Dormancy */
    GRITWHEEL_H_PAYLOAD_BIT_COUNT = 14,
    GRITWHEEL_H_PAYLOAD_BIT_OFFSET = 15,
    GRITWHEEL_H_HAS_PARTIAL_ERROR = 16,
    GRITWHEEL_H_PARTIAL_ERROR_KIND = 17, /* an enum gritwheel_kind */
    GRITWHEEL_H_IS_PARTIAL_COMPLETED = 18,
    GRITWHEEL_H_HAS_CHANNEL_LIMIT_ERROR = 19,
    GRITWHEEL_HEADER_WORDS = 20
};

enum gritwheel_kind {
    GRITWHEEL_KIND_NONE = 0,
    GRITWHEEL_MISSING_INITIAL = 1,
    GRITWHEEL_OVERLAPPING_INITIAL = 2,
    GRITWHEEL_MISMATCHED_CONTINUATION = 3,
    GRITWHEEL_NON_BYTE_ALIGNED_FRAGMENT = 4
};

/* ---- The packet reader (libexports_packet.a) ----------------------------------------------------------------------------
 *
 * A reader is its limit, how many places of each of its two tables count, and five lent columns: channels with a reliable
 * sequence and their sequences; channels with a message in flight, its sequence and whether it is reliable. The caller keeps
 * them between calls and writes nothing to them; what they hold before the opening doesn't matter. */
enum gritwheel_opened_reader {
    GRITWHEEL_R_REFUSAL = 0,
    GRITWHEEL_R_MAX_CHANNELS = 1,
    GRITWHEEL_R_SEQUENCES = 2,
    GRITWHEEL_R_PARTIALS = 3,
    GRITWHEEL_READER_WORDS = 4
};

/* A fresh reader. 9 where the limit is above 4,096 or above a column's length. Nothing lent is written. */
void gritwheel_with_max_channels(size_t max_channels, const uint32_t *sequence_channels, size_t i,
                                 const uint32_t *sequence_numbers, size_t j, const uint32_t *partial_channels, size_t k,
                                 const uint32_t *partial_sequences, size_t l, const uint32_t *partial_reliables, size_t m,
                                 uint64_t out[GRITWHEEL_READER_WORDS]);

enum gritwheel_bunch {
    GRITWHEEL_B_REFUSAL = 0,
    GRITWHEEL_B_RETURNED = 1, /* to 2: what the refusal returns */
    GRITWHEEL_B_OUTCOME = 3,  /* an enum gritwheel_outcome */
    GRITWHEEL_B_NEXT = 4,     /* the cursor to read on at */
    GRITWHEEL_B_BUNCHES = 5,  /* to 8: by how much the Rust's counts rise */
    GRITWHEEL_B_MALFORMED = 6,
    GRITWHEEL_B_PARTIAL_ERRORS = 7,
    GRITWHEEL_B_CHANNEL_LIMITS = 8,
    GRITWHEEL_B_SEQUENCES = 9, /* how many places of each table then count: hand both in with the next call */
    GRITWHEEL_B_PARTIALS = 10,
    GRITWHEEL_B_HEADER = 11,        /* to 30: the header's words */
    GRITWHEEL_B_PAYLOAD_START = 31, /* to 33: the payload's window in the packet */
    GRITWHEEL_B_PAYLOAD_POSITION = 32,
    GRITWHEEL_B_PAYLOAD_LENGTH = 33,
    GRITWHEEL_BUNCH_WORDS = 34
};

enum gritwheel_outcome { GRITWHEEL_BUNCH = 0, GRITWHEEL_END = 1, GRITWHEEL_MALFORMED = 2 };

/* The bunch at bit `at` of a packet: start at 0, go on at word 4 until the outcome is no bunch. Refusals in order: 10 (the
 * reader or its tables aren't sound), 8, 5 (`at` past the data's end; its place, the data's bits). A refused call changes
 * nothing lent, and words 4, 9 and 10 are what was handed in. A malformed packet keeps the sequence of a bunch whose payload
 * overruns it. Table places that no longer count keep what stood there. */
void gritwheel_read_bunch(const uint8_t *packet, size_t n, int32_t packet_id, uint64_t at, size_t max_channels,
                          size_t sequences, size_t partials, uint32_t *sequence_channels, size_t i,
                          uint32_t *sequence_numbers, size_t j, uint32_t *partial_channels, size_t k,
                          uint32_t *partial_sequences, size_t l, uint32_t *partial_reliables, size_t m,
                          uint64_t out[GRITWHEEL_BUNCH_WORDS]);

/* ---- The bunch writer (libexports_writer.a) ----------------------------------------------------------------------------- */
enum gritwheel_written {
    GRITWHEEL_WR_REFUSAL = 0,
    GRITWHEEL_WR_BIT = 1, /* up to which bit the packet is written; or what the refusal returns, to 2 */
    GRITWHEEL_WRITTEN_WORDS = 3
};

/* Writes a bunch at bit `at` of the lent packet of `m` bytes: the header's parts (`dormancy` is its close reason) and `count`
 * bits of the payload. Refusals in order: 5 (`at` past the room; its place, the room's bits), 16, 11, 12, 17. 16 is given for
 * initial or final without partial, dormancy without close, and b_dormant unequal to close with dormancy. Bits before `at` and
 * bytes past the last one written stay, and that byte's spare bits are 0; a refused call writes nothing to the packet. */
void gritwheel_write_bunch(uint32_t ch_index, bool b_open, bool b_close, bool b_dormant, bool dormancy,
                           bool b_is_replication_paused, bool b_reliable, bool b_partial, bool b_partial_initial,
                           bool b_partial_final, bool b_has_package_map_exports, bool b_has_must_be_mapped_guids,
                           const uint8_t *payload, size_t n, uint64_t count, uint8_t *packet, size_t m, uint64_t at,
                           uint64_t out[GRITWHEEL_WRITTEN_WORDS]);

/* Adds the end mark and zeros to the byte's end; word 1 over 8 is then the packet's length in bytes. 5, 17. */
void gritwheel_close_packet(uint8_t *packet, size_t m, uint64_t at, uint64_t out[GRITWHEEL_WRITTEN_WORDS]);

/* ---- The partial accumulator (libexports_bunch.a) -----------------------------------------------------------------------
 *
 * An accumulator is its two limits, how many places and bits count, and lent memory: a column of channels, a place beside
 * each, and an arena for the messages' bytes. The caller keeps them between calls and writes nothing to them; what they hold
 * before the opening doesn't matter. Words 2 and 3 of each answer after the opening are the places and bits that then count:
 * hand both in with the next call, also after a refusal, which leaves them as they were.
 *
 * A call tests 10, then 11, 12 and 13 as far as they apply. A refused call changes nothing lent; 13 says how many bytes of
 * output it takes, and the call can be made again with them. Messages go to the front of the output, one behind the other,
 * each rounded up to a byte; later bytes of the output stay. */
typedef struct gritwheel_place {
    uint64_t bits;
    uint64_t finished;
    uint64_t reliable;
    uint64_t sequence;
    uint64_t header[GRITWHEEL_HEADER_WORDS];
} gritwheel_place;

enum gritwheel_limits {
    GRITWHEEL_L_REFUSAL = 0,
    GRITWHEEL_L_MAX_ACTIVE = 1,
    GRITWHEEL_L_MAX_BUFFERED_BITS = 2,
    GRITWHEEL_L_ACTIVE = 3,
    GRITWHEEL_L_TOTAL = 4,
    GRITWHEEL_LIMITS_WORDS = 5
};

/* How many bytes the arena takes at least: 8 x arena bytes >= buffered bits + 7 x active. */
#define GRITWHEEL_ARENA_BYTES(max_active, max_buffered_bits) (((max_buffered_bits) + 7 * (max_active) + 7) / 8)

/* An empty accumulator. 9 for a limit above 4,096 active or 536,870,912 bits, fewer channels or places than active, or a
 * smaller arena. Nothing lent is written. */
void gritwheel_with_limits(size_t max_active, uint64_t max_buffered_bits, const uint32_t *channels, size_t i,
                           const gritwheel_place *places, size_t j, const uint8_t *arena, size_t k,
                           uint64_t out[GRITWHEEL_LIMITS_WORDS]);

/* What adding a fragment answers. A displaced message is its header, its bits, and why. */
enum gritwheel_fragment {
    GRITWHEEL_F_REFUSAL = 0,
    GRITWHEEL_F_RETURNED = 1,
    GRITWHEEL_F_ACTIVE = 2,
    GRITWHEEL_F_TOTAL = 3,
    GRITWHEEL_F_HEADER = 4,           /* to 23: the fragment's header afterwards */
    GRITWHEEL_F_SHOULD_PROCESS = 24,  /* 1: the message is finished and can be taken */
    GRITWHEEL_F_RESOURCE_LIMIT = 25,  /* an enum gritwheel_limit */
    GRITWHEEL_F_DISCARDED_BITS = 26,  /* of all that the call displaced or didn't keep, each once */
    GRITWHEEL_F_ERROR_KIND = 27,      /* an enum gritwheel_kind */
    GRITWHEEL_F_OVERLAPPING_INITIAL = 28, /* 1: it replaced an unfinished message, or that kind came in with the header */
    GRITWHEEL_F_ERRORS = 29,          /* to 31: by how much the Rust's counts rise */
    GRITWHEEL_F_FRAGMENTS = 30,
    GRITWHEEL_F_COMPLETED = 31,
    GRITWHEEL_F_DISPLACED = 32,       /* how many messages are displaced: 0, 1 or 2 */
    GRITWHEEL_F_FIRST = 33,           /* to 55: the first */
    GRITWHEEL_F_SECOND = 56,          /* to 78: the second */
    GRITWHEEL_FRAGMENT_WORDS = 79
};

enum gritwheel_displaced {
    GRITWHEEL_D_HEADER = 0,
    GRITWHEEL_D_BITS = 20,
    GRITWHEEL_D_CAUSE = 21, /* 0: a sequence error, word 22 its kind; 1: a limit, word 22 which */
    GRITWHEEL_D_CAUSE_VALUE = 22,
    GRITWHEEL_DISPLACED_WORDS = 23
};

enum gritwheel_limit { GRITWHEEL_LIMIT_NONE = 0, GRITWHEEL_ACTIVE_STATES = 1, GRITWHEEL_BUFFERED_BITS = 2 };

/* Adds a fragment of `bits` bits on a channel. 10, 11, 12, 13. The channel is `ch_index`; the header's own channel, count and
 * partial flag aren't looked at. A caller that hands on the packet reader's bunches hands on those with GRITWHEEL_H_B_PARTIAL
 * alone, and clears GRITWHEEL_H_HAS_PARTIAL_ERROR and GRITWHEEL_H_IS_PARTIAL_COMPLETED first: that reader's tracking is advice,
 * and a final with the error flag is discarded.
 *
 * A fragment that isn't kept can be the second displaced message, and then its bits are counted there: over 16 unfinished bits
 * an initial that is final, of 8, discards 24. One case reports fewer: a final of no bits that continues a message and came in
 * with the error flag retires it, and none of its bits are counted. */
void gritwheel_add_fragment(size_t max_active, uint64_t max_buffered_bits, size_t active, uint64_t total, uint32_t ch_index,
                            const uint64_t header[GRITWHEEL_HEADER_WORDS], const uint8_t *payload, size_t n, uint64_t bits,
                            uint32_t *channels, size_t i, gritwheel_place *places, size_t j, uint8_t *arena, size_t k,
                            uint8_t *output, size_t l, uint64_t out[GRITWHEEL_FRAGMENT_WORDS]);

enum gritwheel_handed {
    GRITWHEEL_T_REFUSAL = 0,
    GRITWHEEL_T_RETURNED = 1,
    GRITWHEEL_T_ACTIVE = 2,
    GRITWHEEL_T_TOTAL = 3,
    GRITWHEEL_T_MESSAGE = 4, /* 1 where a message is handed out; else the words after it are 0 */
    GRITWHEEL_T_HEADER = 5,  /* to 24: its initial fragment's header */
    GRITWHEEL_T_BITS = 25,
    GRITWHEEL_HANDED_WORDS = 26
};

/* Takes a channel's finished message; takes whatever the channel holds, finished or not. 10, 13. The second is to be called
 * before a bunch that opens the channel, and after one that closes it and isn't dormant. */
void gritwheel_take_completed(size_t max_active, uint64_t max_buffered_bits, size_t active, uint64_t total, uint32_t ch_index,
                              uint32_t *channels, size_t i, gritwheel_place *places, size_t j, uint8_t *arena, size_t k,
                              uint8_t *output, size_t l, uint64_t out[GRITWHEEL_HANDED_WORDS]);
void gritwheel_retire_channel(size_t max_active, uint64_t max_buffered_bits, size_t active, uint64_t total, uint32_t ch_index,
                              uint32_t *channels, size_t i, gritwheel_place *places, size_t j, uint8_t *arena, size_t k,
                              uint8_t *output, size_t l, uint64_t out[GRITWHEEL_HANDED_WORDS]);

typedef struct gritwheel_listed {
    uint64_t channel;
    uint64_t bits;
    uint64_t header[GRITWHEEL_HEADER_WORDS];
} gritwheel_listed;

enum gritwheel_drained {
    GRITWHEEL_Q_REFUSAL = 0,
    GRITWHEEL_Q_RETURNED = 1,
    GRITWHEEL_Q_ACTIVE = 2, /* 0 afterwards, as is the total */
    GRITWHEEL_Q_TOTAL = 3,
    GRITWHEEL_Q_MESSAGES = 4, /* how many are listed */
    GRITWHEEL_Q_BYTES = 5,    /* and their bytes in the output */
    GRITWHEEL_DRAINED_WORDS = 6
};

/* Empties the accumulator: unfinished messages go to the list and the output by ascending channel. Finished ones that nobody
 * took are dropped without a word: they stand in no answer and no count. 10, 13, 14 (the places needed). Channels, places and
 * arena stay as they are: nothing in them counts afterwards. */
void gritwheel_drain_unfinished(size_t max_active, uint64_t max_buffered_bits, size_t active, uint64_t total,
                                const uint32_t *channels, size_t i, const gritwheel_place *places, size_t j,
                                const uint8_t *arena, size_t k, uint8_t *output, size_t l, gritwheel_listed *list, size_t m,
                                uint64_t out[GRITWHEEL_DRAINED_WORDS]);

#ifdef __cplusplus
}
#endif

#endif
