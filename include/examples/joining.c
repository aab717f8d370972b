/* From packets to messages: `joining FILE` has a line for each message of a packet log and each part of one that is lost. */
#include "gritwheel.h"

#include <inttypes.h>
#include <stdio.h>
#include <stdlib.h>

enum {
    CHANNELS = GRITWHEEL_MOST_CHANNELS,
    BITS = 8 * 1024 * 1024,
    ARENA = GRITWHEEL_ARENA_BYTES(CHANNELS, BITS),
    PAYLOAD = (GRITWHEEL_MOST_PAYLOAD_BITS + 7) / 8,
    /* The most that one call hands out: all that is held, and the fragment. */
    OUTPUT = ARENA + PAYLOAD
};

typedef struct joining {
    /* The packet reader's. */
    uint64_t sequences, partials;
    uint32_t columns[5][CHANNELS];
    /* The accumulator's. */
    uint64_t active, total;
    uint32_t channels[CHANNELS];
    gritwheel_place places[CHANNELS];
    uint8_t arena[ARENA], output[OUTPUT];
} joining;

/* With memory of these sizes no call refuses. */
static void answered(const uint64_t *out) {
    if (out[0] == GRITWHEEL_ANSWERED)
        return;
    fprintf(stderr, "joining: refusal %" PRIu64 "\n", out[0]);
    exit(2);
}

static void told(const char *what, uint64_t channel, uint64_t bits, const uint8_t *bytes, const char *why) {
    static const char plain[] = "\t\r\n'\"\\", escaped[] = "trn'\"\\";
    printf("%s %" PRIu64 " %" PRIu64 " \"", what, channel, bits);
    for (uint64_t i = 0; i < (bits + 7) / 8; i++) {
        size_t k = 0;
        while (k < 6 && bytes[i] != plain[k])
            k++;
        if (k < 6)
            printf("\\%c", escaped[k]);
        else
            printf(bytes[i] >= 0x20 && bytes[i] < 0x7f ? "%c" : "\\x%02x", bytes[i]);
    }
    printf("\"%s%s\n", why[0] == 0 ? "" : ": ", why);
}

/* The channel's finished message, or whatever it holds. */
static bool handed(joining *j, uint32_t channel, bool finished, uint64_t out[GRITWHEEL_HANDED_WORDS]) {
    (finished ? gritwheel_take_completed : gritwheel_retire_channel)(CHANNELS, BITS, j->active, j->total, channel, j->channels,
                                                                     CHANNELS, j->places, CHANNELS, j->arena, ARENA, j->output,
                                                                     OUTPUT, out);
    answered(out);
    j->active = out[GRITWHEEL_T_ACTIVE];
    j->total = out[GRITWHEEL_T_TOTAL];
    return out[GRITWHEEL_T_MESSAGE] != 0;
}

/* What the channel holds is lost: a finished message would have been taken. */
static void retire(joining *j, uint32_t channel, const char *why) {
    uint64_t out[GRITWHEEL_HANDED_WORDS];
    if (handed(j, channel, false, out))
        told("lost", channel, out[GRITWHEEL_T_BITS], j->output, why);
}

static const char *cause(bool limit, uint64_t value) {
    static const char *const kinds[] = {"", "continuation without initial", "overlapping initial", "mismatched continuation",
                                        "non-byte-aligned non-final fragment"};
    static const char *const limits[] = {"", "too many messages held", "too many bits held"};
    return limit ? limits[value] : kinds[value];
}

static void fragment(joining *j, uint32_t channel, uint64_t *header, uint64_t bits, const uint8_t *bytes) {
    uint64_t out[GRITWHEEL_FRAGMENT_WORDS];
    /* The packet reader's, and the accumulator judges by itself. */
    header[GRITWHEEL_H_HAS_PARTIAL_ERROR] = 0;
    header[GRITWHEEL_H_IS_PARTIAL_COMPLETED] = 0;
    gritwheel_add_fragment(CHANNELS, BITS, j->active, j->total, channel, header, bytes, (bits + 7) / 8, bits, j->channels,
                           CHANNELS, j->places, CHANNELS, j->arena, ARENA, j->output, OUTPUT, out);
    answered(out);
    j->active = out[GRITWHEEL_F_ACTIVE];
    j->total = out[GRITWHEEL_F_TOTAL];
    const uint8_t *held = j->output;
    for (uint64_t i = 0; i < out[GRITWHEEL_F_DISPLACED]; i++) {
        const uint64_t *displaced = out + (i == 0 ? GRITWHEEL_F_FIRST : GRITWHEEL_F_SECOND);
        told("lost", channel, displaced[GRITWHEEL_D_BITS], held,
             cause(displaced[GRITWHEEL_D_CAUSE] != 0, displaced[GRITWHEEL_D_CAUSE_VALUE]));
        held += (displaced[GRITWHEEL_D_BITS] + 7) / 8;
    }
    if (out[GRITWHEEL_F_FRAGMENTS] == 0) {
        uint64_t limit = out[GRITWHEEL_F_RESOURCE_LIMIT];
        told("refused", channel, bits, bytes, cause(limit != 0, limit != 0 ? limit : out[GRITWHEEL_F_ERROR_KIND]));
    }
    if (out[GRITWHEEL_F_SHOULD_PROCESS] && handed(j, channel, true, out))
        told("message", channel, out[GRITWHEEL_T_BITS], j->output, "");
}

static void bunch(joining *j, uint64_t *header, uint64_t bits, const uint8_t *bytes) {
    uint32_t channel = (uint32_t)header[GRITWHEEL_H_CH_INDEX];
    bool opens = header[GRITWHEEL_H_B_OPEN], partial = header[GRITWHEEL_H_B_PARTIAL];
    bool closes = header[GRITWHEEL_H_B_CLOSE] && !header[GRITWHEEL_H_B_DORMANT];
    if (opens)
        retire(j, channel, "its channel opened anew");
    if (header[GRITWHEEL_H_HAS_CHANNEL_LIMIT_ERROR])
        told("refused", channel, bits, bytes, "the channel limit");
    else if (partial)
        fragment(j, channel, header, bits, bytes);
    else
        told("message", channel, bits, bytes, "");
    if (closes)
        retire(j, channel, "its channel closed");
}

static void packet(joining *j, const uint8_t *data, size_t n, int32_t id) {
    uint64_t out[GRITWHEEL_BUNCH_WORDS] = {0};
    for (;;) {
        gritwheel_read_bunch(data, n, id, out[GRITWHEEL_B_NEXT], CHANNELS, j->sequences, j->partials, j->columns[0], CHANNELS,
                             j->columns[1], CHANNELS, j->columns[2], CHANNELS, j->columns[3], CHANNELS, j->columns[4], CHANNELS,
                             out);
        answered(out);
        j->sequences = out[GRITWHEEL_B_SEQUENCES];
        j->partials = out[GRITWHEEL_B_PARTIALS];
        if (out[GRITWHEEL_B_OUTCOME] != GRITWHEEL_BUNCH)
            break;
        uint8_t bytes[PAYLOAD];
        uint64_t bits = out[GRITWHEEL_B_PAYLOAD_LENGTH], copied[GRITWHEEL_ANSWER_WORDS];
        gritwheel_copy_bits_to(data, n, out[GRITWHEEL_B_PAYLOAD_START], out[GRITWHEEL_B_PAYLOAD_POSITION], bits, bytes, PAYLOAD,
                               bits, copied);
        answered(copied);
        bunch(j, out + GRITWHEEL_B_HEADER, bits, bytes);
    }
    if (out[GRITWHEEL_B_OUTCOME] == GRITWHEEL_MALFORMED)
        printf("malformed %" PRId32 "\n", id);
}

/* What the log's end leaves, by ascending channel. */
static void ending(joining *j) {
    static gritwheel_listed list[CHANNELS];
    uint64_t out[GRITWHEEL_DRAINED_WORDS];
    gritwheel_drain_unfinished(CHANNELS, BITS, j->active, j->total, j->channels, CHANNELS, j->places, CHANNELS, j->arena, ARENA,
                               j->output, OUTPUT, list, CHANNELS, out);
    answered(out);
    const uint8_t *held = j->output;
    for (uint64_t i = 0; i < out[GRITWHEEL_Q_MESSAGES]; i++) {
        told("lost", list[i].channel, list[i].bits, held, "the log ended");
        held += list[i].bits / 8;
    }
}

static void opening(joining *j) {
    uint64_t reader[GRITWHEEL_READER_WORDS], limits[GRITWHEEL_LIMITS_WORDS];
    gritwheel_with_max_channels(CHANNELS, j->columns[0], CHANNELS, j->columns[1], CHANNELS, j->columns[2], CHANNELS,
                                j->columns[3], CHANNELS, j->columns[4], CHANNELS, reader);
    answered(reader);
    j->sequences = reader[GRITWHEEL_R_SEQUENCES];
    j->partials = reader[GRITWHEEL_R_PARTIALS];
    gritwheel_with_limits(CHANNELS, BITS, j->channels, CHANNELS, j->places, CHANNELS, j->arena, ARENA, limits);
    answered(limits);
    j->active = limits[GRITWHEEL_L_ACTIVE];
    j->total = limits[GRITWHEEL_L_TOTAL];
}

/* A log is a version byte 1, then for each packet a 2-byte length, a 4-byte signed id, both big-endian, and the packet. */
int main(int argc, char **argv) {
    static joining j;
    static uint8_t data[GRITWHEEL_MOST_PACKET_BYTES];
    FILE *log = argc == 2 ? fopen(argv[1], "rb") : NULL;
    if (log == NULL || fgetc(log) != 1) {
        fprintf(stderr, "joining FILE: a packet log of version 1\n");
        return 2;
    }
    opening(&j);
    uint8_t head[6];
    size_t got;
    while ((got = fread(head, 1, 6, log)) == 6) {
        size_t n = (size_t)head[0] << 8 | head[1];
        uint32_t id = (uint32_t)head[2] << 24 | (uint32_t)head[3] << 16 | (uint32_t)head[4] << 8 | head[5];
        if (fread(data, 1, n, log) != n)
            break;
        packet(&j, data, n, (int32_t)id);
    }
    bool whole = got == 0 && !ferror(log);
    ending(&j);
    fclose(log);
    if (!whole)
        fprintf(stderr, "joining: the log is cut or can't be read\n");
    return whole ? 0 : 1;
}
