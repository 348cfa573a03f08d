/* What the wrapper's tests share: profile W and its nodes, messages, and facts
 * that must hold. */
#ifndef TESTING_H
#define TESTING_H

#include <stdio.h>
#include <stdlib.h>

#include "yq_messages.h"

#define EXPECT(fact) \
    ((fact) ? (void)0 : (printf("%s:%d: %s\n", __FILE__, __LINE__, #fact), exit(1)))

#define NODE(last) (0xC0000200u + (last))

enum { S = 1, P = 11, Q = 12, T = 21, U = 22, Z = 99 };

static const uint8_t onward[] = {32, 4, 0xFB, 0xF1, 32, 4, 0xFB, 0xF2};
static uint8_t w_bytes[232];
static yq_profile w;

static inline bool is(yq_answer answer, uint32_t number, uint32_t place)
{
    return answer.number == number && answer.place == place;
}

static inline bool says(yq_answer answer, const char *expected)
{
    char line[YQ_LINE];
    return strcmp(yq_explain(answer, line), expected) == 0;
}

/* Document 01's request: S to Z by both other domains, no bound. */
static inline yq_request request_w(void)
{
    yq_request asked = {.source = NODE(S), .destination = NODE(Z),
                        .include = {onward, sizeof onward}, .bandwidth = 100};
    return asked;
}

static inline bool same_bytes(yq_bytes one, yq_bytes other)
{
    return one.count == other.count
           && (one.count == 0 || memcmp(one.at, other.at, one.count) == 0);
}

static inline bool same_path(const yq_path *path, const yq_path *other)
{
    return path->count == other->count && path->total == other->total
           && path->total_float == other->total_float
           && path->round == other->round
           && memcmp(path->addresses, other->addresses,
                     path->count * sizeof *path->addresses) == 0;
}

/* Objects of PCReqs and PCReps to W, and a message of a type with such. */
#define RP 2, 0x12, 0, 12, 0, 0, 0, 0, 0, 0, 0, 7
#define ENDS_AT(source, destination) \
    4, 0x12, 0, 12, 192, 0, 2, source, 192, 0, 2, destination
#define ENDS ENDS_AT(S, Z)
#define HUNDRED 5, 0x12, 0, 8, 0x42, 0xC8, 0, 0
#define IRO 10, 0x12, 0, 12, 32, 4, 0xFB, 0xF1, 32, 4, 0xFB, 0xF2
#define XRO 17, 0x12, 0, 16, 0, 0, 0, 0, 1, 8, 192, 0, 2, Q, 32, 1
#define METRIC(kind, flags, a, b) 6, 0x10, 0, 12, 0, 0, flags, kind, a, b, 0, 0

#define MESSAGE(type, ...) \
    framed(type, (const uint8_t[]){__VA_ARGS__}, \
           sizeof (const uint8_t[]){__VA_ARGS__})
#define PCREQ(...) MESSAGE(3, __VA_ARGS__)
#define PCREP(...) MESSAGE(4, __VA_ARGS__)

/* The next call overwrites it. */
static inline yq_bytes framed(uint8_t type, const uint8_t *objects, size_t count)
{
    static uint8_t framing[2000];
    yq_bytes message = {framing, 4 + count};
    framing[0] = 0x20;
    framing[1] = type;
    framing[2] = (uint8_t)(message.count >> 8);
    framing[3] = (uint8_t)message.count;
    memcpy(framing + 4, objects, count);
    return message;
}

/* Numbers that look like chance, the same in every run (xorshift). */
static inline uint32_t drawn(void)
{
    static uint64_t state = 0x9E3779B97F4A7C15u;
    state ^= state << 13;
    state ^= state >> 7;
    state ^= state << 17;
    return (uint32_t)(state >> 32);
}

static inline uint32_t below(uint32_t limit)
{
    return drawn() % limit;
}

/* The first argument is the file of profile W. */
static inline void open_w(int count, char **arguments)
{
    FILE *file = fopen(count == 2 ? arguments[1] : "examples/w.dsp", "rb");
    EXPECT(file != NULL);
    EXPECT(fread(w_bytes, 1, sizeof w_bytes, file) == sizeof w_bytes);
    fclose(file);
    EXPECT(is(yq_profile_open(&w, w_bytes, sizeof w_bytes), 0, 0));
}

#endif
