/*
 * Yachayniq for C: PCReq messages, read and written, and the request that one
 * carries.
 *
 *     yq_pcreq asked;
 *     yq_pcreq_of(&asked, 7, &request);
 *     yq_message out;
 *     yq_answer answer = yq_pcreq_write(&asked, &out);
 *
 * Answers are as in yq_profile.h. A value is kept as the bits of a 32-bit float;
 * yq_float and yq_float_bits turn one into the other.
 *
 * A yq_pcreq takes 33 KB, for as many METRICs as a message can hold, and a
 * yq_message 66 KB. No function here makes one of its own.
 */
#ifndef YQ_PCREQ_H
#define YQ_PCREQ_H

#include "yq_profile.h"

/* What a message of at most 65,535 bytes can hold. */
enum { YQ_MESSAGE = 65535, YQ_METRICS = 5460 };

/* A METRIC's flags, and the type of one that says a total or a bound. */
enum { YQ_METRIC_BOUND = 0x01, YQ_METRIC_COMPUTED = 0x02, YQ_METRIC_TE = 2 };

/* The METRICs of a message. */
typedef struct {
    size_t count;
    uint8_t kinds[YQ_METRICS];   /* 1 IGP, 2 TE, 3 hop count, or any other */
    uint8_t flags[YQ_METRICS];   /* YQ_METRIC_BOUND, YQ_METRIC_COMPUTED */
    uint32_t values[YQ_METRICS]; /* the bits of floats */
} yq_metrics;

/* What a PCReq asks. The two lists lie where it was read or made from. */
typedef struct {
    uint32_t request_id;
    uint32_t rp_flags; /* O 0x20, B 0x10, R 0x08, priority 0x07 */
    uint32_t source, destination;
    uint32_t bandwidth; /* the bits of a float */
    yq_bytes include, exclude;
    yq_metrics metrics;
} yq_pcreq;

typedef struct {
    size_t count;
    uint8_t bytes[YQ_MESSAGE];
} yq_message;

static inline float yq_float(uint32_t bits)
{
    float value;
    memcpy(&value, &bits, sizeof value);
    return value;
}

#define YQ_METRIC_ROOM(metrics) \
    (metrics)->kinds, YQ_METRICS, (metrics)->flags, YQ_METRICS, \
    (metrics)->values, YQ_METRICS

/* The one METRIC of a message. */
static inline void yq_metrics_one(yq_metrics *metrics, uint8_t kind,
                                  uint8_t flags, float value)
{
    metrics->count = 1;
    metrics->kinds[0] = kind;
    metrics->flags[0] = flags;
    metrics->values[0] = yq_float_bits(value);
}

/* Reads a PCReq, whose bytes must stay as they are while its lists are used. */
static inline yq_answer yq_pcreq_read(yq_bytes message, yq_pcreq *request)
{
    uint32_t numbers[11];
    uint32_t number = yq_read_pcreq(yq_start(message), message.count,
                                    YQ_METRIC_ROOM(&request->metrics), numbers);
    if (number == 0) {
        request->request_id = numbers[1];
        request->rp_flags = numbers[2];
        request->source = numbers[3];
        request->destination = numbers[4];
        request->bandwidth = numbers[5];
        request->metrics.count = numbers[6];
        request->include.at = message.at + numbers[7];
        request->include.count = numbers[8];
        request->exclude.at = message.at + numbers[9];
        request->exclude.count = numbers[10];
    }
    return yq_answered(YQ_CALL_READ_PCREQ, number, numbers);
}

/* The request that a PCReq carries, put to this ingress domain. The bound is
 * the first METRIC with that flag, whatever its type. */
static inline yq_request yq_pcreq_request(const yq_pcreq *asked, uint16_t ingress)
{
    const yq_metrics *metrics = &asked->metrics;
    yq_request request = {ingress, asked->source, asked->destination,
                          asked->include, asked->exclude,
                          yq_float(asked->bandwidth), false, 0};
    for (size_t i = 0; i < metrics->count && !request.bounded; i++)
        if ((metrics->flags[i] & YQ_METRIC_BOUND) != 0) {
            request.bounded = true;
            request.bound = yq_float(metrics->values[i]);
        }
    return request;
}

/* The PCReq that carries a request, whose lists it shares. It has no place for
 * the ingress; the bound is a METRIC of type TE. */
static inline void yq_pcreq_of(yq_pcreq *asked, uint32_t request_id,
                               const yq_request *request)
{
    asked->request_id = request_id;
    asked->rp_flags = 0;
    asked->source = request->source;
    asked->destination = request->destination;
    asked->bandwidth = yq_float_bits(request->bandwidth);
    asked->include = request->include;
    asked->exclude = request->exclude;
    asked->metrics.count = 0;
    if (request->bounded)
        yq_metrics_one(&asked->metrics, YQ_METRIC_TE, YQ_METRIC_BOUND,
                       request->bound);
}

/* How many bytes a PCReq takes; 0 where it can't be laid out. */
static inline size_t yq_pcreq_size(const yq_pcreq *asked)
{
    size_t include = asked->include.count, exclude = asked->exclude.count;
    if (include > YQ_MESSAGE || include % 4 != 0 || exclude > YQ_MESSAGE
        || exclude % 4 != 0 || asked->metrics.count > YQ_METRICS)
        return 0;
    size_t size = 4 + 12 + 12 + 12 * asked->metrics.count
                  + (asked->bandwidth == 0 ? 0 : 8)
                  + (include == 0 ? 0 : 4 + include)
                  + (exclude == 0 ? 0 : 8 + exclude);
    return size <= YQ_MESSAGE ? size : 0;
}

/* Each of these three returns where the next byte goes. */
static inline uint8_t *yq_put(uint8_t *to, uint32_t word)
{
    for (int shift = 24; shift >= 0; shift -= 8)
        *to++ = (uint8_t)(word >> shift);
    return to;
}

/* The start of an object: its class, type 1 and P, and its length with a body
 * of this many bytes. */
static inline uint8_t *yq_put_start(uint8_t *to, uint8_t object_class, size_t body)
{
    return yq_put(to, (uint32_t)object_class << 24 | 0x120000 | (uint32_t)(4 + body));
}

static inline uint8_t *yq_put_list(uint8_t *to, yq_bytes list)
{
    memcpy(to, list.at, list.count);
    return to + list.count;
}

/* Lays out a PCReq of this size: RP, END-POINTS, BANDWIDTH, METRICs, IRO, XRO. */
static inline void yq_pcreq_lay_out(const yq_pcreq *asked, size_t size, uint8_t *to)
{
    const yq_metrics *metrics = &asked->metrics;
    to = yq_put(to, 0x20030000 | (uint32_t)size);
    to = yq_put(yq_put_start(to, 2, 8), asked->rp_flags & 0x3F);
    to = yq_put(to, asked->request_id);
    to = yq_put(yq_put_start(to, 4, 8), asked->source);
    to = yq_put(to, asked->destination);
    if (asked->bandwidth != 0)
        to = yq_put(yq_put_start(to, 5, 4), asked->bandwidth);
    for (size_t i = 0; i < metrics->count; i++) {
        uint32_t what = (uint32_t)metrics->flags[i] << 8 | metrics->kinds[i];
        to = yq_put(yq_put_start(to, 6, 8), what);
        to = yq_put(to, metrics->values[i]);
    }
    if (asked->include.count != 0)
        to = yq_put_list(yq_put_start(to, 10, asked->include.count), asked->include);
    if (asked->exclude.count != 0) {
        to = yq_put(yq_put_start(to, 17, 4 + asked->exclude.count), 0);
        yq_put_list(to, asked->exclude);
    }
}

/* Writes a PCReq. This is the wrapper's own work, not a call of the library,
 * which then reads what was laid out: what it refuses is refused with its
 * number and place, so what is written reads back as the same fields, but for
 * RP flags over 0x3F, which are not written. What can't be laid out is 37.
 *
 * On a refusal `out` is empty. The lists may not lie in it. */
static inline yq_answer yq_pcreq_write(const yq_pcreq *asked, yq_message *out)
{
    yq_answer answer = {37, 0, YQ_CALL_WRITE_PCREQ};
    uint8_t no_kinds[1], no_flags[1];
    uint32_t no_values[1], numbers[11];
    size_t size = yq_pcreq_size(asked);
    out->count = 0;
    if (size == 0)
        return answer;
    yq_pcreq_lay_out(asked, size, out->bytes);
    answer.number = yq_read_pcreq(out->bytes, size, no_kinds, 0, no_flags, 0,
                                  no_values, 0, numbers);
    answer.place = numbers[0];
    /* No room is lent for METRICs, and 34 is told when all else is right. */
    if (answer.number == 34)
        answer.number = 0;
    if (answer.number == 0)
        out->count = size;
    return answer;
}

#endif
