/*
 * Yachayniq for C: PCRep messages, made for a PCReq, written and read. Answers
 * are as in yq_profile.h.
 *
 * A yq_pcrep takes 66 KB, as large as a reply can be. No function here makes
 * one of its own.
 */
#ifndef YQ_PCREP_H
#define YQ_PCREP_H

#include "yq_pcreq.h"

/* What a message of at most 65,535 bytes can hold. */
enum { YQ_ERO_ADDRESSES = 8189 };

/* What a PCRep answers. */
typedef struct {
    uint32_t request_id;
    uint32_t rp_flags; /* as in a yq_pcreq */
    bool found;        /* whether it is a path: if not, a NO-PATH */
    uint8_t nature;    /* of the NO-PATH: nature of issue, and flag C */
    bool c_flag;
    size_t count; /* of the path's addresses */
    uint32_t addresses[YQ_ERO_ADDRESSES];
    yq_metrics metrics;
} yq_pcrep;

/* The reply that there is no path: nature of issue 0, no flags, no METRIC. */
static inline void yq_pcrep_no_path(yq_pcrep *reply, const yq_pcreq *request)
{
    reply->request_id = request->request_id;
    reply->rp_flags = 0;
    reply->found = false;
    reply->nature = 0;
    reply->c_flag = false;
    reply->count = 0;
    reply->metrics.count = 0;
}

/* The reply with a path, and its total as a METRIC: TE, computed. */
static inline void yq_pcrep_path(yq_pcrep *reply, const yq_pcreq *request,
                                 const yq_path *path)
{
    yq_pcrep_no_path(reply, request);
    reply->found = true;
    reply->count = yq_given(path);
    memcpy(reply->addresses, path->addresses,
           reply->count * sizeof *reply->addresses);
    yq_metrics_one(&reply->metrics, YQ_METRIC_TE, YQ_METRIC_COMPUTED,
                   path->total_float);
}

/* Writes a reply as a PCRep. */
static inline yq_answer yq_pcrep_write(const yq_pcrep *reply, yq_message *out)
{
    const yq_metrics *metrics = &reply->metrics;
    yq_answer too_long = {37, 0, YQ_CALL_WRITE_PCREP};
    uint32_t numbers[2];
    /* More than there is room for is more than a message holds. */
    if (metrics->count > YQ_METRICS
        || (reply->found && reply->count > YQ_ERO_ADDRESSES))
        return too_long;
    uint32_t number = yq_write_pcrep(
        reply->request_id, reply->rp_flags, reply->found, reply->addresses,
        reply->found ? reply->count : 0, reply->nature, reply->c_flag,
        metrics->kinds, metrics->count, metrics->flags, metrics->count,
        metrics->values, metrics->count, out->bytes, YQ_MESSAGE, numbers);
    if (number == 0)
        out->count = numbers[1];
    return yq_answered(YQ_CALL_WRITE_PCREP, number, numbers);
}

/* Reads a PCRep. */
static inline yq_answer yq_pcrep_read(yq_bytes message, yq_pcrep *reply)
{
    uint32_t numbers[8];
    uint32_t number = yq_read_pcrep(yq_start(message), message.count,
                                    reply->addresses, YQ_ERO_ADDRESSES,
                                    YQ_METRIC_ROOM(&reply->metrics), numbers);
    if (number == 0) {
        reply->request_id = numbers[1];
        reply->rp_flags = numbers[2];
        reply->found = numbers[3] == 1;
        reply->nature = (uint8_t)numbers[4];
        reply->c_flag = numbers[5] == 1;
        reply->count = numbers[6];
        reply->metrics.count = numbers[7];
    }
    return yq_answered(YQ_CALL_READ_PCREP, number, numbers);
}

#endif
