/*
 * Yachayniq for C: PCEP messages. A PCReq is put to a profile as it is; it is
 * read and written by yq_pcreq.h, and answered by yq_pcrep.h.
 *
 *     yq_bytes message = {bytes, count};
 *     yq_pcreq request;
 *     yq_answer answer = yq_pcreq_read(message, &request);
 *     yq_pcreq_paths paths = yq_profile_pcreq_paths(&profile, 0, message);
 *     while (yq_pcreq_paths_next(&paths)) {
 *         yq_pcrep reply;
 *         yq_pcrep_path(&reply, &request, &paths.path);
 *         yq_message out;
 *         answer = yq_pcrep_write(&reply, &out);
 *         ... out.bytes, out.count ...
 *     }
 *
 * Answers are as in yq_profile.h: what a call is to fill is filled on 0 alone.
 */
#ifndef YQ_MESSAGES_H
#define YQ_MESSAGES_H

#include "yq_pcrep.h"
#include "yq_pcreq.h"

/* The shortest paths of a PCReq: where yq_pcreq_paths_next stands. */
typedef struct {
    const yq_profile *profile;
    uint16_t ingress;
    yq_bytes message;
    bool begun;
    yq_answer answer; /* of the last call: 0, 1 or 2, or why it was refused */
    yq_path path;
} yq_pcreq_paths;

/* The arguments that each call with a profile and a PCReq begins with. */
#define YQ_CARRIED(profile, ingress, message) \
    yq_start((profile)->bytes), (profile)->bytes.count, (ingress), \
    yq_start(message), (message).count

/* The tree of the request that a PCReq carries. Takes 3.4 KB of stack beside the
 * call's. */
static inline yq_answer yq_profile_pcreq_tree(const yq_profile *profile,
                                              uint16_t ingress,
                                              yq_bytes message,
                                              yq_entries *tree)
{
    yq_tree_room room;
    uint32_t numbers[4];
    uint32_t number = yq_pcreq_tree(YQ_CARRIED(profile, ingress, message),
                                    YQ_TREE_ROOM(&room), numbers);
    if (number == 0)
        yq_grown(tree, &room, numbers);
    return yq_answered(YQ_CALL_PCREQ_TREE, number, numbers);
}

/* The destination of the first END-POINTS, by which a path's end is known; any
 * value where there is none, since the call then refuses. */
static inline uint32_t yq_pcreq_destination(yq_bytes message)
{
    uint32_t destination = 0;
    for (size_t at = 4; at + 12 <= message.count;) {
        const uint8_t *object = message.at + at;
        size_t length = (size_t)object[2] << 8 | object[3];
        if (object[0] == 4 && object[1] >> 4 == 1) {
            for (size_t i = 8; i < 12; i++)
                destination = destination << 8 | object[i];
            return destination;
        }
        if (length < 4)
            return destination;
        at += length;
    }
    return destination;
}

/* The first of its shortest paths; 1 where there is none. */
static inline yq_answer yq_profile_pcreq_first(const yq_profile *profile,
                                               uint16_t ingress,
                                               yq_bytes message, yq_path *path)
{
    uint32_t addresses[YQ_ADDRESSES], numbers[4];
    uint32_t destination = yq_pcreq_destination(message);
    yq_lend(addresses, destination);
    uint32_t number = yq_pcreq_first(YQ_CARRIED(profile, ingress, message),
                                     addresses, YQ_ADDRESSES, numbers);
    if (number == 0)
        yq_found(path, addresses, yq_length(addresses, destination), numbers);
    return yq_answered(YQ_CALL_PCREQ_FIRST, number, numbers);
}

/* Its next shortest path after a path, or after any list of addresses of a
 * path's length; 2 where no other is greater. `path` may be `after`. */
static inline yq_answer yq_profile_pcreq_next(const yq_profile *profile,
                                              uint16_t ingress,
                                              yq_bytes message,
                                              const yq_path *after,
                                              yq_path *path)
{
    uint32_t addresses[YQ_ADDRESSES], numbers[4];
    size_t count = yq_given(after);
    uint32_t number = yq_pcreq_next(YQ_CARRIED(profile, ingress, message),
                                    after->addresses, count,
                                    addresses, YQ_ADDRESSES, numbers);
    if (number == 0)
        yq_found(path, addresses, count, numbers);
    return yq_answered(YQ_CALL_PCREQ_NEXT, number, numbers);
}

/* Every shortest path of the request, from the first on. Profile and message must
 * stay as they are meanwhile. */
static inline yq_pcreq_paths yq_profile_pcreq_paths(const yq_profile *profile,
                                                    uint16_t ingress,
                                                    yq_bytes message)
{
    yq_pcreq_paths paths = {profile, ingress, message, false,
                            {0, 0, YQ_CALL_PCREQ_FIRST}, {0, {0}, 0, 0, 0}};
    return paths;
}

/* Goes to the next path; false where there is none or the PCReq is refused. */
static inline bool yq_pcreq_paths_next(yq_pcreq_paths *paths)
{
    if (!paths->begun)
        paths->answer = yq_profile_pcreq_first(paths->profile, paths->ingress,
                                               paths->message, &paths->path);
    else if (paths->answer.number == 0)
        paths->answer = yq_profile_pcreq_next(paths->profile, paths->ingress,
                                              paths->message, &paths->path,
                                              &paths->path);
    paths->begun = true;
    return paths->answer.number == 0;
}

#endif
