/*
 * Yachayniq for C: many calls for first and next on one request, made in one
 * call of the library. Each next takes up the path last handed out.
 *
 *     static const uint8_t kinds[] = {YQ_FIRST, YQ_NEXT, YQ_NEXT};
 *     uint32_t room[YQ_SERIES_ROOM(3)];
 *     yq_calls calls;
 *     yq_answer answer = yq_profile_series(&profile, &request, kinds, 3, room,
 *                                          &calls);
 *     if (answer.number != 0)
 *         ... 100, a kind that is neither: no call is made ...
 *     for (size_t i = 0; i < calls.count; i++) {
 *         yq_path path;
 *         answer = yq_calls_get(&calls, i, &path);
 *         ... path, or answer.number 1, 2 or why the call is refused ...
 *     }
 */
#ifndef YQ_SERIES_H
#define YQ_SERIES_H

#include "yq_profile.h"

enum { YQ_FIRST = 0, YQ_NEXT = 1 };

/* What the library stores for a call: answer, place, total, float bits, round. */
enum { YQ_CALL_NUMBERS = 5 };

/* How many words the caller lends for a series of this many calls: for each
 * its path, its numbers, and the size of its buffer. */
#define YQ_SERIES_ROOM(count) ((count) * (YQ_ADDRESSES + YQ_CALL_NUMBERS + 1))

/* A series that was made. The words stay the caller's. */
typedef struct {
    size_t count;
    uint32_t destination;
    const uint32_t *addresses, *numbers;
} yq_calls;

/* Makes a series of calls, each YQ_FIRST or YQ_NEXT. Answers 0 where they are
 * made, whatever each of them answers, and 100 where a kind is neither. `room`
 * has YQ_SERIES_ROOM(count) words, of any content, and isn't NULL. */
static inline yq_answer yq_profile_series(const yq_profile *profile,
                                          const yq_request *request,
                                          const uint8_t *kinds, size_t count,
                                          uint32_t *room, yq_calls *calls)
{
    uint32_t *addresses = room;
    uint32_t *numbers = addresses + count * YQ_ADDRESSES;
    uint32_t *sizes = numbers + count * YQ_CALL_NUMBERS;
    yq_bytes asked = {kinds, count};
    yq_answer answer = {0, 0, YQ_CALL_SERIES};
    for (size_t i = 0; i < count; i++) {
        yq_lend(addresses + i * YQ_ADDRESSES, request->destination);
        sizes[i] = YQ_ADDRESSES;
    }
    answer.number = yq_series(YQ_ASKED(profile, request), yq_start(asked), count,
                              sizes, count, addresses, count * YQ_ADDRESSES,
                              numbers, count * YQ_CALL_NUMBERS);
    if (answer.number == 0) {
        calls->count = count;
        calls->destination = request->destination;
        calls->addresses = addresses;
        calls->numbers = numbers;
    }
    return answer;
}

/* How a call of a series, counted from 0, went, and the path that it handed
 * out on 0. */
static inline yq_answer yq_calls_get(const yq_calls *calls, size_t index,
                                     yq_path *path)
{
    const uint32_t *addresses = calls->addresses + index * YQ_ADDRESSES;
    const uint32_t *numbers = calls->numbers + index * YQ_CALL_NUMBERS;
    if (numbers[0] == 0)
        yq_found(path, addresses, yq_length(addresses, calls->destination),
                 numbers + 1);
    return yq_answered(YQ_CALL_SERIES, numbers[0], numbers + 1);
}

#endif
