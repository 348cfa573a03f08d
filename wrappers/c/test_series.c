/* Series of calls beside first and next, one by one. */
#include "testing.h"
#include "yq_series.h"

enum { LONGEST = 6 };

static const uint8_t without_q[] = {1, 8, 192, 0, 2, Q, 32, 1};
static const uint8_t only_desired[] = {0x81, 8, 192, 0, 2, P, 32, 1,
                                       0x81, 8, 192, 0, 2, Q, 32, 1};
static uint32_t room[YQ_SERIES_ROOM(LONGEST)];

/* A series of these kinds answers as the calls themselves do, each next given
 * the path last handed out, or before any an empty list. */
static void beside_single_calls(const yq_request *request, const uint8_t *kinds,
                                size_t count)
{
    yq_calls calls;
    yq_path last = {.count = 0};
    EXPECT(is(yq_profile_series(&w, request, kinds, count, room, &calls), 0, 0));
    EXPECT(calls.count == count);
    for (size_t i = 0; i < count; i++) {
        yq_path path, told = {.count = 0};
        yq_answer alone = kinds[i] == YQ_FIRST
                              ? yq_profile_first(&w, request, &path)
                              : yq_profile_next(&w, request, &last, &path);
        EXPECT(is(yq_calls_get(&calls, i, &told), alone.number, alone.place));
        if (alone.number == 0) {
            EXPECT(same_path(&told, &path));
            last = path;
        } else {
            EXPECT(told.count == 0);
        }
    }
}

/* Every series of up to LONGEST calls. */
static void every_series(yq_request request)
{
    for (size_t count = 0; count <= LONGEST; count++)
        for (unsigned which = 0; which < 1u << count; which++) {
            uint8_t kinds[LONGEST];
            for (size_t i = 0; i < count; i++)
                kinds[i] = which >> i & 1 ? YQ_NEXT : YQ_FIRST;
            beside_single_calls(&request, kinds, count);
        }
}

static void beside(void)
{
    yq_request request = request_w();
    every_series(request);
    request.exclude.at = without_q;
    request.exclude.count = sizeof without_q;
    every_series(request);
    request.exclude.at = only_desired;
    request.exclude.count = sizeof only_desired;
    every_series(request);
    request = request_w();
    request.bounded = true;
    request.bound = 13;
    every_series(request);
    request.bound = -1;
    every_series(request);
    request = request_w();
    request.include.count = 7;
    every_series(request);
}

/* Document 01's three paths, the end, and the paths from the first again. */
static void worked(void)
{
    static const uint8_t kinds[] = {YQ_NEXT, YQ_FIRST, YQ_NEXT, YQ_NEXT, YQ_NEXT,
                                    YQ_FIRST};
    static const uint32_t numbers[] = {33, 0, 0, 0, 2, 0};
    static const uint8_t inner[][2] = {{0}, {P, U}, {Q, T}, {Q, U}, {0}, {P, U}};
    yq_request request = request_w();
    yq_calls calls;
    yq_path path;
    EXPECT(is(yq_profile_series(&w, &request, kinds, 6, room, &calls), 0, 0));
    for (size_t i = 0; i < 6; i++) {
        yq_answer answer = yq_calls_get(&calls, i, &path);
        EXPECT(is(answer, numbers[i], 0));
        if (answer.number == 0) {
            EXPECT(path.count == 4 && path.total == 14 && path.total_float == 14);
            EXPECT(path.round == 1 && path.addresses[0] == NODE(S));
            EXPECT(path.addresses[1] == NODE(inner[i][0]));
            EXPECT(path.addresses[2] == NODE(inner[i][1]));
            EXPECT(path.addresses[3] == NODE(Z));
        }
    }
    EXPECT(says(yq_calls_get(&calls, 0, &path),
                "refused: number 33, place 0: a next before any path was handed "
                "out"));
    EXPECT(says(yq_calls_get(&calls, 4, &path),
                "the path last handed out is the last one"));
}

static void not_a_series(void)
{
    static const uint8_t kinds[] = {YQ_FIRST, 2};
    yq_request request = request_w();
    yq_calls calls = {.count = 77};
    yq_answer answer = yq_profile_series(&w, &request, kinds, 2, room, &calls);
    EXPECT(is(answer, 100, 0) && calls.count == 77);
    EXPECT(says(answer, "refused: number 100, place 0: not a series: a kind over 1, "
                        "kinds and sizes that differ in count, sizes that don't "
                        "add up to the buffers, or under five numbers for each "
                        "call"));
    EXPECT(is(yq_profile_series(&w, &request, NULL, 0, room, &calls), 0, 0));
    EXPECT(calls.count == 0);
}

int main(int count, char **arguments)
{
    open_w(count, arguments);
    worked();
    beside();
    not_a_series();
    return 0;
}
