/* The wrapper on document 01's worked examples, each call and each kind of
 * answer, on desired exclusions and on wide costs. */
#include <math.h>

#include "testing.h"

enum { DESIRED = 0x80 }; /* X set */
#define WITHOUT(x, last) (x) | 1, 8, 192, 0, 2, (last), 32, 1

static const uint8_t through_u[] = {32, 4, 0xFB, 0xF1, 1, 8, 192, 0, 2, U,
                                    32, 0, 32, 4, 0xFB, 0xF2};
static const uint8_t back[] = {5, 8, 0, 0, 0, 0, 0xFB, 0xF1,
                               5, 8, 0, 0, 0, 0, 0xFB, 0xF0};
static const uint8_t without_q[] = {WITHOUT(0, Q)};
static const uint8_t too_long[1025] = {0};

/* The shortest paths of a request, each of total 14 and of this round, in the
 * last bytes of their inner nodes. */
static void listed_in(uint32_t round, yq_request asked, size_t count,
                      const uint8_t inner[][2])
{
    yq_paths paths = yq_profile_paths(&w, &asked);
    for (size_t i = 0; i < count; i++) {
        EXPECT(yq_paths_next(&paths));
        EXPECT(paths.path.count == 4);
        EXPECT(paths.path.addresses[0] == NODE(S));
        EXPECT(paths.path.addresses[1] == NODE(inner[i][0]));
        EXPECT(paths.path.addresses[2] == NODE(inner[i][1]));
        EXPECT(paths.path.addresses[3] == NODE(Z));
        EXPECT(paths.path.total == 14 && paths.path.total_float == 14);
        EXPECT(paths.path.round == round);
    }
    for (int again = 0; again < 3; again++) {
        EXPECT(!yq_paths_next(&paths));
        EXPECT(is(paths.answer, count == 0 ? 1 : 2, 0));
    }
}

static void listed(yq_request asked, size_t count, const uint8_t inner[][2])
{
    listed_in(1, asked, count, inner);
}

/* The tree of a request by both other domains: what S, P, Q, T and U cost, 0
 * where Z can't be reached. */
static void costed_in(uint32_t round, yq_request asked, const uint8_t costs[5])
{
    static const uint32_t nodes[][2] = {{0, S}, {1, P}, {1, Q}, {2, T}, {2, U}};
    yq_entries tree;
    EXPECT(is(yq_profile_tree(&w, &asked, &tree), 0, 0));
    EXPECT(tree.count == 5 && tree.tally == 8 * round && tree.round == round);
    for (size_t i = 0; i < 5; i++) {
        EXPECT(tree.entries[i].level == nodes[i][0]);
        EXPECT(tree.entries[i].address == NODE(nodes[i][1]));
        EXPECT(tree.entries[i].reachable == (costs[i] != 0));
        EXPECT(tree.entries[i].cost == costs[i]);
    }
}

static void tree(void)
{
    static const uint8_t costs[] = {14, 4, 11, 2, 3};
    yq_entries tree;
    yq_request asked = request_w();
    costed_in(1, asked, costs);
    asked.include.at = NULL;
    asked.include.count = 0;
    EXPECT(is(yq_profile_tree(&w, &asked, &tree), 0, 0));
    EXPECT(tree.count == 1 && tree.tally == 0 && tree.round == 1);
    EXPECT(!tree.entries[0].reachable && tree.entries[0].cost == 0);
    listed(asked, 0, NULL);
}

static void paths(void)
{
    static const uint8_t every[][2] = {{P, U}, {Q, T}, {Q, U}};
    static const uint8_t by_u[][2] = {{P, U}, {Q, U}};
    yq_request asked = request_w();
    listed(asked, 3, every);
    asked.bounded = true;
    asked.bound = 14;
    listed(asked, 3, every);
    asked.bound = 13;
    listed(asked, 0, NULL);
    asked = request_w();
    asked.bandwidth = nextafterf(100, 101);
    listed(asked, 2, every);
    asked = request_w();
    asked.exclude.at = without_q;
    asked.exclude.count = sizeof without_q;
    listed(asked, 1, every);
    asked = request_w();
    asked.include.at = through_u;
    asked.include.count = sizeof through_u;
    listed(asked, 2, by_u);
}

static void rounds(void)
{
    static const struct {
        uint8_t exclude[16], bytes, round, paths, inner[3][2], costs[5];
    } cases[] = {
        {{WITHOUT(DESIRED, Q)}, 8, 1, 1, {{P, U}}, {14, 4, 0, 2, 3}},
        {{WITHOUT(DESIRED, P), WITHOUT(DESIRED, Q)}, 16,
         2, 3, {{P, U}, {Q, T}, {Q, U}}, {14, 4, 11, 2, 3}},
        {{WITHOUT(0, P), WITHOUT(DESIRED, Q)}, 16,
         2, 2, {{Q, T}, {Q, U}}, {14, 0, 11, 2, 3}},
        {{WITHOUT(0, P), WITHOUT(0, Q)}, 16, 1, 0, {{0}}, {0, 0, 0, 2, 3}},
    };
    for (size_t i = 0; i < sizeof cases / sizeof *cases; i++) {
        yq_request asked = request_w();
        asked.exclude.at = cases[i].exclude;
        asked.exclude.count = cases[i].bytes;
        listed_in(cases[i].round, asked, cases[i].paths, cases[i].inner);
        costed_in(cases[i].round, asked, cases[i].costs);
    }
    /* AS 64511, which W lacks: the bound alone leaves no path in either round,
     * and the tree, which it isn't applied to, is of the second. */
    static const uint8_t lacking[] = {DESIRED | 32, 4, 0xFB, 0xFF};
    yq_request asked = request_w();
    asked.exclude.at = lacking;
    asked.exclude.count = sizeof lacking;
    asked.bounded = true;
    asked.bound = 13;
    listed(asked, 0, NULL);
    costed_in(2, asked, cases[1].costs);
}

/* W with 16,777,203 more on each last hop: the total is no float, and the bound
 * is held against the whole number. */
static void wide_costs(void)
{
    uint8_t bytes[sizeof w_bytes];
    yq_profile wide;
    yq_path path;
    yq_request asked = request_w();
    memcpy(bytes, w_bytes, sizeof bytes);
    bytes[205] = bytes[206] = bytes[225] = bytes[226] = 0xFF;
    bytes[207] = 0xF5;
    bytes[227] = 0xF6;
    EXPECT(is(yq_profile_open(&wide, bytes, sizeof bytes), 0, 0));
    EXPECT(is(yq_profile_first(&wide, &asked, &path), 0, 0));
    EXPECT(path.addresses[1] == NODE(P) && path.addresses[2] == NODE(U));
    EXPECT(path.total == 16777217 && path.total_float == 16777216);
    asked.bounded = true;
    asked.bound = path.total_float;
    EXPECT(is(yq_profile_first(&wide, &asked, &path), 1, 0));
    asked.bound = 16777218;
    EXPECT(is(yq_profile_first(&wide, &asked, &path), 0, 0));
    bytes[224] = 1;
    EXPECT(is(yq_profile_open(&wide, bytes, sizeof bytes), 17, 10));
}

static void next(void)
{
    yq_request asked = request_w();
    yq_path given = {.count = 4, .addresses = {NODE(S), NODE(P), NODE(T), NODE(Z)}};
    yq_path path;
    EXPECT(is(yq_profile_next(&w, &asked, &given, &path), 0, 0));
    EXPECT(path.count == 4 && path.addresses[2] == NODE(U));
    EXPECT(given.addresses[2] == NODE(T));
    given.count = 3;
    EXPECT(is(yq_profile_next(&w, &asked, &given, &path), 33, 0));
    given.count = 1000;
    EXPECT(is(yq_profile_next(&w, &asked, &given, &path), 33, 0));
    EXPECT(path.count == 4 && path.addresses[2] == NODE(U));
}

static void refused(yq_request asked, uint32_t number, uint32_t place)
{
    yq_entries tree;
    yq_path path;
    yq_paths paths = yq_profile_paths(&w, &asked);
    EXPECT(is(yq_profile_tree(&w, &asked, &tree), number, place));
    EXPECT(is(yq_profile_first(&w, &asked, &path), number, place));
    EXPECT(!yq_paths_next(&paths) && is(paths.answer, number, place));
    EXPECT(!yq_paths_next(&paths) && is(paths.answer, number, place));
}

static void refusals(void)
{
    const float wrong[] = {-1.0f, -0.0f, INFINITY, NAN};
    yq_request asked = request_w();
    asked.include.at = back;
    asked.include.count = sizeof back;
    refused(asked, 30, 8);
    asked = request_w();
    asked.ingress = 3;
    refused(asked, 20, 0);
    for (size_t i = 0; i < 4; i++) {
        asked = request_w();
        asked.bound = wrong[i];
        asked.bounded = true;
        refused(asked, 21, 1);
        asked.bandwidth = wrong[i];
        refused(asked, 21, 0);
    }
    asked = request_w();
    asked.exclude.at = too_long;
    asked.exclude.count = sizeof too_long;
    refused(asked, 22, 1);
    asked.include = asked.exclude;
    refused(asked, 22, 0);
}

static void profiles(void)
{
    yq_profile profile = w;
    uint8_t wrong[sizeof w_bytes];
    EXPECT(is(yq_profile_open(&profile, NULL, 0), 10, 0));
    memcpy(wrong, w_bytes, sizeof wrong);
    wrong[78] = 3; /* record 3 is now from 192.0.3.1 */
    EXPECT(is(yq_profile_open(&profile, wrong, sizeof wrong), 16, 3));
    EXPECT(profile.bytes.at == w_bytes && profile.bytes.count == sizeof w_bytes);
}

static void lists(void)
{
    /* 64500 with OSPF area 0, 64501 with the areas 0 and 4 */
    static const uint8_t bytes[12 + 3 * 20] = {
        'D', 'S', 'P', 0, 1, 0, 0, 3,
        [12] = 0, 0, 0xFB, 0xF4, 1, 4, 0, 0, 0, 0,
        [32] = 0, 0, 0xFB, 0xF5, 1, 4, 0, 0, 0, 0,
        [52] = 0, 0, 0xFB, 0xF5, 1, 4, 0, 0, 0, 4,
    };
    static const uint8_t written[] = {
        5, 8, 0, 0, 0, 0, 0xFB, 0xF4, 6, 8, 0, 0, 0, 0, 0, 0,
        5, 8, 0, 0, 0, 0, 0xFB, 0xF5, 6, 8, 0, 0, 0, 0, 0, 0,
        6, 8, 0, 0, 0, 0, 0, 4};
    yq_profile areas;
    yq_sequence sequence;
    yq_list list;
    yq_bytes given = {written, sizeof written};
    EXPECT(is(yq_profile_open(&areas, bytes, sizeof bytes), 0, 0));
    EXPECT(is(yq_profile_read_include(&areas, 0, given, &sequence), 0, 0));
    EXPECT(sequence.count == 3);
    for (uint16_t i = 0; i < 3; i++)
        EXPECT(sequence.stops[i].domain == i && !sequence.stops[i].pinned);
    EXPECT(is(yq_profile_write_list(&areas, &sequence, &list), 0, 0));
    EXPECT(list.count == sizeof written);
    EXPECT(memcmp(list.bytes, written, sizeof written) == 0);
    sequence.stops[2].pinned = true;
    sequence.stops[2].pin = NODE(U);
    EXPECT(is(yq_profile_write_list(&areas, &sequence, &list), 0, 0));
    given.at = list.bytes;
    given.count = list.count;
    sequence.count = 0;
    EXPECT(is(yq_profile_read_include(&areas, 0, given, &sequence), 0, 0));
    EXPECT(sequence.count == 3 && sequence.stops[2].pinned);
    EXPECT(sequence.stops[2].pin == NODE(U) && !sequence.stops[1].pinned);
    given.at = written + 16;
    given.count = 8;
    EXPECT(is(yq_profile_read_include(&areas, 0, given, &sequence), 29, 0));
    sequence.count = 1000;
    EXPECT(is(yq_profile_write_list(&areas, &sequence, &list), 35, 0));
    sequence.count = 2;
    sequence.stops[1].domain = 0;
    EXPECT(is(yq_profile_write_list(&areas, &sequence, &list), 35, 0));
}

int main(int count, char **arguments)
{
    open_w(count, arguments);
    tree();
    paths();
    rounds();
    wide_costs();
    next();
    refusals();
    profiles();
    lists();
    return 0;
}
