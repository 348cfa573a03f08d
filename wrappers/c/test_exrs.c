/* EXRS: made of exclusions, written in a list, read back, and what they take
 * away; what can't be made, and what the library refuses (34, 35, 42). */
#include "testing.h"
#include "yq_exrs.h"
#include "yq_series.h"

#define COUNT(array) (sizeof (array) / sizeof *(array))

static const uint8_t area[] = {0x49, 0, 1, 2, 3, 4, 5, 6, 7, 8, 9, 10, 11, 12};

static yq_exrs made(const yq_exclusion *exclusions, size_t count)
{
    yq_exrs exrs;
    EXPECT(yq_exrs_write(exclusions, count, &exrs) == YQ_EXRS_FINE);
    return exrs;
}

static yq_exrs made_of(yq_exclusion one)
{
    return made(&one, 1);
}

/* W's three domains, with an EXRS for one of them. */
static yq_sequence through_w(size_t stop, yq_exrs exrs)
{
    yq_sequence sequence = {.count = 3};
    for (uint16_t i = 0; i < 3; i++)
        sequence.stops[i].domain = i;
    EXPECT(yq_stop_add(&sequence, stop, &exrs) == YQ_EXRS_FINE);
    return sequence;
}

static bool same_exclusion(const yq_exclusion *one, const yq_exclusion *other)
{
    return one->what == other->what && one->desired == other->desired
           && one->number == other->number && one->length == other->length
           && memcmp(one->area, other->area, sizeof one->area) == 0;
}

/* The exclusions in these bytes are these, and no more. */
static void carries(yq_bytes exrs, const yq_exclusion *expected, size_t count)
{
    yq_exclusions all = yq_exrs_read(exrs);
    for (size_t i = 0; i < count; i++)
        EXPECT(yq_exclusions_next(&all)
               && same_exclusion(&all.exclusion, &expected[i]));
    EXPECT(!yq_exclusions_next(&all) && !all.wrong);
}

static void exrs_made(void)
{
    static const uint8_t expected[] = {
        33, 60, 0, 0, 1, 8, 192, 0, 2, Q, 32, 1, 0x81, 8, 192, 0, 2, 0, 24, 1,
        5, 8, 0, 0, 0, 1, 0, 15, 0x86, 8, 0, 0, 0, 0, 0, 4, 7, 8, 3, 0, 0x49, 0, 1, 0,
        0x87, 16, 9, 0, 0x49, 0, 1, 2, 3, 4, 5, 6, 7, 0, 0, 0};
    yq_bytes three = {area, 3}, nine = {area, 9};
    const yq_exclusion all[] = {
        yq_without_node(NODE(Q)), yq_desired(yq_without_nodes(NODE(0), 24)),
        yq_without_as(65551), yq_desired(yq_without_ospf_area(4)),
        yq_without_isis_area(three), yq_desired(yq_without_isis_area(nine))};
    yq_exrs exrs = made(all, COUNT(all));
    yq_bytes bytes = {exrs.bytes, exrs.count}, whole = {expected, sizeof expected};
    EXPECT(same_bytes(bytes, whole));
    carries(bytes, all, COUNT(all));
    /* An AS of 16 bits is one too, and bytes that are ignored may be set. */
    static const uint8_t others[] = {33, 8, 1, 2, 0xA0, 4, 0xFB, 0xF1,
                                     33, 12, 0, 0, 5, 8, 9, 9, 0, 0, 0xFB, 0xF2};
    const yq_exclusion read[] = {yq_desired(yq_without_as(64497)),
                                 yq_without_as(64498)};
    yq_bytes two = {others, sizeof others}, none = {NULL, 0};
    carries(two, read, 2);
    carries(none, NULL, 0);
}

static void faulty(const yq_exclusion *exclusions, size_t count,
                   yq_exrs_fault fault, const char *text)
{
    yq_exrs exrs = {.count = 77};
    EXPECT(yq_exrs_write(exclusions, count, &exrs) == fault && exrs.count == 77);
    EXPECT(strcmp(yq_exrs_explain(fault), text) == 0);
}

static void exrs_not_made(void)
{
    static yq_exclusion many[32];
    yq_bytes none = {NULL, 0}, fourteen = {area, 14};
    yq_exclusion wrong = yq_without_nodes(NODE(Q), 33);
    faulty(NULL, 0, YQ_EXRS_NOTHING, "an EXRS has one exclusion or more");
    faulty(&wrong, 1, YQ_EXRS_PREFIX, "a prefix length is at most 32");
    wrong = yq_without_isis_area(none);
    faulty(&wrong, 1, YQ_EXRS_AREA, "an IS-IS area has 1 to 13 bytes");
    wrong = yq_without_isis_area(fourteen);
    faulty(&wrong, 1, YQ_EXRS_AREA, "an IS-IS area has 1 to 13 bytes");
    for (uint32_t i = 0; i < 2; i++) {
        wrong = yq_without_as(i * 23456);
        faulty(&wrong, 1, YQ_EXRS_AS, "AS 0 and AS 23456 are nobody's");
        wrong.number++;
        EXPECT(made_of(wrong).count == 12);
    }
    wrong.what = (yq_excluded)3;
    faulty(&wrong, 1, YQ_EXRS_KIND,
           "an exclusion is of nodes, an AS, an OSPF area or an IS-IS area");
    for (size_t i = 0; i < 32; i++)
        many[i] = yq_without_as((uint32_t)i + 1);
    EXPECT(made(many, 31).count == 252);
    faulty(many, 32, YQ_EXRS_LONG, "an EXRS has at most 252 bytes; several add up");

    yq_exrs longest = made(many, 31), small = made_of(many[0]);
    yq_sequence sequence = through_w(2, longest);
    for (int i = 0; i < 3; i++)
        EXPECT(yq_stop_add(&sequence, 1, &longest) == YQ_EXRS_FINE);
    EXPECT(yq_stop_add(&sequence, 1, &small) == YQ_EXRS_FINE);
    EXPECT(yq_stop_add(&sequence, 1, &small) == YQ_EXRS_ROOM);
    EXPECT(yq_stop_exrs(&sequence, 1).count == 3 * 252 + 12);
    EXPECT(yq_stop_exrs(&sequence, 2).count == 252);
    EXPECT(yq_stop_add(&sequence, 3, &small) == YQ_EXRS_STOP);
    EXPECT(yq_stop_exrs(&sequence, 3).count == 0);
    sequence.count = 1000;
    EXPECT(yq_stop_add(&sequence, 3, &small) == YQ_EXRS_STOP);
}

/* A sequence is written as this list, and read back as it was. */
static void round_trip(const yq_sequence *sequence, yq_bytes expected)
{
    yq_list list;
    yq_sequence again = {.count = 0};
    EXPECT(is(yq_profile_write_list(&w, sequence, &list), 0, 0));
    yq_bytes written = {list.bytes, list.count};
    EXPECT(same_bytes(written, expected));
    EXPECT(is(yq_profile_read_include(&w, 0, written, &again), 0, 0));
    EXPECT(again.count == sequence->count);
    for (size_t i = 0; i < again.count; i++) {
        EXPECT(again.stops[i].domain == sequence->stops[i].domain);
        EXPECT(again.stops[i].pinned == sequence->stops[i].pinned);
        EXPECT(same_bytes(yq_stop_exrs(&again, i), yq_stop_exrs(sequence, i)));
    }
}

static void written_and_read(void)
{
    static const uint8_t expected[] = {
        5, 8, 0, 0, 0, 0, 0xFB, 0xF0, 33, 12, 0, 0, 1, 8, 192, 0, 2, Q, 32, 1,
        33, 12, 0, 0, 0x85, 8, 0, 0, 0, 0, 0, 9, 5, 8, 0, 0, 0, 0, 0xFB, 0xF1,
        1, 8, 192, 0, 2, U, 32, 0, 33, 12, 0, 0, 1, 8, 192, 0, 2, T, 32, 1,
        5, 8, 0, 0, 0, 0, 0xFB, 0xF2};
    yq_bytes whole = {expected, sizeof expected};
    yq_sequence sequence = through_w(2, made_of(yq_without_node(NODE(T))));
    yq_exrs q = made_of(yq_without_node(NODE(Q)));
    yq_exrs nine = made_of(yq_desired(yq_without_as(9)));
    EXPECT(yq_stop_add(&sequence, 1, &q) == YQ_EXRS_FINE);
    EXPECT(yq_stop_add(&sequence, 1, &nine) == YQ_EXRS_FINE);
    sequence.stops[2].pinned = true;
    sequence.stops[2].pin = NODE(U);
    round_trip(&sequence, whole);
    /* They wait over AS 64496, which adds nothing, and keep every byte. */
    static const uint8_t noisy[] = {33, 8, 1, 2, 32, 4, 0, 9, 32, 4, 0xFB, 0xF0,
                                    33, 12, 3, 4, 6, 8, 5, 6, 0, 0, 0, 7,
                                    32, 4, 0xFB, 0xF1};
    static const uint8_t kept[] = {33, 8, 1, 2, 32, 4, 0, 9,
                                   33, 12, 3, 4, 6, 8, 5, 6, 0, 0, 0, 7};
    yq_bytes list = {noisy, sizeof noisy}, bytes = {kept, sizeof kept};
    EXPECT(is(yq_profile_read_include(&w, 0, list, &sequence), 0, 0));
    EXPECT(sequence.count == 2 && yq_stop_exrs(&sequence, 0).count == 0);
    EXPECT(same_bytes(yq_stop_exrs(&sequence, 1), bytes));
}

/* How many shortest paths W has with an EXRS for a stop, and in which round;
 * through a PCReq they are as many. */
static void leaves(size_t stop, yq_exrs exrs, size_t count, uint32_t round)
{
    static yq_pcreq asked;
    static yq_message message;
    yq_sequence sequence = through_w(stop, exrs);
    yq_list list;
    EXPECT(is(yq_profile_write_list(&w, &sequence, &list), 0, 0));
    yq_request request = request_w();
    request.include.at = list.bytes;
    request.include.count = list.count;
    yq_pcreq_of(&asked, 7, &request);
    EXPECT(is(yq_pcreq_write(&asked, &message), 0, 0));
    yq_bytes bytes = {message.bytes, message.count};
    yq_paths paths = yq_profile_paths(&w, &request);
    yq_pcreq_paths others = yq_profile_pcreq_paths(&w, 0, bytes);
    for (size_t i = 0; i < count; i++) {
        EXPECT(yq_paths_next(&paths) && yq_pcreq_paths_next(&others));
        EXPECT(same_path(&paths.path, &others.path));
        EXPECT(paths.path.total == 14 && paths.path.round == round);
        EXPECT(i != 0 || paths.path.addresses[1] == NODE(P));
    }
    EXPECT(!yq_paths_next(&paths) && !yq_pcreq_paths_next(&others));
}

static void paths(void)
{
    const yq_exclusion both[] = {yq_desired(yq_without_node(NODE(P))),
                                 yq_desired(yq_without_node(NODE(Q)))};
    leaves(1, made_of(yq_without_node(NODE(Q))), 1, 1);
    leaves(1, made_of(yq_desired(yq_without_node(NODE(Q)))), 1, 1);
    leaves(2, made_of(yq_without_node(NODE(Q))), 3, 1);
    leaves(1, made_of(yq_without_nodes(NODE(0), 24)), 0, 1);
    leaves(1, made(both, 2), 3, 2);
    leaves(1, made_of(yq_without_as(64497)), 0, 1);
    leaves(2, made_of(yq_without_as(64497)), 3, 1);
    leaves(2, made_of(yq_desired(yq_without_as(64498))), 3, 2);
}

/* Each call that reads the meaning of an include list refuses this one. */
static void refused(yq_bytes include, uint32_t number, uint32_t place)
{
    static const uint8_t kinds[] = {YQ_FIRST};
    static yq_pcreq asked;
    static yq_message message;
    uint32_t room[YQ_SERIES_ROOM(1)];
    yq_sequence sequence = {.count = 77};
    yq_entries tree;
    yq_path path, given = {.count = 4};
    yq_calls calls;
    yq_request request = request_w();
    request.include = include;
    EXPECT(is(yq_profile_read_include(&w, 0, include, &sequence), number, place));
    EXPECT(sequence.count == 77);
    EXPECT(is(yq_profile_tree(&w, &request, &tree), number, place));
    EXPECT(is(yq_profile_first(&w, &request, &path), number, place));
    EXPECT(is(yq_profile_next(&w, &request, &given, &path), number, place));
    EXPECT(is(yq_profile_series(&w, &request, kinds, 1, room, &calls), 0, 0));
    EXPECT(is(yq_calls_get(&calls, 0, &path), number, place));
    yq_pcreq_of(&asked, 7, &request);
    EXPECT(is(yq_pcreq_write(&asked, &message), 0, 0));
    yq_bytes bytes = {message.bytes, message.count};
    EXPECT(is(yq_profile_pcreq_tree(&w, 0, bytes, &tree), number, place));
    EXPECT(is(yq_profile_pcreq_first(&w, 0, bytes, &path), number, place));
    EXPECT(is(yq_profile_pcreq_next(&w, 0, bytes, &given, &path), number, place));
}

static void left_over(void)
{
    static const uint8_t list[] = {32, 4, 0xFB, 0xF1, 33, 8, 0, 0, 32, 4, 0, 9,
                                   1, 8, 192, 0, 2, U, 32, 0,
                                   33, 8, 0, 0, 32, 4, 0, 9};
    yq_bytes first = {list, 12}, both = {list, 20}, other = {list + 12, 16};
    yq_sequence sequence;
    refused(first, 42, 4);
    refused(both, 42, 4);
    refused(other, 32, 0);
    EXPECT(says(yq_profile_read_include(&w, 0, first, &sequence),
                "refused: number 42, place 4: an EXRS with no new domain after it "
                "(place: offset in the include list)"));
}

static void not_written(void)
{
    static yq_exclusion many[31];
    yq_exrs q = made_of(yq_without_node(NODE(Q))), cut = q, twice = q;
    yq_list list = {.count = 77};
    yq_sequence sequence = through_w(0, q);
    EXPECT(is(yq_profile_write_list(&w, &sequence, &list), 35, 0));
    cut.count = 8;
    sequence = through_w(1, cut);
    EXPECT(is(yq_profile_write_list(&w, &sequence, &list), 35, 0));
    twice.bytes[0] |= 0x80; /* L */
    sequence = through_w(1, twice);
    EXPECT(is(yq_profile_write_list(&w, &sequence, &list), 35, 0));
    sequence = through_w(1, q);
    sequence.stops[1].exrs_count = 0xFFFFFFFF;
    EXPECT(is(yq_profile_write_list(&w, &sequence, &list), 35, 0));
    EXPECT(yq_stop_exrs(&sequence, 1).count == 0);
    /* 24 bytes name the three domains: 1,000 are left. */
    for (size_t i = 0; i < 31; i++)
        many[i] = yq_without_as((uint32_t)i + 1);
    yq_exrs longest = made(many, 31), rest = made(many, 30);
    sequence = through_w(1, longest);
    EXPECT(yq_stop_add(&sequence, 1, &longest) == YQ_EXRS_FINE);
    EXPECT(yq_stop_add(&sequence, 2, &longest) == YQ_EXRS_FINE);
    yq_sequence longer = sequence;
    EXPECT(yq_stop_add(&sequence, 2, &rest) == YQ_EXRS_FINE);
    EXPECT(yq_stop_add(&longer, 2, &longest) == YQ_EXRS_FINE);
    EXPECT(is(yq_profile_write_list(&w, &longer, &list), 35, 0));
    EXPECT(list.count == 77);
    EXPECT(is(yq_profile_write_list(&w, &sequence, &list), 0, 0));
    EXPECT(list.count == 1024);
}

/* The plain call with each buffer in turn too small, then with room enough. */
static void too_little_room(void)
{
    static const uint8_t list[] = {33, 8, 0, 0, 32, 4, 0, 9, 32, 4, 0xFB, 0xF1};
    for (size_t small = 0; small <= 5; small++) {
        bool fits = small == 5;
        uint16_t domains[2] = {77, 77};
        uint8_t pinned[2] = {77, 77}, exrs[8] = {77};
        uint32_t pins[2] = {77, 77}, counts[2] = {77, 77}, numbers[3];
        size_t room[] = {2, 2, 2, 2, 8};
        if (!fits)
            room[small]--;
        uint32_t number = yq_read_include(
            w_bytes, sizeof w_bytes, 0, list, sizeof list, domains, room[0],
            pinned, room[1], pins, room[2], counts, room[3], exrs, room[4], numbers);
        EXPECT(number == (fits ? 0 : 34) && numbers[0] == 0);
        EXPECT(numbers[1] == (fits ? 2 : 0) && numbers[2] == (fits ? 8 : 0));
        EXPECT(domains[1] == (fits ? 1 : 77) && counts[1] == (fits ? 8 : 77));
        EXPECT(exrs[0] == (fits ? 33 : 77));
    }
    yq_answer answer = {34, 0, YQ_CALL_READ_INCLUDE};
    EXPECT(says(answer, "refused: number 34, place 0: a buffer has fewer elements "
                        "than the sequence has domains, or fewer than its EXRS "
                        "have bytes"));
}

/* Each byte changed to each other: the wrapper's reader finds a right form where
 * the library does. */
static void damaged(void)
{
    yq_bytes five = {area, 5};
    const yq_exclusion all[] = {
        yq_without_node(NODE(Q)), yq_without_isis_area(five), yq_without_as(9)};
    yq_exrs exrs = made(all, COUNT(all));
    size_t right = 0;
    for (size_t at = 0; at < exrs.count; at++)
        for (unsigned byte = 0; byte < 256; byte++) {
            yq_exrs changed = exrs;
            changed.bytes[at] = (uint8_t)byte;
            yq_sequence sequence = through_w(1, changed);
            yq_exclusions inside = yq_exrs_read(yq_stop_exrs(&sequence, 1));
            yq_list list;
            while (yq_exclusions_next(&inside))
                ;
            yq_answer answer = yq_profile_write_list(&w, &sequence, &list);
            EXPECT(is(answer, inside.wrong ? 35 : 0, 0));
            right += !inside.wrong;
        }
    EXPECT(right > 5 * 256);
}

int main(int count, char **arguments)
{
    open_w(count, arguments);
    exrs_made();
    exrs_not_made();
    written_and_read();
    paths();
    left_over();
    not_written();
    too_little_room();
    damaged();
    return 0;
}
