/*
 * Yachayniq for C: a profile, a request, and the six calls on them, with every
 * buffer as large as it can need to be. yq_exrs.h makes the EXRS of a sequence,
 * yq_series.h has many calls for paths in one, yq_messages.h those on messages.
 *
 *     yq_profile profile;
 *     yq_answer answer = yq_profile_open(&profile, bytes, count);
 *     yq_request request = {.source = 0xC0000201, .destination = 0xC0000263,
 *                           .include = {list, sizeof list}, .bandwidth = 100};
 *     yq_paths paths = yq_profile_paths(&profile, &request);
 *     while (yq_paths_next(&paths))
 *         ... paths.path ...
 *     char line[YQ_LINE];
 *     if (paths.answer.number >= 10)
 *         puts(yq_explain(paths.answer, line));
 *
 * A call answers with its number, 0 when done, and the place of a refusal
 * (yachayniq.h lists them). What it is to fill is filled on 0 alone.
 * An address is a number: 192.0.2.1 is 0xC0000201.
 *
 * A function takes a few hundred bytes of stack beside those of the library's
 * call, which takes up to 16 KiB; where it takes more, its comment says so.
 *
 * An exclusion with X set is only desired: if there is one, in the exclude list
 * or in an EXRS of the include list, and no path keeps the bound with all
 * exclusions, only those with X clear count, and the tree and the paths are of
 * round 2, else of round 1.
 */
#ifndef YQ_PROFILE_H
#define YQ_PROFILE_H

#include <stdio.h>
#include <string.h>

#include "yachayniq.h"
#include "yq_numbers.h"

enum { YQ_DOMAINS = 16, YQ_ADDRESSES = 17, YQ_ENTRIES = 241, YQ_LIST = 1024 };

/* How a call went; it says which call too, since that decides what the number
 * means. */
typedef struct {
    uint32_t number, place;
    yq_call call;
} yq_answer;

typedef struct {
    const uint8_t *at; /* may be NULL where count is 0 */
    size_t count;
} yq_bytes;

/* A profile that was accepted. The bytes stay the caller's. */
typedef struct {
    yq_bytes bytes;
} yq_profile;

/* What is asked of a profile. What is left out is 0: ingress 0, empty lists,
 * any bandwidth, no bound. */
typedef struct {
    uint16_t ingress; /* the index of the domain that the source is in */
    uint32_t source, destination;
    yq_bytes include; /* the domains to cross after it: the body of an IRO */
    yq_bytes exclude; /* what to leave out: the subobjects of an XRO */
    float bandwidth;  /* the least that a hop must have */
    bool bounded;     /* whether the bound counts */
    float bound;      /* the most that a path may cost */
} yq_request;

/* A sequence of domains, each with the node to enter it through if one is set,
 * and with what is excluded for it alone: its EXRS, which yq_exrs.h makes and
 * takes apart. */
typedef struct {
    size_t count;
    struct {
        uint16_t domain;
        bool pinned;
        uint32_t pin;
        uint32_t exrs_count; /* how many bytes of EXRS it has; 0: none */
    } stops[YQ_DOMAINS];
    uint8_t exrs[YQ_LIST]; /* the EXRS of all stops, in order, back to back */
} yq_sequence;

typedef struct {
    size_t count;
    uint8_t bytes[YQ_LIST];
} yq_list;

/* A tree, how many hop records were examined for it, and its round. The cost
 * is 0 where the destination can't be reached. */
typedef struct {
    size_t count;
    uint32_t tally, round;
    struct {
        uint32_t level, address;
        bool reachable;
        uint32_t cost;
    } entries[YQ_ENTRIES];
} yq_entries;

/* A path, its total as a whole number and as the nearest float, and its round. */
typedef struct {
    size_t count;
    uint32_t addresses[YQ_ADDRESSES];
    uint32_t total;
    float total_float;
    uint32_t round;
} yq_path;

/* The shortest paths of a request: where yq_paths_next stands. */
typedef struct {
    const yq_profile *profile;
    const yq_request *request;
    bool begun;
    yq_answer answer; /* of the last call: 0, 1 or 2, or why it was refused */
    yq_path path;
} yq_paths;

static inline yq_answer yq_answered(yq_call call, uint32_t number,
                                    const uint32_t *numbers)
{
    yq_answer answer = {number, numbers[0], call};
    return answer;
}

enum { YQ_LINE = 320 }; /* enough for any line that yq_explain writes */

/* Writes in one line what an answer means, and returns the line. Takes 2 KB of
 * stack, snprintf's. */
static inline const char *yq_explain(yq_answer answer, char line[YQ_LINE])
{
    const char *meaning = yq_meaning(answer.call, answer.number, answer.place);
    if (answer.number < 10)
        snprintf(line, YQ_LINE, "%s", meaning);
    else
        snprintf(line, YQ_LINE, "refused: number %u, place %u: %s",
                 (unsigned)answer.number, (unsigned)answer.place, meaning);
    return line;
}

/* The library takes no NULL. */
static inline const uint8_t *yq_start(yq_bytes bytes)
{
    static const uint8_t none[1] = {0};
    return bytes.count == 0 ? none : bytes.at;
}

static inline uint32_t yq_float_bits(float value)
{
    uint32_t bits;
    memcpy(&bits, &value, sizeof bits);
    return bits;
}

/* The arguments that each call with a request begins with. */
#define YQ_ASKED(profile, request) \
    yq_start((profile)->bytes), (profile)->bytes.count, \
    (request)->ingress, (request)->source, (request)->destination, \
    yq_start((request)->include), (request)->include.count, \
    yq_start((request)->exclude), (request)->exclude.count, \
    yq_float_bits((request)->bandwidth), (request)->bounded, \
    yq_float_bits((request)->bound)

/* Takes a profile's bytes, which must stay as they are while it is used. */
static inline yq_answer yq_profile_open(yq_profile *profile,
                                        const uint8_t *bytes, size_t count)
{
    yq_bytes taken = {bytes, count};
    uint32_t numbers[1];
    uint32_t number = yq_check_profile(yq_start(taken), count, numbers);
    if (number == 0)
        profile->bytes = taken;
    return yq_answered(YQ_CALL_CHECK_PROFILE, number, numbers);
}

/* The sequence of domains that an include list means. */
static inline yq_answer yq_profile_read_include(const yq_profile *profile,
                                                uint16_t ingress,
                                                yq_bytes include,
                                                yq_sequence *sequence)
{
    uint16_t domains[YQ_DOMAINS];
    uint8_t pinned[YQ_DOMAINS];
    uint32_t pins[YQ_DOMAINS], exrs_counts[YQ_DOMAINS], numbers[3];
    uint32_t number = yq_read_include(
        yq_start(profile->bytes), profile->bytes.count, ingress,
        yq_start(include), include.count, domains, YQ_DOMAINS,
        pinned, YQ_DOMAINS, pins, YQ_DOMAINS, exrs_counts, YQ_DOMAINS,
        sequence->exrs, YQ_LIST, numbers);
    if (number == 0) {
        sequence->count = numbers[1];
        for (size_t i = 0; i < numbers[1]; i++) {
            sequence->stops[i].domain = domains[i];
            sequence->stops[i].pinned = pinned[i] == 1;
            sequence->stops[i].pin = pins[i];
            sequence->stops[i].exrs_count = exrs_counts[i];
        }
    }
    return yq_answered(YQ_CALL_READ_INCLUDE, number, numbers);
}

/* How many bytes of EXRS the stops before this one have. */
static inline size_t yq_exrs_before(const yq_sequence *sequence, size_t stop)
{
    size_t bytes = 0;
    for (size_t i = 0; i < stop; i++)
        bytes += sequence->stops[i].exrs_count;
    return bytes;
}

/* The list that means this sequence, read with its first domain as ingress. */
static inline yq_answer yq_profile_write_list(const yq_profile *profile,
                                              const yq_sequence *sequence,
                                              yq_list *list)
{
    uint16_t domains[YQ_DOMAINS];
    uint8_t pinned[YQ_DOMAINS];
    uint32_t pins[YQ_DOMAINS], exrs_counts[YQ_DOMAINS], numbers[2];
    /* None can't be written either: 35, like more than there is room for. */
    size_t count = sequence->count <= YQ_DOMAINS ? sequence->count : 0;
    for (size_t i = 0; i < count; i++) {
        domains[i] = sequence->stops[i].domain;
        pinned[i] = sequence->stops[i].pinned;
        pins[i] = sequence->stops[i].pin;
        exrs_counts[i] = sequence->stops[i].exrs_count;
    }
    /* Counts that say more than there is room for don't fit none: 35 too. */
    size_t bytes = yq_exrs_before(sequence, count);
    uint32_t number = yq_write_list(
        yq_start(profile->bytes), profile->bytes.count, domains, count,
        pinned, count, pins, count, exrs_counts, count,
        sequence->exrs, bytes <= YQ_LIST ? bytes : 0,
        list->bytes, YQ_LIST, numbers);
    if (number == 0)
        list->count = numbers[1];
    return yq_answered(YQ_CALL_WRITE_LIST, number, numbers);
}

/* The buffers that a tree is stored in. */
typedef struct {
    uint32_t level[YQ_ENTRIES], address[YQ_ENTRIES], cost[YQ_ENTRIES];
    uint8_t reachable[YQ_ENTRIES];
} yq_tree_room;

#define YQ_TREE_ROOM(room) \
    (room)->level, YQ_ENTRIES, (room)->address, YQ_ENTRIES, \
    (room)->reachable, YQ_ENTRIES, (room)->cost, YQ_ENTRIES

static inline void yq_grown(yq_entries *tree, const yq_tree_room *room,
                            const uint32_t *numbers)
{
    tree->count = numbers[1];
    tree->tally = numbers[2];
    tree->round = numbers[3];
    for (size_t i = 0; i < numbers[1]; i++) {
        tree->entries[i].level = room->level[i];
        tree->entries[i].address = room->address[i];
        tree->entries[i].reachable = room->reachable[i] == 1;
        tree->entries[i].cost = room->cost[i];
    }
}

/* The least cost from each entry node to the destination. Takes 3.4 KB of stack
 * beside the call's. */
static inline yq_answer yq_profile_tree(const yq_profile *profile,
                                        const yq_request *request,
                                        yq_entries *tree)
{
    yq_tree_room room;
    uint32_t numbers[4];
    uint32_t number = yq_tree(YQ_ASKED(profile, request), YQ_TREE_ROOM(&room),
                              numbers);
    if (number == 0)
        yq_grown(tree, &room, numbers);
    return yq_answered(YQ_CALL_TREE, number, numbers);
}

/* Fills a path's buffer before a call with what isn't the destination. The
 * library leaves what lies past a path as it was, and a path ends with the
 * destination, so it ends where that stands last in the buffer. */
static inline void yq_lend(uint32_t addresses[YQ_ADDRESSES], uint32_t destination)
{
    for (size_t i = 0; i < YQ_ADDRESSES; i++)
        addresses[i] = ~destination;
}

static inline size_t yq_length(const uint32_t addresses[YQ_ADDRESSES],
                               uint32_t destination)
{
    size_t count = YQ_ADDRESSES;
    while (count > 0 && addresses[count - 1] != destination)
        count--;
    return count;
}

static inline void yq_found(yq_path *path, const uint32_t *addresses,
                            size_t count, const uint32_t *numbers)
{
    path->count = count;
    memcpy(path->addresses, addresses, count * sizeof *addresses);
    path->total = numbers[1];
    memcpy(&path->total_float, &numbers[2], sizeof path->total_float);
    path->round = numbers[3];
}

/* The first of the shortest paths; 1 where there is none. */
static inline yq_answer yq_profile_first(const yq_profile *profile,
                                         const yq_request *request,
                                         yq_path *path)
{
    uint32_t addresses[YQ_ADDRESSES], numbers[4];
    yq_lend(addresses, request->destination);
    uint32_t number = yq_first(YQ_ASKED(profile, request),
                               addresses, YQ_ADDRESSES, numbers);
    if (number == 0)
        yq_found(path, addresses, yq_length(addresses, request->destination),
                 numbers);
    return yq_answered(YQ_CALL_FIRST, number, numbers);
}

/* How many addresses a given path has. No path has none of them: 33, like more
 * than there is room for. */
static inline size_t yq_given(const yq_path *after)
{
    return after->count <= YQ_ADDRESSES ? after->count : 0;
}

/* The next shortest path after a path, or after any list of addresses of a
 * path's length; 2 where no other is greater. `path` may be `after`. */
static inline yq_answer yq_profile_next(const yq_profile *profile,
                                        const yq_request *request,
                                        const yq_path *after, yq_path *path)
{
    uint32_t addresses[YQ_ADDRESSES], numbers[4];
    size_t count = yq_given(after);
    uint32_t number = yq_next(YQ_ASKED(profile, request),
                              after->addresses, count,
                              addresses, YQ_ADDRESSES, numbers);
    if (number == 0)
        yq_found(path, addresses, count, numbers);
    return yq_answered(YQ_CALL_NEXT, number, numbers);
}

/* Every shortest path of a request, from the first on. Profile and request must
 * stay as they are meanwhile. */
static inline yq_paths yq_profile_paths(const yq_profile *profile,
                                        const yq_request *request)
{
    yq_paths paths = {profile, request, false, {0, 0, YQ_CALL_FIRST},
                      {0, {0}, 0, 0, 0}};
    return paths;
}

/* Goes to the next path; false where there is none or the request is refused. */
static inline bool yq_paths_next(yq_paths *paths)
{
    if (!paths->begun)
        paths->answer = yq_profile_first(paths->profile, paths->request,
                                         &paths->path);
    else if (paths->answer.number == 0)
        paths->answer = yq_profile_next(paths->profile, paths->request,
                                        &paths->path, &paths->path);
    paths->begun = true;
    return paths->answer.number == 0;
}

#endif
