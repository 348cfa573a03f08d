/* The largest answers that there are: a sequence of 16 domains, a written list of
 * 568 bytes, a tree of 241 entries, a path of 17 addresses. The numbers are
 * written out here, so that too small a buffer of the wrapper shows. */
#include "testing.h"

enum { DOMAINS = 16, NODES = 16, HOPS = DOMAINS * NODES, FIRST_AS = 1000 };

static const uint32_t source = 0x0A000001, destination = 0x0A0000FF;
static uint8_t bytes[12 + 20 * (DOMAINS + HOPS)];
static yq_profile profile;

static void put(uint8_t *to, size_t value, size_t count)
{
    while (count-- > 0) {
        to[count] = (uint8_t)value;
        value >>= 8;
    }
}

/* Entry node `j` of a domain. */
static uint32_t node(size_t domain, size_t j)
{
    return 0x0A010000 + (uint32_t)(256 * domain + j);
}

/* Each domain has an AS of its own and the longest area. Each is entered through
 * as many nodes as there can be, and node j of one leads to node j of the next. */
static void fill(void)
{
    memcpy(bytes, "DSP\0\1\1", 6);
    put(bytes + 6, DOMAINS, 2);
    put(bytes + 8, HOPS, 2);
    for (size_t i = 0; i < DOMAINS; i++) {
        uint8_t *domain = bytes + 12 + 20 * i;
        put(domain, FIRST_AS + i, 4);
        put(domain + 4, 2, 1);
        put(domain + 5, 13, 1);
        memset(domain + 6, 0x49, 13);
        for (size_t j = 0; j < NODES; j++) {
            bool last = i + 1 == DOMAINS;
            uint8_t *hop = bytes + 12 + 20 * (DOMAINS + NODES * i + j);
            put(hop, i, 2);
            put(hop + 2, last ? i : i + 1, 2);
            put(hop + 4, i == 0 ? source : node(i, j), 4);
            put(hop + 8, last ? destination : node(i + 1, j), 4);
            put(hop + 12, 1, 4);
        }
    }
    EXPECT(is(yq_profile_open(&profile, bytes, sizeof bytes), 0, 0));
}

/* The path through node j of each domain. */
static bool goes_by(const yq_path *path, size_t j)
{
    for (size_t i = 1; i < 16; i++)
        if (path->addresses[i] != node(i, j))
            return false;
    return path->count == 17 && path->total == 16
           && path->addresses[0] == source && path->addresses[16] == destination;
}

static bool is_entry(const yq_entries *tree, size_t at, uint32_t level,
                     uint32_t address)
{
    return tree->entries[at].level == level && tree->entries[at].address == address
           && tree->entries[at].reachable && tree->entries[at].cost == 16 - level;
}

int main(void)
{
    static yq_sequence sequence, again;
    static yq_list list;
    static yq_entries tree;
    fill();
    sequence.count = 16;
    for (uint16_t i = 0; i < 16; i++) {
        sequence.stops[i].domain = i;
        sequence.stops[i].pinned = i > 0;
        sequence.stops[i].pin = i > 0 ? node(i, 5) : 0;
    }
    EXPECT(is(yq_profile_write_list(&profile, &sequence, &list), 0, 0));
    EXPECT(list.count == 568);
    yq_bytes include = {list.bytes, list.count};
    EXPECT(is(yq_profile_read_include(&profile, 0, include, &again), 0, 0));
    EXPECT(again.count == 16);
    for (size_t i = 0; i < 16; i++) {
        EXPECT(again.stops[i].domain == i && again.stops[i].pinned == (i > 0));
        EXPECT(again.stops[i].pin == sequence.stops[i].pin);
    }

    yq_request request = {.source = source, .destination = destination,
                          .include = include};
    yq_paths paths = yq_profile_paths(&profile, &request);
    EXPECT(yq_paths_next(&paths) && goes_by(&paths.path, 5));
    EXPECT(!yq_paths_next(&paths) && is(paths.answer, 2, 0));

    for (size_t i = 0; i < 16; i++)
        sequence.stops[i].pinned = false;
    EXPECT(is(yq_profile_write_list(&profile, &sequence, &list), 0, 0));
    request.include.count = list.count;
    EXPECT(is(yq_profile_tree(&profile, &request, &tree), 0, 0));
    EXPECT(tree.count == 241 && tree.tally == HOPS && is_entry(&tree, 0, 0, source));
    for (size_t at = 1; at < 241; at++) {
        uint32_t level = (uint32_t)(1 + (at - 1) / 16);
        EXPECT(is_entry(&tree, at, level, node(level, (at - 1) % 16)));
    }
    paths = yq_profile_paths(&profile, &request);
    for (size_t j = 0; j < 16; j++)
        EXPECT(yq_paths_next(&paths) && goes_by(&paths.path, j));
    EXPECT(!yq_paths_next(&paths) && is(paths.answer, 2, 0));
    return 0;
}
