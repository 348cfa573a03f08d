/* Builds the tree of profile W: from every node through which a domain can be
 * entered, the least cost of reaching the destination. Then the same with one
 * node excluded, and with the exclusion of two only desired, which no path
 * keeps. Run from the top of the repository. */
#include <stdio.h>

#include "yq_profile.h"

/* AS 64497, then AS 64498 */
static const uint8_t include[] = {32, 4, 0xFB, 0xF1, 32, 4, 0xFB, 0xF2};

/* the node 192.0.2.11 */
static const uint8_t exclude[] = {1, 8, 192, 0, 2, 11, 32, 1};

/* the nodes 192.0.2.11 and 192.0.2.12, only desired: the top bit (X) is set */
static const uint8_t desired[] = {0x80 | 1, 8, 192, 0, 2, 11, 32, 1,
                                  0x80 | 1, 8, 192, 0, 2, 12, 32, 1};

static void build(const yq_profile *profile, const yq_request *request)
{
    yq_entries tree;
    yq_answer answer = yq_profile_tree(profile, request, &tree);
    if (answer.number != 0) {
        printf("number %u, place %u\n", answer.number, answer.place);
        return;
    }
    printf("number 0, %zu entries, %u hops examined, round %u\n", tree.count,
           tree.tally, tree.round);
    for (size_t i = 0; i < tree.count; i++) {
        uint32_t node = tree.entries[i].address;
        printf("%u: %u.%u.%u.%u ", tree.entries[i].level, node >> 24,
               node >> 16 & 255, node >> 8 & 255, node & 255);
        if (tree.entries[i].reachable)
            printf("at cost %u\n", tree.entries[i].cost);
        else
            printf("not at all\n");
    }
}

int main(void)
{
    uint8_t bytes[232];
    FILE *file = fopen("examples/w.dsp", "rb");
    if (file == NULL || fread(bytes, 1, sizeof bytes, file) != sizeof bytes)
        return 1;
    yq_profile profile;
    yq_profile_open(&profile, bytes, sizeof bytes);
    /* From 192.0.2.1 in domain 0 to 192.0.2.99, bandwidth 100, no bound. */
    yq_request request = {.source = 0xC0000201, .destination = 0xC0000263,
                          .include = {include, sizeof include},
                          .bandwidth = 100};
    build(&profile, &request);
    request.exclude.at = exclude;
    request.exclude.count = sizeof exclude;
    build(&profile, &request);
    request.exclude.at = desired;
    request.exclude.count = sizeof desired;
    build(&profile, &request);
    return 0;
}
