/* Reads an include list: the domains to cross, and the node through which one
 * of them is to be entered. Then a list that names no domain for certain. Last
 * the same sequence as a written list, and that list read. */
#include <stdio.h>

#include "yq_profile.h"

/* version 1, class 0, 3 domains, no hop: AS 64500 with OSPF area 0, AS 64501
 * with OSPF areas 0 and 4 */
static const uint8_t bytes[12 + 3 * 20] = {
    'D', 'S', 'P', 0, 1, 0, 0, 3,
    [12] = 0, 0, 0xFB, 0xF4, 1, 4, 0, 0, 0, 0,
    [32] = 0, 0, 0xFB, 0xF5, 1, 4, 0, 0, 0, 0,
    [52] = 0, 0, 0xFB, 0xF5, 1, 4, 0, 0, 0, 4,
};

static const uint8_t list[] = {
    5, 8, 0, 0, 0, 0, 0xFB, 0xF5, /* AS 64501, of which an area follows */
    6, 8, 0, 0, 0, 0, 0, 0,       /* OSPF area 0 */
    1, 8, 192, 0, 2, 22, 32, 0,   /* enter the next domain through 192.0.2.22 */
    6, 8, 0, 0, 0, 0, 0, 4,       /* OSPF area 4 */
};

/* Reads a list that starts in domain 0. */
static yq_sequence read_list(const yq_profile *profile, const uint8_t *at,
                             size_t count)
{
    yq_bytes include = {at, count};
    yq_sequence sequence = {.count = 0};
    yq_answer answer = yq_profile_read_include(profile, 0, include, &sequence);
    if (answer.number != 0)
        printf("number %u, place %u\n", answer.number, answer.place);
    else
        printf("number 0, %zu domains\n", sequence.count);
    for (size_t i = 0; i < sequence.count; i++) {
        uint32_t node = sequence.stops[i].pin;
        printf("domain %u", sequence.stops[i].domain);
        if (sequence.stops[i].pinned)
            printf(", entered through %u.%u.%u.%u", node >> 24,
                   node >> 16 & 255, node >> 8 & 255, node & 255);
        printf("\n");
    }
    return sequence;
}

int main(void)
{
    yq_profile profile;
    yq_profile_open(&profile, bytes, sizeof bytes);
    yq_sequence sequence = read_list(&profile, list, sizeof list);
    read_list(&profile, list, 8); /* AS 64501 alone, which has two domains */
    yq_list written;
    yq_answer answer = yq_profile_write_list(&profile, &sequence, &written);
    printf("number %u, %zu bytes\n", answer.number, written.count);
    for (size_t i = 0; i < written.count; i++)
        printf("%02X%s", written.bytes[i], i % 8 == 7 ? "\n" : " ");
    read_list(&profile, written.bytes, written.count);
    return 0;
}
