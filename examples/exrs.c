/* Keeps a node out of one domain alone: profile W with an EXRS by which AS 64497
 * isn't entered through 192.0.2.12. Prints the include list that says so, what
 * it excludes for each domain, and the paths that are left; then why a list is
 * refused in which no domain follows the EXRS. Run from the top of the
 * repository. */
#include <stdio.h>

#include "yq_exrs.h"

static void print_node(uint32_t node, const char *after)
{
    printf("%u.%u.%u.%u%s", node >> 24, node >> 16 & 255, node >> 8 & 255,
           node & 255, after);
}

static void print_list(yq_bytes list)
{
    for (size_t i = 0; i < list.count; i++)
        printf("%02X%s", list.at[i],
               i + 1 == list.count ? "\n" : i % 4 == 3 ? " " : "");
}

static void print_excluded(const yq_profile *profile, yq_bytes list)
{
    yq_sequence sequence = {.count = 0};
    yq_profile_read_include(profile, 0, list, &sequence);
    for (size_t i = 0; i < sequence.count; i++) {
        yq_exclusions all = yq_exrs_read(yq_stop_exrs(&sequence, i));
        while (yq_exclusions_next(&all)) {
            printf("domain %u without ", sequence.stops[i].domain);
            print_node(all.exclusion.number, "");
            printf("/%zu\n", all.exclusion.length);
        }
    }
}

static void print_paths(const yq_profile *profile, yq_bytes list)
{
    yq_request request = {.source = 0xC0000201, .destination = 0xC0000263,
                          .include = list, .bandwidth = 100};
    yq_paths paths = yq_profile_paths(profile, &request);
    char line[YQ_LINE];
    while (yq_paths_next(&paths)) {
        for (size_t i = 0; i < paths.path.count; i++)
            print_node(paths.path.addresses[i], " ");
        printf("total %u\n", paths.path.total);
    }
    if (paths.answer.number >= 10)
        puts(yq_explain(paths.answer, line));
}

int main(void)
{
    uint8_t bytes[232];
    FILE *file = fopen("examples/w.dsp", "rb");
    if (file == NULL || fread(bytes, 1, sizeof bytes, file) != sizeof bytes)
        return 1;
    yq_profile profile;
    if (yq_profile_open(&profile, bytes, sizeof bytes).number != 0)
        return 1;
    /* AS 64496, 64497 and 64498 are the domains 0, 1 and 2. */
    yq_sequence sequence = {.count = 3, .stops = {{.domain = 0}, {.domain = 1},
                                                  {.domain = 2}}};
    yq_exclusion q = yq_without_node(0xC000020C);
    yq_exrs exrs;
    yq_exrs_fault fault = yq_exrs_write(&q, 1, &exrs);
    if (fault == YQ_EXRS_FINE)
        fault = yq_stop_add(&sequence, 1, &exrs);
    if (fault != YQ_EXRS_FINE) {
        puts(yq_exrs_explain(fault));
        return 1;
    }
    yq_list list;
    if (yq_profile_write_list(&profile, &sequence, &list).number != 0)
        return 1;
    yq_bytes include = {list.bytes, list.count};
    print_list(include);
    print_excluded(&profile, include);
    print_paths(&profile, include);
    include.count = 20; /* AS 64496 and the EXRS */
    print_paths(&profile, include);
    return 0;
}
