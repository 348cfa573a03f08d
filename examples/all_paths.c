/* Prints every shortest path of profile W, then why a request is refused.
 * Run from the top of the repository. */
#include <stdio.h>

#include "yq_profile.h"

static const uint8_t onward[] = {32, 4, 0xFB, 0xF1,  /* AS 64497 */
                                 32, 4, 0xFB, 0xF2}; /* AS 64498 */
static const uint8_t back[] = {5, 8, 0, 0, 0, 0, 0xFB, 0xF1,  /* AS 64497 */
                               5, 8, 0, 0, 0, 0, 0xFB, 0xF0}; /* AS 64496 */

static void print_all(const yq_profile *profile, const yq_request *request)
{
    yq_paths paths = yq_profile_paths(profile, request);
    char line[YQ_LINE];
    while (yq_paths_next(&paths)) {
        for (size_t i = 0; i < paths.path.count; i++) {
            uint32_t node = paths.path.addresses[i];
            printf("%u.%u.%u.%u ", node >> 24, node >> 16 & 255, node >> 8 & 255,
                   node & 255);
        }
        printf("total %u\n", paths.path.total);
    }
    if (paths.answer.number >= 10)
        puts(yq_explain(paths.answer, line));
}

int main(void)
{
    uint8_t bytes[232];
    FILE *file = fopen("examples/w.dsp", "rb");
    if (file == NULL || fread(bytes, 1, sizeof bytes, file) != sizeof bytes)
        return 1;
    yq_profile profile;
    if (yq_profile_open(&profile, bytes, sizeof bytes).number != 0)
        return 1;
    yq_request request = {.source = 0xC0000201, .destination = 0xC0000263,
                          .include = {onward, sizeof onward}, .bandwidth = 100};
    print_all(&profile, &request);
    request.include.at = back;
    request.include.count = sizeof back;
    print_all(&profile, &request);
    return 0;
}
