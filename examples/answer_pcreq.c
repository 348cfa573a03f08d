/* Answers PCReqs on profile W: with a PCRep for each shortest path, with one
 * that says that there is none, and with why a message is refused. Run from the
 * top of the repository. */
#include <stdio.h>

#include "yq_messages.h"

static const uint8_t include[] = {32, 4, 0xFB, 0xF1,  /* AS 64497 */
                                  32, 4, 0xFB, 0xF2}; /* AS 64498 */

/* Each has the room that the largest message needs, too much for some stacks. */
static yq_pcreq asked;
static yq_pcrep reply;
static yq_message in, out;

static void print_reply(void)
{
    yq_pcrep_write(&reply, &out);
    for (size_t i = 0; i < out.count; i++)
        printf("%02X%s", out.bytes[i],
               i + 1 == out.count ? "\n" : i % 4 == 3 ? " " : "");
}

/* Answers the message in `in`. What can't be read has no paths either. */
static void answer(const yq_profile *profile)
{
    yq_bytes message = {in.bytes, in.count};
    yq_pcreq_paths paths = yq_profile_pcreq_paths(profile, 0, message);
    char line[YQ_LINE];
    yq_pcreq_read(message, &asked);
    while (yq_pcreq_paths_next(&paths)) {
        yq_pcrep_path(&reply, &asked, &paths.path);
        print_reply();
    }
    if (paths.answer.number == 1) {
        yq_pcrep_no_path(&reply, &asked);
        print_reply();
    } else if (paths.answer.number >= 10) {
        puts(yq_explain(paths.answer, line));
    }
}

int main(void)
{
    uint8_t bytes[232];
    FILE *file = fopen("examples/w.dsp", "rb");
    if (file == NULL || fread(bytes, 1, sizeof bytes, file) != sizeof bytes)
        return 1;
    yq_profile profile;
    if (yq_profile_open(&profile, bytes, sizeof bytes).number != 0)
        return 1;
    yq_request request = {.source = 0xC0000201, .destination = 0xC0000263,
                          .include = {include, sizeof include}, .bandwidth = 100};
    yq_pcreq_of(&asked, 7, &request);
    yq_pcreq_write(&asked, &in);
    answer(&profile);
    request.bounded = true;
    request.bound = 13;
    yq_pcreq_of(&asked, 7, &request);
    yq_pcreq_write(&asked, &in);
    answer(&profile);
    in.bytes[17] = 0x22; /* END-POINTS of type 2, with P set */
    answer(&profile);
    return 0;
}
