/* What an answer says in one line: a refusal of each kind of call, where the
 * same number means different things among them. */
#include <stdint.h>

#include "testing.h"

static yq_pcreq asked;
static yq_pcrep reply;
static yq_message out;

static void of_profiles_and_lists(void)
{
    static const uint8_t unknown[] = {34, 4, 0, 0};
    yq_bytes list = {unknown, sizeof unknown};
    yq_sequence sequence = {.count = 0};
    yq_list written;
    yq_profile profile;
    uint8_t wrong[sizeof w_bytes];
    memcpy(wrong, w_bytes, sizeof wrong);
    wrong[78] = 3; /* record 3 is now from 192.0.3.1 */
    EXPECT(says(yq_profile_open(&profile, w_bytes, 11),
                "refused: number 10, place 0: profile under 12 bytes"));
    EXPECT(says(yq_profile_open(&profile, wrong, sizeof wrong),
                "refused: number 16, place 3: AS or a node's address outside the "
                "reserved ranges in class 0, or inside them in class 1 (place: "
                "record, from 0, domain records first)"));
    EXPECT(says(yq_profile_read_include(&w, 0, list, &sequence),
                "refused: number 24, place 0: subobject's type not 1 (IPv4), 5 or "
                "32 (AS), 6 (OSPF area), 7 (IS-IS area) or, outside an EXRS, 33 "
                "(EXRS) (place: offset in the include list)"));
    EXPECT(strstr(yq_meaning(YQ_CALL_WRITE_LIST, 35, 0), "can be written"));
    EXPECT(yq_profile_write_list(&w, &sequence, &written).call
           == YQ_CALL_WRITE_LIST);
}

/* The line that tree, first and next on W refuse a request with. */
static void refused(yq_request request, const char *expected)
{
    yq_entries tree;
    yq_path path, given = {.count = 4};
    yq_paths paths = yq_profile_paths(&w, &request);
    EXPECT(says(yq_profile_tree(&w, &request, &tree), expected));
    EXPECT(says(yq_profile_first(&w, &request, &path), expected));
    EXPECT(says(yq_profile_next(&w, &request, &given, &path), expected));
    EXPECT(!yq_paths_next(&paths) && says(paths.answer, expected));
}

static void of_requests(void)
{
    static const uint8_t back[] = {5, 8, 0, 0, 0, 0, 0xFB, 0xF1,
                                   5, 8, 0, 0, 0, 0, 0xFB, 0xF0};
    static const uint8_t too_long[1025] = {0};
    yq_request request = request_w();
    yq_path given = {.count = 3}, path;
    EXPECT(says(yq_profile_next(&w, &request, &given, &path),
                "refused: number 33, place 0: given list has more or fewer "
                "addresses than a path"));
    request.include.at = back;
    request.include.count = sizeof back;
    refused(request, "refused: number 30, place 8: a domain of the sequence that "
                     "was left comes back (place: offset in the include list)");
    request = request_w();
    request.ingress = 3;
    refused(request, "refused: number 20, place 0: ingress not below the "
                     "profile's domain count");
    request = request_w();
    request.exclude.at = too_long;
    request.exclude.count = sizeof too_long;
    refused(request, "refused: number 22, place 1: exclude list over 1,024 bytes");
    request.include = request.exclude;
    refused(request, "refused: number 22, place 0: include list over 1,024 bytes");
    request.bounded = true;
    request.bound = -1;
    refused(request, "refused: number 21, place 1: bound out of range: negative, "
                     "-0.0, infinite or not a number");
    request.bandwidth = -1;
    refused(request, "refused: number 21, place 0: bandwidth out of range: "
                     "negative, -0.0, infinite or not a number");
}

static void of_paths(void)
{
    yq_request request = request_w();
    yq_paths paths = yq_profile_paths(&w, &request);
    while (yq_paths_next(&paths))
        EXPECT(says(paths.answer, "done"));
    EXPECT(says(paths.answer, "no shortest path is greater than the given list"));
    request.include.count = 0;
    paths = yq_profile_paths(&w, &request);
    EXPECT(!yq_paths_next(&paths));
    EXPECT(says(paths.answer, "no path keeps the bound, in either round"));
}

static void of_messages(void)
{
    yq_entries tree;
    yq_path path;
    yq_bytes message = PCREP(RP, ENDS);
    const char *wrong_type =
        "refused: number 36, place 0: header of the message wrong: under 4 bytes, "
        "version not 1, type not 3 (PCReq), or a length that is not the message's "
        "or no multiple of 4";
    EXPECT(says(yq_pcreq_read(message, &asked), wrong_type));
    EXPECT(says(yq_profile_pcreq_tree(&w, 0, message, &tree), wrong_type));
    EXPECT(says(yq_profile_pcreq_first(&w, 0, message, &path), wrong_type));
    EXPECT(says(yq_pcrep_read(message, &reply),
                "refused: number 38, place 16: object of another class or type, "
                "with P set (place: offset in the message)"));
    EXPECT(says(yq_pcrep_read(PCREP(RP, 7, 0x10, 0, 8, 32, 4, 0, 0), &reply),
                "refused: number 24, place 0: subobject's type not 1 (IPv4) "
                "(place: offset in the ERO's body)"));
    message = PCREQ(RP, ENDS, METRIC(2, 1, 0x80, 0));
    EXPECT(says(yq_pcreq_read(message, &asked),
                "refused: number 21, place 1: value of a METRIC out of range: "
                "negative, -0.0, infinite or not a number"));
    asked.metrics.count = YQ_METRICS + 1;
    EXPECT(says(yq_pcreq_write(&asked, &out),
                "refused: number 37, place 0: not a message that can be written: "
                "over 65,535 bytes, or a list whose length is no multiple of 4"));
    yq_pcrep_no_path(&reply, &asked);
    reply.metrics.count = YQ_METRICS + 1;
    EXPECT(says(yq_pcrep_write(&reply, &out),
                "refused: number 37, place 0: not a message that can be written: "
                "over 65,535 bytes, or METRIC lists that differ in length"));
}

/* No line is cut off, however large its numbers. */
static void whole_lines(void)
{
    for (int call = YQ_CALL_CHECK_PROFILE; call <= YQ_CALL_READ_PCREP; call++)
        for (uint32_t number = 0; number <= 101; number++)
            for (uint32_t place = 0; place < 3; place++) {
                yq_answer answer = {number, place - 1, (yq_call)call};
                const char *meaning = yq_meaning(answer.call, number, place - 1);
                char line[YQ_LINE];
                yq_explain(answer, line);
                EXPECT(strlen(line) >= strlen(meaning));
                EXPECT(strcmp(line + strlen(line) - strlen(meaning), meaning) == 0);
            }
    EXPECT(strcmp(yq_meaning(YQ_CALL_TREE, 99, 0), "not a number of this call") == 0);
}

int main(int count, char **arguments)
{
    open_w(count, arguments);
    of_profiles_and_lists();
    of_requests();
    of_paths();
    of_messages();
    whole_lines();
    return 0;
}
