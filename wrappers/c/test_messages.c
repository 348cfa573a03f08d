/* The wrapper on messages: document 01's request as a PCReq, its paths as
 * PCReps, and each refusal of a message. */
#include "testing.h"

#define NO_PATH 3, 0x10, 0, 8, 1, 0x80, 0, 0
#define HOP(last) 1, 8, 192, 0, 2, last, 32, 0

static const uint8_t asked_bytes[] = {0x20, 3, 0, 48, RP, ENDS, HUNDRED, IRO};
static const yq_bytes asked = {asked_bytes, sizeof asked_bytes};
static const uint8_t every[][2] = {{P, U}, {Q, T}, {Q, U}};

static yq_pcreq request;
static yq_pcrep reply, read;
static yq_message out;

static bool same(yq_bytes bytes, const uint8_t *expected, size_t count)
{
    return bytes.count == count && memcmp(bytes.at, expected, count) == 0;
}

static void requests_read(void)
{
    EXPECT(is(yq_pcreq_read(asked, &request), 0, 0));
    EXPECT(request.request_id == 7 && request.rp_flags == 0);
    EXPECT(request.source == NODE(S) && request.destination == NODE(Z));
    EXPECT(request.bandwidth == 0x42C80000 && yq_float(request.bandwidth) == 100);
    EXPECT(request.metrics.count == 0);
    EXPECT(same(request.include, asked_bytes + 40, 8));
    EXPECT(request.exclude.count == 0);
    /* All flags, a TLV after the RP, and what isn't known, with P clear. */
    yq_bytes odd = PCREQ(9, 0x10, 0, 4, XRO, METRIC(255, 255, 0, 1), ENDS,
                         2, 0x12, 0, 20, 255, 255, 255, 255, 0x80, 0, 0, 1,
                         0, 99, 0, 4, 1, 2, 3, 4, RP, METRIC(2, 1, 0x7F, 0x7F));
    EXPECT(is(yq_pcreq_read(odd, &request), 0, 0));
    EXPECT(request.request_id == 0x80000001 && request.rp_flags == 0x3F);
    EXPECT(request.bandwidth == 0 && request.include.count == 0);
    EXPECT(same(request.exclude, odd.at + 16, 8));
    EXPECT(request.metrics.count == 2);
    EXPECT(request.metrics.kinds[0] == 255 && request.metrics.kinds[1] == 2);
    EXPECT(request.metrics.flags[0] == 255 && request.metrics.flags[1] == 1);
    EXPECT(request.metrics.values[0] == 0x10000);
    EXPECT(request.metrics.values[1] == 0x7F7F0000);
}

/* The shortest paths of a PCReq, each of total 14, in the last bytes of their
 * inner nodes. */
static void listed(yq_bytes message, size_t count)
{
    yq_pcreq_paths paths = yq_profile_pcreq_paths(&w, 0, message);
    for (size_t i = 0; i < count; i++) {
        EXPECT(yq_pcreq_paths_next(&paths));
        EXPECT(paths.path.count == 4);
        EXPECT(paths.path.addresses[0] == NODE(S));
        EXPECT(paths.path.addresses[1] == NODE(every[i][0]));
        EXPECT(paths.path.addresses[2] == NODE(every[i][1]));
        EXPECT(paths.path.addresses[3] == NODE(Z));
        EXPECT(paths.path.total == 14 && paths.path.total_float == 14);
        EXPECT(paths.path.round == 1);
    }
    for (int again = 0; again < 3; again++) {
        EXPECT(!yq_pcreq_paths_next(&paths));
        EXPECT(is(paths.answer, count == 0 ? 1 : 2, 0));
    }
}

static void tree_and_paths(void)
{
    static const uint32_t costs[] = {14, 4, 11, 2, 3};
    static const uint32_t nodes[] = {NODE(S), NODE(P), NODE(Q), NODE(T), NODE(U)};
    yq_entries tree;
    EXPECT(is(yq_profile_pcreq_tree(&w, 0, asked, &tree), 0, 0));
    EXPECT(tree.count == 5 && tree.tally == 8 && tree.round == 1);
    for (size_t i = 0; i < 5; i++) {
        EXPECT(tree.entries[i].level == (i + 1) / 2);
        EXPECT(tree.entries[i].address == nodes[i]);
        EXPECT(tree.entries[i].reachable && tree.entries[i].cost == costs[i]);
    }
    listed(asked, 3);
    listed(PCREQ(RP, ENDS, HUNDRED, IRO, METRIC(2, 1, 0x41, 0x60)), 3);
    listed(PCREQ(RP, ENDS, HUNDRED, IRO, METRIC(2, 1, 0x41, 0x50)), 0);
    listed(PCREQ(RP, ENDS, HUNDRED, IRO, METRIC(2, 2, 0x41, 0x50)), 3);
    listed(PCREQ(RP, ENDS, HUNDRED, IRO, XRO), 1);
    listed(PCREQ(RP, ENDS), 0);
    yq_path given = {.count = 4, .addresses = {NODE(S), NODE(P), NODE(T), NODE(Z)}};
    yq_path path;
    EXPECT(is(yq_profile_pcreq_next(&w, 0, asked, &given, &path), 0, 0));
    EXPECT(path.count == 4 && path.addresses[2] == NODE(U));
    given.count = 1000;
    EXPECT(says(yq_profile_pcreq_next(&w, 0, asked, &given, &path),
                "refused: number 33, place 0: given list has more or fewer "
                "addresses than a path"));
    /* From Q in domain 1 by AS 64498. */
    yq_bytes inside = PCREQ(RP, 4, 0x12, 0, 12, 192, 0, 2, Q, 192, 0, 2, Z,
                            10, 0x12, 0, 8, 32, 4, 0xFB, 0xF2);
    yq_pcreq_paths paths = yq_profile_pcreq_paths(&w, 1, inside);
    for (uint32_t i = 0; i < 2; i++) {
        EXPECT(yq_pcreq_paths_next(&paths));
        EXPECT(paths.path.count == 3 && paths.path.total == 11);
        EXPECT(paths.path.addresses[1] == NODE(T + i));
    }
    EXPECT(!yq_pcreq_paths_next(&paths) && is(paths.answer, 2, 0));
}

/* What is written is read back, part for part. */
static void read_back(void)
{
    EXPECT(is(yq_pcrep_write(&reply, &out), 0, 0));
    yq_bytes message = {out.bytes, out.count};
    EXPECT(is(yq_pcrep_read(message, &read), 0, 0));
    EXPECT(read.request_id == reply.request_id);
    EXPECT(read.rp_flags == reply.rp_flags && read.found == reply.found);
    EXPECT(read.nature == reply.nature && read.c_flag == reply.c_flag);
    EXPECT(read.count == reply.count);
    EXPECT(read.metrics.count == reply.metrics.count);
    for (size_t i = 0; i < read.count; i++)
        EXPECT(read.addresses[i] == reply.addresses[i]);
    for (size_t i = 0; i < read.metrics.count; i++) {
        EXPECT(read.metrics.kinds[i] == reply.metrics.kinds[i]);
        EXPECT(read.metrics.flags[i] == reply.metrics.flags[i]);
        EXPECT(read.metrics.values[i] == reply.metrics.values[i]);
    }
}

static bool written_as(yq_bytes expected)
{
    return same(expected, out.bytes, out.count);
}

static void replies(void)
{
    yq_pcreq_paths paths = yq_profile_pcreq_paths(&w, 0, asked);
    EXPECT(is(yq_pcreq_read(asked, &request), 0, 0));
    for (size_t i = 0; i < 3; i++) {
        EXPECT(yq_pcreq_paths_next(&paths));
        yq_pcrep_path(&reply, &request, &paths.path);
        read_back();
        EXPECT(written_as(PCREP(RP, 7, 0x10, 0, 36, HOP(S), HOP(every[i][0]),
                                HOP(every[i][1]), HOP(Z),
                                METRIC(2, 2, 0x41, 0x60))));
    }
    paths.path.count = 1000; /* more than a path has */
    yq_pcrep_path(&reply, &request, &paths.path);
    EXPECT(reply.found && reply.count == 0);
    request.rp_flags = reply.rp_flags = 0x3F;
    yq_pcrep_no_path(&reply, &request);
    EXPECT(!reply.found && reply.rp_flags == 0);
    read_back();
    reply.nature = 1;
    reply.c_flag = true;
    read_back();
    EXPECT(written_as(PCREP(RP, NO_PATH)));
    reply.request_id = 0xFFFFFFFF;
    reply.rp_flags = 0x3F;
    reply.metrics.count = 5459;
    for (size_t i = 0; i < reply.metrics.count; i++) {
        reply.metrics.kinds[i] = (uint8_t)i;
        reply.metrics.flags[i] = (uint8_t)~i;
        reply.metrics.values[i] = 0x7F7FFFFF - (uint32_t)i;
    }
    read_back();
    EXPECT(out.count == 24 + 5459 * 12);
    yq_pcrep_no_path(&reply, &request);
    reply.found = true;
    read_back();
    reply.count = YQ_ERO_ADDRESSES;
    for (size_t i = 0; i < reply.count; i++)
        reply.addresses[i] = 0xFFFFFFFF - (uint32_t)i;
    read_back();
    EXPECT(out.count == 65532);
}

static void carried(yq_bytes message, uint32_t number, uint32_t place)
{
    yq_entries tree;
    yq_path path, given = {.count = 4};
    yq_pcreq_paths paths = yq_profile_pcreq_paths(&w, 0, message);
    EXPECT(is(yq_profile_pcreq_tree(&w, 0, message, &tree), number, place));
    EXPECT(is(yq_profile_pcreq_first(&w, 0, message, &path), number, place));
    EXPECT(is(yq_profile_pcreq_next(&w, 0, message, &given, &path), number, place));
    EXPECT(!yq_pcreq_paths_next(&paths) && is(paths.answer, number, place));
}

static void refused(yq_bytes message, uint32_t number, uint32_t place)
{
    EXPECT(is(yq_pcreq_read(message, &request), number, place));
    carried(message, number, place);
}

static void requests_refused(void)
{
    static const uint8_t include[24 + 4 + 1028] = {RP, ENDS, 10, 0x12, 4, 8};
    static const uint8_t exclude[24 + 4 + 1032] = {RP, ENDS, 17, 0x12, 4, 12};
    yq_bytes none = {NULL, 0};
    yq_entries tree;
    yq_path path, given = {.count = 4};
    refused(none, 36, 0);
    refused(PCREP(RP, ENDS), 36, 0);
    refused(PCREQ(RP, 4, 0x12, 0, 8, 192, 0, 2, S), 37, 16);
    refused(PCREQ(RP, 4, 0x22, 0, 4), 38, 16);
    refused(PCREQ(ENDS), 39, 0);
    refused(PCREQ(RP, 4, 0x20, 0, 4), 40, 0);
    refused(PCREQ(RP, ENDS, 5, 0x12, 0, 8, 0x7F, 0x80, 0, 0), 21, 0);
    refused(PCREQ(RP, ENDS, METRIC(1, 0, 0x80, 0)), 21, 1);
    refused(framed(3, include, sizeof include), 22, 0);
    refused(framed(3, exclude, sizeof exclude), 22, 1);
    refused(PCREQ(RP, ENDS, 10, 0x12, 0, 12, 32, 4, 0xFB, 0xF1, 34, 4, 0, 0), 24, 4);
    carried(PCREQ(RP, ENDS, 10, 0x12, 0, 12, 32, 4, 0xFB, 0xF1, 32, 4, 0xFB, 0xF0),
            30, 4);
    EXPECT(is(yq_profile_pcreq_tree(&w, 3, asked, &tree), 20, 0));
    EXPECT(is(yq_profile_pcreq_first(&w, 3, asked, &path), 20, 0));
    EXPECT(is(yq_profile_pcreq_next(&w, 3, asked, &given, &path), 20, 0));
}

static void replies_refused(void)
{
    EXPECT(is(yq_pcrep_read(asked, &read), 36, 0));
    EXPECT(is(yq_pcrep_read(PCREP(RP, 3, 0x10, 0, 4), &read), 37, 16));
    EXPECT(is(yq_pcrep_read(PCREP(ENDS, RP, NO_PATH), &read), 38, 4));
    EXPECT(is(yq_pcrep_read(PCREP(NO_PATH), &read), 39, 0));
    EXPECT(is(yq_pcrep_read(PCREP(RP, METRIC(2, 2, 0, 0)), &read), 41, 0));
    EXPECT(is(yq_pcrep_read(PCREP(RP, NO_PATH, METRIC(2, 2, 255, 0)), &read), 21, 1));
    EXPECT(is(yq_pcrep_read(PCREP(RP, 7, 0x10, 0, 8, 32, 4, 0, 0), &read), 24, 0));
    yq_pcrep_no_path(&reply, &request);
    reply.found = true;
    reply.count = YQ_ERO_ADDRESSES + 1;
    EXPECT(is(yq_pcrep_write(&reply, &out), 37, 0));
    reply.found = false;
    reply.metrics.count = YQ_METRICS;
    EXPECT(is(yq_pcrep_write(&reply, &out), 37, 0));
    reply.metrics.count = 1000000;
    EXPECT(is(yq_pcrep_write(&reply, &out), 37, 0));
    reply.metrics.count = 1;
    reply.metrics.values[0] = 0x7F800000;
    EXPECT(is(yq_pcrep_write(&reply, &out), 21, 1));
}

int main(int count, char **arguments)
{
    open_w(count, arguments);
    requests_read();
    tree_and_paths();
    replies();
    requests_refused();
    replies_refused();
    return 0;
}
