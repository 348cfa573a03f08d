/* PCReqs that the wrapper writes, and the requests that they carry. Run from the
 * top of the repository, for tests/vectors. */
#include "testing.h"

#define BYTES(array) {array, sizeof array}

static const uint8_t without_q[] = {1, 8, 192, 0, 2, Q, 32, 1};
static yq_pcreq asked, read;
static yq_message out;

/* The fields of document 01's request, as request 1. */
static void ask_w(void)
{
    yq_request request = request_w();
    yq_pcreq_of(&asked, 1, &request);
}

static void add_metric(uint8_t kind, uint8_t flags, uint32_t value)
{
    size_t at = asked.metrics.count++;
    asked.metrics.kinds[at] = kind;
    asked.metrics.flags[at] = flags;
    asked.metrics.values[at] = value;
}

static yq_bytes written(void)
{
    yq_bytes message = {out.bytes, out.count};
    return message;
}

/* The bytes of a file of digits, with comments from # on. */
static yq_bytes vector(const char *name)
{
    static uint8_t bytes[200];
    yq_bytes message = {bytes, 0};
    char line[200];
    FILE *file = fopen(name, "r");
    EXPECT(file != NULL);
    while (fgets(line, sizeof line, file) != NULL) {
        unsigned byte;
        int length;
        line[strcspn(line, "#")] = 0;
        for (char *at = line; sscanf(at, "%2x%n", &byte, &length) == 1; at += length)
            bytes[message.count++] = (uint8_t)byte;
    }
    fclose(file);
    return message;
}

/* What is written reads back as the same fields, and its objects stand in
 * order, each with P set, and none is empty. */
static void reads_back(void)
{
    EXPECT(is(yq_pcreq_write(&asked, &out), 0, 0));
    EXPECT(is(yq_pcreq_read(written(), &read), 0, 0));
    EXPECT(read.request_id == asked.request_id);
    EXPECT(read.rp_flags == (asked.rp_flags & 0x3F));
    EXPECT(read.source == asked.source && read.destination == asked.destination);
    EXPECT(read.bandwidth == asked.bandwidth);
    EXPECT(same_bytes(read.include, asked.include));
    EXPECT(same_bytes(read.exclude, asked.exclude));
    EXPECT(read.metrics.count == asked.metrics.count);
    for (size_t i = 0; i < read.metrics.count; i++) {
        EXPECT(read.metrics.kinds[i] == asked.metrics.kinds[i]);
        EXPECT(read.metrics.flags[i] == asked.metrics.flags[i]);
        EXPECT(read.metrics.values[i] == asked.metrics.values[i]);
    }
    const uint8_t rp[] = {2, 0x12, 0, 12, 0, 0, 0, asked.rp_flags & 0x3F};
    EXPECT(memcmp(out.bytes + 4, rp, sizeof rp) == 0);
    uint8_t last = 0;
    for (size_t at = 4; at < out.count;) {
        const uint8_t *object = out.bytes + at;
        size_t length = (size_t)object[2] << 8 | object[3];
        EXPECT(object[1] == 0x12 && (object[0] > last || object[0] == 6));
        EXPECT(length > (object[0] == 17 ? 8 : 4));
        EXPECT(object[0] != 5 || asked.bandwidth != 0);
        last = object[0];
        at += length;
    }
}

static void vectors(void)
{
    ask_w();
    reads_back();
    EXPECT(same_bytes(written(), vector("tests/vectors/w-request.hex")));
    asked.request_id = 2;
    asked.rp_flags = 5;
    add_metric(YQ_METRIC_TE, YQ_METRIC_BOUND, 0x41500000);
    reads_back();
    EXPECT(same_bytes(written(), vector("tests/vectors/w-request-bound.hex")));
    /* This vector's objects stand in another order, some with P clear. */
    static const uint8_t ordered[] = {
        0x20, 3, 0, 64, 2, 0x12, 0, 12, 0, 0, 0, 0, 0, 0, 0, 1,
        ENDS, HUNDRED, IRO, XRO};
    yq_bytes expected = BYTES(ordered);
    EXPECT(is(yq_pcreq_read(vector("tests/vectors/w-request-exclude.hex"), &asked),
              0, 0));
    reads_back();
    EXPECT(same_bytes(written(), expected));
}

/* Subobjects of every type, of right form in either list but for an EXRS, which
 * stands in an include list alone. */
static size_t draw_list(uint8_t *list, bool excluding)
{
    static const uint8_t pieces[][16] = {
        {1, 8, 10, 0, 0, 1, 32, 1}, {5, 8, 9, 9, 0, 1, 2, 3}, {6, 8, 9, 9, 0, 0, 0, 4},
        {32, 4, 0xFB, 0xF1}, {7, 8, 3, 9, 0x49, 0, 1, 0},
        {7, 12, 5, 9, 1, 2, 3, 4, 5, 0, 0, 0},
        {33, 16, 9, 9, 0x81, 8, 10, 0, 0, 1, 24, 1, 32, 4, 0xFB, 0xF1}};
    size_t count = 0;
    for (uint32_t left = below(4) == 0 ? below(60) : below(5); left > 0; left--) {
        const uint8_t *piece = pieces[below(excluding ? 6 : 7)];
        memcpy(list + count, piece, piece[1]);
        if (excluding && below(2) == 0)
            list[count] |= 0x80;
        count += piece[1];
    }
    return count;
}

static void generated(void)
{
    static uint8_t include[1024], exclude[1024];
    for (size_t i = 0; i < 20000; i++) {
        asked.request_id = drawn();
        asked.rp_flags = drawn();
        asked.source = drawn();
        asked.destination = drawn();
        asked.bandwidth = below(3) == 0 ? 0 : below(0x7F800000);
        asked.include.at = include;
        asked.include.count = draw_list(include, false);
        asked.exclude.at = exclude;
        asked.exclude.count = draw_list(exclude, true);
        asked.metrics.count = 0;
        for (uint32_t left = below(5); left > 0; left--)
            add_metric((uint8_t)drawn(), (uint8_t)drawn(), below(0x7F800000));
        reads_back();
    }
}

static void longest(void)
{
    static uint8_t list[1024];
    for (size_t i = 0; i < sizeof list; i += 4)
        memcpy(list + i, onward, 4);
    ask_w();
    while (asked.metrics.count < 5457)
        add_metric(1, 0, (uint32_t)asked.metrics.count);
    reads_back();
    EXPECT(out.count == 48 + 12 * 5457);
    add_metric(1, 0, 1);
    EXPECT(is(yq_pcreq_write(&asked, &out), 37, 0) && out.count == 0);
    ask_w();
    asked.include.at = asked.exclude.at = list;
    asked.include.count = asked.exclude.count = 1024;
    reads_back();
    EXPECT(out.count == 28 + 8 + 4 + 1024 + 8 + 1024);
}

/* Refused with this, and nothing is written. */
static void refused(uint32_t number, uint32_t place)
{
    out.count = 77;
    yq_answer answer = yq_pcreq_write(&asked, &out);
    EXPECT(is(answer, number, place) && answer.call == YQ_CALL_WRITE_PCREQ);
    EXPECT(out.count == 0);
    ask_w();
}

static void refusals(void)
{
    static const uint8_t zeros[70000] = {0};
    static const uint8_t wrong[] = {32, 4, 0xFB, 0xF1, 34, 4, 0, 0};
    static const uint8_t stretch[] = {33, 8, 0, 0, 32, 4, 0xFB, 0xF1};
    static const uint8_t nothing[] = {33, 4, 0, 0};
    static const uint8_t loose[] = {32, 4, 0xFB, 0xF1, 0x80 | 32, 4, 0, 9};
    static const uint8_t attribute[] = {1, 8, 192, 0, 2, Q, 32, 0};
    static const struct {
        yq_bytes list;
        uint32_t as_include[2], as_exclude[2];
    } cases[] = {
        {{zeros, 6}, {37, 0}, {37, 0}},
        {{zeros, 65536}, {37, 0}, {37, 0}},
        {{zeros, (size_t)-4}, {37, 0}, {37, 0}},
        {{zeros, 65496}, {37, 0}, {37, 0}},
        {{zeros, 65476}, {22, 0}, {22, 1}},
        {{zeros, 1028}, {22, 0}, {22, 1}},
        {{zeros, 1024}, {24, 0}, {24, 0}},
        {BYTES(wrong), {24, 4}, {24, 4}},
        {BYTES(stretch), {0, 0}, {24, 0}},
        {BYTES(nothing), {26, 0}, {24, 0}},
        {BYTES(loose), {27, 4}, {0, 0}},
        {BYTES(attribute), {0, 0}, {26, 0}},
    };
    ask_w();
    for (size_t i = 0; i < sizeof cases / sizeof *cases; i++) {
        asked.include = cases[i].list;
        if (cases[i].as_include[0] != 0)
            refused(cases[i].as_include[0], cases[i].as_include[1]);
        else
            reads_back();
        ask_w();
        asked.exclude = cases[i].list;
        if (cases[i].as_exclude[0] != 0)
            refused(cases[i].as_exclude[0], cases[i].as_exclude[1]);
        else
            reads_back();
        ask_w();
    }
    asked.metrics.count = 1000000;
    refused(37, 0);
    asked.metrics.count = (size_t)1 << 62; /* of 12 bytes each: 0 in 64 bits */
    refused(37, 0);
    asked.bandwidth = 0x7F800000;
    refused(21, 0);
    asked.bandwidth = 0x80000000;
    refused(21, 0);
    add_metric(1, 0, 0);
    add_metric(1, 0, 0x80000000);
    refused(21, 1);
}

/* The bound that counts is the first METRIC with that flag, of any type. */
static void bounds(void)
{
    ask_w();
    yq_request request = yq_pcreq_request(&asked, 3);
    EXPECT(!request.bounded && request.bandwidth == 100 && request.ingress == 3);
    EXPECT(request.source == NODE(S) && request.destination == NODE(Z));
    add_metric(YQ_METRIC_TE, YQ_METRIC_COMPUTED, yq_float_bits(12));
    EXPECT(!yq_pcreq_request(&asked, 0).bounded);
    add_metric(3, YQ_METRIC_BOUND | 0x80, yq_float_bits(13));
    add_metric(YQ_METRIC_TE, YQ_METRIC_BOUND, yq_float_bits(14));
    request = yq_pcreq_request(&asked, 0);
    EXPECT(request.bounded && request.bound == 13);
    request.bound = 14;
    yq_pcreq_of(&asked, 9, &request);
    EXPECT(asked.request_id == 9 && asked.rp_flags == 0);
    EXPECT(asked.metrics.count == 1 && asked.metrics.kinds[0] == 2);
    EXPECT(asked.metrics.flags[0] == 1 && asked.metrics.values[0] == 0x41600000);
}

/* A request, written as a PCReq and read, has the paths that it has itself, and
 * that its message has. */
static void carried(yq_request request, size_t count)
{
    yq_pcreq_of(&asked, 7, &request);
    reads_back();
    yq_request again = yq_pcreq_request(&read, request.ingress);
    yq_paths paths = yq_profile_paths(&w, &request);
    yq_paths others = yq_profile_paths(&w, &again);
    yq_pcreq_paths ofs = yq_profile_pcreq_paths(&w, request.ingress, written());
    for (size_t i = 0; i < count; i++) {
        EXPECT(yq_paths_next(&paths) && yq_paths_next(&others));
        EXPECT(yq_pcreq_paths_next(&ofs));
        EXPECT(same_path(&paths.path, &others.path));
        EXPECT(same_path(&paths.path, &ofs.path));
    }
    EXPECT(!yq_paths_next(&paths) && !yq_paths_next(&others));
    EXPECT(!yq_pcreq_paths_next(&ofs));
}

static void requests(void)
{
    yq_request request = request_w();
    carried(request, 3);
    request.exclude.at = without_q;
    request.exclude.count = sizeof without_q;
    carried(request, 1);
    request = request_w();
    request.bounded = true;
    request.bound = 14;
    carried(request, 3);
    request.bound = 13;
    carried(request, 0);
    yq_request inside = {.ingress = 1, .source = NODE(Q), .destination = NODE(Z),
                         .include = {onward + 4, 4}};
    carried(inside, 2);
}

int main(int count, char **arguments)
{
    open_w(count, arguments);
    vectors();
    generated();
    longest();
    refusals();
    bounds();
    requests();
    return 0;
}
