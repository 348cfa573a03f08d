/* How long a path is: where the destination stands in it several times, where it
 * is the source, and where an address is what the buffer is filled with; and
 * where the destination is found in a PCReq. */
#include "testing.h"
#include "yq_series.h"

/* A profile with one path: its addresses in a row, a domain for each but the
 * last; and the list of its domains after the first. */
typedef struct {
    size_t count;
    uint32_t addresses[YQ_ADDRESSES];
    uint8_t profile[12 + 2 * 20 * YQ_DOMAINS];
    uint8_t include[4 * (YQ_DOMAINS - 1)];
} chain;

static void put(uint8_t *to, uint32_t value, size_t bytes)
{
    while (bytes-- > 0) {
        to[bytes] = (uint8_t)value;
        value >>= 8;
    }
}

/* Its class is 1, so all AS numbers and addresses lie outside the reserved
 * ranges. */
static void fill(chain *made)
{
    size_t domains = made->count - 1;
    memset(made->profile, 0, sizeof made->profile);
    memcpy(made->profile, "DSP\0\1\1", 6);
    put(made->profile + 6, (uint32_t)domains, 2);
    put(made->profile + 8, (uint32_t)domains, 2);
    for (size_t i = 0; i < domains; i++) {
        uint8_t *domain = made->profile + 12 + 20 * i;
        uint8_t *hop = domain + 20 * domains;
        put(domain, 1000 + (uint32_t)i, 4);
        put(hop, (uint32_t)i, 2);
        put(hop + 2, (uint32_t)(i + 1 < domains ? i + 1 : i), 2);
        put(hop + 4, made->addresses[i], 4);
        put(hop + 8, made->addresses[i + 1], 4);
        put(hop + 12, 1, 4);
        if (i > 0) {
            put(made->include + 4 * (i - 1), 0x2004, 2);
            put(made->include + 4 * (i - 1) + 2, 1000 + (uint32_t)i, 2);
        }
    }
}

static bool is_chain(const yq_path *path, const chain *made)
{
    return path->count == made->count && path->total == made->count - 1
           && memcmp(path->addresses, made->addresses,
                     made->count * sizeof *made->addresses) == 0;
}

/* The path of a chain is its addresses, through every call. */
static void walked(chain *made)
{
    static const uint8_t kinds[] = {YQ_FIRST, YQ_NEXT};
    static yq_pcreq asked;
    static yq_message message;
    uint32_t room[YQ_SERIES_ROOM(2)];
    yq_profile profile;
    yq_path path = {.count = 0};
    yq_calls calls;
    fill(made);
    size_t domains = made->count - 1;
    EXPECT(is(yq_profile_open(&profile, made->profile, 12 + 40 * domains), 0, 0));
    yq_request request = {.source = made->addresses[0],
                          .destination = made->addresses[domains],
                          .include = {made->include, 4 * (domains - 1)}};
    EXPECT(is(yq_profile_first(&profile, &request, &path), 0, 0));
    EXPECT(is_chain(&path, made));
    EXPECT(is(yq_profile_next(&profile, &request, &path, &path), 2, 0));
    EXPECT(is_chain(&path, made));
    EXPECT(is(yq_profile_series(&profile, &request, kinds, 2, room, &calls), 0, 0));
    memset(&path, 0, sizeof path);
    EXPECT(is(yq_calls_get(&calls, 0, &path), 0, 0) && is_chain(&path, made));
    EXPECT(is(yq_calls_get(&calls, 1, &path), 2, 0) && is_chain(&path, made));
    yq_pcreq_of(&asked, 1, &request);
    EXPECT(is(yq_pcreq_write(&asked, &message), 0, 0));
    yq_bytes bytes = {message.bytes, message.count};
    memset(&path, 0, sizeof path);
    EXPECT(is(yq_profile_pcreq_first(&profile, 0, bytes, &path), 0, 0));
    EXPECT(is_chain(&path, made));
}

static void lengths(void)
{
    enum { D = 0x0A000001 };
    static const uint32_t others[] = {D, ~(uint32_t)D, 0, 0xFFFFFFFF, 0x0A000002};
    static chain made;
    for (made.count = 2; made.count <= YQ_ADDRESSES; made.count++)
        for (size_t all = 0; all < 5; all++) {
            for (size_t i = 0; i < made.count; i++)
                made.addresses[i] = others[all];
            walked(&made); /* source, entry nodes and destination are one */
            made.addresses[made.count - 1] = D;
            walked(&made);
            made.addresses[0] = D;
            walked(&made);
        }
    for (size_t i = 0; i < 3000; i++) {
        made.count = 2 + below(YQ_ADDRESSES - 1);
        for (size_t at = 0; at + 1 < made.count; at++)
            made.addresses[at] = others[below(5)];
        made.addresses[made.count - 1] = D;
        walked(&made);
    }
}

/* The wrapper answers as the plain call does. A path of the plain call has an
 * address more than the include list means domains. */
static uint32_t beside_plain(yq_bytes message)
{
    static yq_pcreq read;
    uint32_t plain[YQ_ADDRESSES], numbers[4];
    yq_sequence sequence;
    yq_path path = {.count = 0};
    uint32_t number = yq_pcreq_first(w_bytes, sizeof w_bytes, 0, message.at,
                                     message.count, plain, YQ_ADDRESSES, numbers);
    EXPECT(is(yq_profile_pcreq_first(&w, 0, message, &path), number, numbers[0]));
    if (number != 0) {
        EXPECT(path.count == 0);
        return number;
    }
    EXPECT(is(yq_pcreq_read(message, &read), 0, 0));
    EXPECT(is(yq_profile_read_include(&w, 0, read.include, &sequence), 0, 0));
    EXPECT(path.count == sequence.count + 1 && path.total == numbers[1]);
    EXPECT(memcmp(path.addresses, plain, path.count * sizeof *plain) == 0);
    return number;
}

/* Two END-POINTS, in every order of the objects: the first counts. */
static void any_order(void)
{
    static const uint8_t objects[][12] = {
        {RP}, {ENDS}, {ENDS_AT(S, U)}, {IRO}, {6, 0x12, 0, 12}};
    uint32_t paths = 0;
    for (unsigned order = 0; order < 5 * 5 * 5 * 5 * 5; order++) {
        uint8_t body[60];
        unsigned seen = 0;
        for (unsigned i = 0, rest = order; i < 5; i++, rest /= 5) {
            memcpy(body + 12 * i, objects[rest % 5], 12);
            seen |= 1u << rest % 5;
        }
        uint32_t number = beside_plain(framed(3, body, sizeof body));
        paths += number == 0;
        if (seen == 31)
            EXPECT(number <= 1);
    }
    EXPECT(paths >= 60);
}

/* END-POINTS of another type, with P clear, are skipped. */
static void other_ends(void)
{
    EXPECT(beside_plain(PCREQ(RP, 4, 0x20, 0, 12, 0, 0, 0, 0, 192, 0, 2, U, ENDS,
                              IRO)) == 0);
}

/* Damaged in up to three bytes and cut off, in memory of just that length. */
static void damaged(void)
{
    static const uint8_t model[] = {0x20, 3, 0, 96, 9, 0x10, 0, 8, 0, 0, 0, 0, XRO,
                                    HUNDRED, ENDS, IRO, RP, ENDS_AT(S, U),
                                    METRIC(2, 1, 0x41, 0x60)};
    uint32_t answers[43] = {0};
    for (size_t i = 0; i < 200000; i++) {
        size_t count = below(4) == 0 ? below(sizeof model + 1) : sizeof model;
        uint8_t *bytes = (uint8_t *)malloc(count == 0 ? 1 : count);
        yq_bytes message = {bytes, count};
        EXPECT(bytes != NULL);
        memcpy(bytes, model, count);
        for (uint32_t wrong = below(4); wrong > 0 && count > 0; wrong--)
            bytes[below((uint32_t)count)] = (uint8_t)(below(2) ? drawn() : below(16));
        if (count >= 4 && below(2) == 0)
            bytes[3] = (uint8_t)count;
        answers[beside_plain(message)]++;
        free(bytes);
    }
    EXPECT(sizeof model == 96 && answers[0] > 1000 && answers[1] > 1000);
    EXPECT(answers[36] > 1000 && answers[37] > 1000 && answers[38] > 100);
    EXPECT(answers[39] > 100);
}

int main(int count, char **arguments)
{
    open_w(count, arguments);
    lengths();
    any_order();
    other_ends();
    damaged();
    return 0;
}
