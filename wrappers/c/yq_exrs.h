/*
 * Yachayniq for C: EXRS (RFC 5521), which say what is excluded for one domain of
 * a sequence alone. They are made of exclusions, and taken apart into them.
 *
 *     yq_exclusion without[] = {yq_without_node(0xC000020C),
 *                               yq_desired(yq_without_as(64498))};
 *     yq_exrs exrs;
 *     yq_exrs_fault fault = yq_exrs_write(without, 2, &exrs);
 *     if (fault == YQ_EXRS_FINE)
 *         fault = yq_stop_add(&sequence, 1, &exrs);
 *     if (fault != YQ_EXRS_FINE)
 *         puts(yq_exrs_explain(fault));
 *
 *     yq_exclusions all = yq_exrs_read(yq_stop_exrs(&sequence, 1));
 *     while (yq_exclusions_next(&all))
 *         ... all.exclusion ...
 *
 * All of this is the wrapper's own work; what it makes has the form that the
 * library asks for. Several EXRS of a domain add up.
 */
#ifndef YQ_EXRS_H
#define YQ_EXRS_H

#include "yq_profile.h"

enum { YQ_EXRS = 252, YQ_AREA = 13 }; /* the most bytes of an EXRS, of an area */

/* What an exclusion speaks of, by the type of its subobject. */
typedef enum {
    YQ_WITHOUT_NODES = 1,
    YQ_WITHOUT_AS = 5,
    YQ_WITHOUT_OSPF_AREA = 6,
    YQ_WITHOUT_ISIS_AREA = 7
} yq_excluded;

/* An exclusion, demanded or only desired. */
typedef struct {
    yq_excluded what;
    bool desired;          /* X set */
    uint32_t number;       /* the AS, the OSPF area, or the nodes' address */
    size_t length;         /* of the nodes' prefix, in bits; of the IS-IS area */
    uint8_t area[YQ_AREA]; /* the IS-IS area */
} yq_exclusion;

typedef struct {
    size_t count;
    uint8_t bytes[YQ_EXRS];
} yq_exrs;

/* Why an EXRS can't be made, or not be added to a sequence. */
typedef enum {
    YQ_EXRS_FINE,
    YQ_EXRS_NOTHING,
    YQ_EXRS_LONG,
    YQ_EXRS_PREFIX,
    YQ_EXRS_AREA,
    YQ_EXRS_AS,
    YQ_EXRS_KIND,
    YQ_EXRS_STOP,
    YQ_EXRS_ROOM
} yq_exrs_fault;

static inline const char *yq_exrs_explain(yq_exrs_fault fault)
{
    switch (fault) {
    case YQ_EXRS_FINE:
        return "done";
    case YQ_EXRS_NOTHING:
        return "an EXRS has one exclusion or more";
    case YQ_EXRS_LONG:
        return "an EXRS has at most 252 bytes; several add up";
    case YQ_EXRS_PREFIX:
        return "a prefix length is at most 32";
    case YQ_EXRS_AREA:
        return "an IS-IS area has 1 to 13 bytes";
    case YQ_EXRS_AS:
        return "AS 0 and AS 23456 are nobody's";
    case YQ_EXRS_KIND:
        return "an exclusion is of nodes, an AS, an OSPF area or an IS-IS area";
    case YQ_EXRS_STOP:
        return "the sequence has no such stop";
    default:
        return "the EXRS of a sequence have at most 1,024 bytes";
    }
}

static inline yq_exclusion yq_without(yq_excluded what, uint32_t number,
                                      size_t length)
{
    yq_exclusion one = {what, false, number, length, {0}};
    return one;
}

static inline yq_exclusion yq_without_as(uint32_t as_number)
{
    return yq_without(YQ_WITHOUT_AS, as_number, 0);
}

static inline yq_exclusion yq_without_ospf_area(uint32_t area)
{
    return yq_without(YQ_WITHOUT_OSPF_AREA, area, 0);
}

static inline yq_exclusion yq_without_isis_area(yq_bytes area)
{
    yq_exclusion one = yq_without(YQ_WITHOUT_ISIS_AREA, 0, area.count);
    /* A longer one isn't written. */
    if (area.count <= YQ_AREA)
        memcpy(one.area, yq_start(area), area.count);
    return one;
}

/* Every node whose address begins with the same so many bits. */
static inline yq_exclusion yq_without_nodes(uint32_t address, size_t prefix)
{
    return yq_without(YQ_WITHOUT_NODES, address, prefix);
}

static inline yq_exclusion yq_without_node(uint32_t address)
{
    return yq_without_nodes(address, 32);
}

/* The same, but only desired: it counts where some path keeps all exclusions. */
static inline yq_exclusion yq_desired(yq_exclusion one)
{
    one.desired = true;
    return one;
}

static inline size_t yq_exclusion_size(const yq_exclusion *one)
{
    return one->what == YQ_WITHOUT_ISIS_AREA ? 4 + (one->length + 3) / 4 * 4 : 8;
}

/* What is wrong with an exclusion alone. */
static inline yq_exrs_fault yq_exclusion_fault(const yq_exclusion *one)
{
    switch (one->what) {
    case YQ_WITHOUT_NODES:
        return one->length > 32 ? YQ_EXRS_PREFIX : YQ_EXRS_FINE;
    case YQ_WITHOUT_ISIS_AREA:
        return one->length == 0 || one->length > YQ_AREA ? YQ_EXRS_AREA
                                                         : YQ_EXRS_FINE;
    case YQ_WITHOUT_AS: /* RFC 7607, RFC 6793 */
        return one->number == 0 || one->number == 23456 ? YQ_EXRS_AS
                                                        : YQ_EXRS_FINE;
    case YQ_WITHOUT_OSPF_AREA:
        return YQ_EXRS_FINE;
    default:
        return YQ_EXRS_KIND;
    }
}

static inline void yq_exclusion_put(const yq_exclusion *one, uint8_t *to)
{
    size_t size = yq_exclusion_size(one);
    uint8_t *number = one->what == YQ_WITHOUT_NODES ? to + 2 : to + 4;
    memset(to, 0, size);
    to[0] = (uint8_t)((one->desired ? 0x80 : 0) | (int)one->what);
    to[1] = (uint8_t)size;
    if (one->what == YQ_WITHOUT_ISIS_AREA) {
        to[2] = (uint8_t)one->length;
        memcpy(to + 4, one->area, one->length);
        return;
    }
    for (int i = 0; i < 4; i++)
        number[i] = (uint8_t)(one->number >> (24 - 8 * i));
    if (one->what == YQ_WITHOUT_NODES) {
        to[6] = (uint8_t)one->length;
        to[7] = 1; /* the attribute: a node */
    }
}

/* Makes an EXRS of these exclusions; it is filled where that can be done. */
static inline yq_exrs_fault yq_exrs_write(const yq_exclusion *exclusions,
                                          size_t count, yq_exrs *exrs)
{
    size_t size = 4;
    for (size_t i = 0; i < count; i++) {
        yq_exrs_fault fault = yq_exclusion_fault(&exclusions[i]);
        if (fault != YQ_EXRS_FINE)
            return fault;
        size += yq_exclusion_size(&exclusions[i]);
        if (size > YQ_EXRS)
            return YQ_EXRS_LONG;
    }
    if (count == 0)
        return YQ_EXRS_NOTHING;
    exrs->count = size;
    exrs->bytes[0] = 33;
    exrs->bytes[1] = (uint8_t)size;
    exrs->bytes[2] = exrs->bytes[3] = 0;
    uint8_t *to = exrs->bytes + 4;
    for (size_t i = 0; i < count; i++) {
        yq_exclusion_put(&exclusions[i], to);
        to += yq_exclusion_size(&exclusions[i]);
    }
    return YQ_EXRS_FINE;
}

/* Whether there is such a stop, and the room has what the counts say. */
static inline bool yq_stop_is_there(const yq_sequence *sequence, size_t stop)
{
    return sequence->count <= YQ_DOMAINS && stop < sequence->count
           && yq_exrs_before(sequence, sequence->count) <= YQ_LIST;
}

/* The EXRS of a stop, back to back; they lie in the sequence. */
static inline yq_bytes yq_stop_exrs(const yq_sequence *sequence, size_t stop)
{
    yq_bytes none = {NULL, 0};
    if (!yq_stop_is_there(sequence, stop))
        return none;
    yq_bytes own = {sequence->exrs + yq_exrs_before(sequence, stop),
                    sequence->stops[stop].exrs_count};
    return own;
}

/* Adds an EXRS behind those of a stop. That it is the first stop, or the list
 * too long, is told when the list is written (35). */
static inline yq_exrs_fault yq_stop_add(yq_sequence *sequence, size_t stop,
                                        const yq_exrs *exrs)
{
    if (!yq_stop_is_there(sequence, stop))
        return YQ_EXRS_STOP;
    size_t all = yq_exrs_before(sequence, sequence->count);
    size_t at = yq_exrs_before(sequence, stop + 1);
    if (exrs->count > YQ_EXRS || exrs->count > YQ_LIST - all)
        return YQ_EXRS_ROOM;
    memmove(sequence->exrs + at + exrs->count, sequence->exrs + at, all - at);
    memcpy(sequence->exrs + at, exrs->bytes, exrs->count);
    sequence->stops[stop].exrs_count += (uint32_t)exrs->count;
    return YQ_EXRS_FINE;
}

/* The exclusions in EXRS that stand back to back: where yq_exclusions_next
 * stands. */
typedef struct {
    yq_bytes rest;
    size_t inside; /* how many bytes of the rest are of the EXRS begun */
    bool wrong;    /* what comes next isn't whole or has a wrong form */
    yq_exclusion exclusion;
} yq_exclusions;

/* All exclusions in these EXRS, which must stay as they are meanwhile. */
static inline yq_exclusions yq_exrs_read(yq_bytes exrs)
{
    yq_exclusions all = {exrs, 0, false, {YQ_WITHOUT_NODES, false, 0, 0, {0}}};
    return all;
}

/* The exclusion that these bytes begin with; its size, or 0 where its form is
 * wrong. */
static inline size_t yq_exclusion_get(const uint8_t *at, size_t most,
                                      yq_exclusion *one)
{
    if (most < 4 || at[1] > most)
        return 0;
    int kind = at[0] & 0x7F;
    if (kind != YQ_WITHOUT_NODES && kind != YQ_WITHOUT_AS && kind != 32
        && kind != YQ_WITHOUT_OSPF_AREA && kind != YQ_WITHOUT_ISIS_AREA)
        return 0;
    *one = yq_without(kind == 32 ? YQ_WITHOUT_AS : (yq_excluded)kind, 0, 0);
    one->desired = at[0] >= 0x80;
    if (kind == 32) {
        one->number = (uint32_t)at[2] << 8 | at[3];
        return at[1] == 4 && yq_exclusion_fault(one) == YQ_EXRS_FINE ? 4 : 0;
    }
    if (kind == YQ_WITHOUT_ISIS_AREA)
        one->length = at[2];
    size_t size = yq_exclusion_size(one);
    if (at[1] != size)
        return 0;
    if (kind == YQ_WITHOUT_ISIS_AREA) {
        if (yq_exclusion_fault(one) != YQ_EXRS_FINE)
            return 0;
        memcpy(one->area, at + 4, one->length);
        for (size_t i = 4 + one->length; i < size; i++)
            if (at[i] != 0)
                return 0;
        return size;
    }
    const uint8_t *number = kind == YQ_WITHOUT_NODES ? at + 2 : at + 4;
    for (int i = 0; i < 4; i++)
        one->number = one->number << 8 | number[i];
    if (kind == YQ_WITHOUT_NODES) {
        one->length = at[6];
        if (at[7] != 1)
            return 0;
    }
    return yq_exclusion_fault(one) == YQ_EXRS_FINE ? size : 0;
}

static inline void yq_exclusions_skip(yq_exclusions *all, size_t bytes)
{
    all->rest.at += bytes;
    all->rest.count -= bytes;
}

/* Goes to the next exclusion; false at the end, and where bytes are wrong. */
static inline bool yq_exclusions_next(yq_exclusions *all)
{
    if (all->wrong || all->rest.count == 0)
        return false;
    if (all->inside == 0) {
        const uint8_t *exrs = all->rest.at;
        size_t left = all->rest.count;
        all->wrong = left < 4 || exrs[0] != 33 || exrs[1] <= 4 || exrs[1] > left;
        if (all->wrong)
            return false;
        all->inside = (size_t)exrs[1] - 4;
        yq_exclusions_skip(all, 4);
    }
    size_t size = yq_exclusion_get(all->rest.at, all->inside, &all->exclusion);
    all->wrong = size == 0;
    yq_exclusions_skip(all, size);
    all->inside -= size;
    return !all->wrong;
}

#endif
