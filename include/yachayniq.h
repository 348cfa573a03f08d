/*
 * Yachayniq, a path calculator for test profiles: the C interface of the
 * proved static library crates/calculator/out/libcalculator.a (x86-64).
 *
 * Every call returns a number that says how it went: 0 is done, 1 and 2 mean
 * no path and no further one, from 10 up the input is refused. The other
 * numbers of an answer are stored in `numbers`, the place first. docs/FORMAT.md
 * has the bytes of profiles and lists, the rules, and every number.
 *
 * An input list is a pointer and then its count of elements, and so is a
 * buffer that is lent for a result. A pointer is never NULL, also where the
 * count is 0, and what a call writes overlaps none of its inputs and nothing
 * else it writes. A lent buffer keeps what lies past the result. On any answer
 * but 0 every lent buffer keeps all that it held, and every stored number is 0
 * but the place of a refusal. A call keeps nothing for the next one, so calls
 * may run in several threads at a time.
 */
#ifndef YACHAYNIQ_H
#define YACHAYNIQ_H

#include <stdbool.h>
#include <stddef.h>
#include <stdint.h>

#ifdef __cplusplus
extern "C" {
#endif

/*
 * Checks a profile file of any length, held in memory as it is on disk.
 *
 * Returns the first of these, in the order in which the checks are made:
 *
 *    10  under 12 bytes
 *    11  mark, version or zero bytes of the header wrong
 *    12  class or a count out of range
 *    13  length not 12 + 20 x (domains + hops)
 *  then each domain record in turn
 *    14  malformed; so is one of AS 0 or 23456
 *    15  out of order, or after a record of area kind 0 of its AS
 *    16  AS outside the reserved ranges in class 0, inside them in class 1
 *  then each hop record in turn
 *    17  malformed; so is a cost over 16,777,215
 *    18  out of order
 *    16  a node's address outside the reserved ranges, or inside, likewise
 *  then all hop records once more
 *    19  seventeenth entry node for a pair of domains
 *  else
 *     0  the profile is accepted
 *
 * numbers[0]  place: from 14 to 19 the record that is refused, counted from 0
 *             with the domain records before the hop records; else 0. For 19
 *             it is the first hop record that brings a seventeenth entry node.
 */
uint32_t yq_check_profile(const uint8_t *profile, size_t profile_count,
                          uint32_t numbers[1]);

/*
 * Reads an include list (the body of an IRO, RFC 7897): the domains to cross,
 * in order, the node through which a domain is to be entered, and what is
 * excluded for a domain alone, its EXRS (RFC 5521).
 *
 *   ingress  the domain that the list starts in, as an index into the profile's
 *            domain records, from 0
 *   include  the list's bytes; a list of none leaves the ingress domain alone
 *
 * Four lent buffers have an element for each domain of the sequence, so 16
 * elements each are always enough; their counts may differ:
 *
 *   domains      the domain's index; domains[0] is the ingress domain
 *   pinned       1 where the list has an entry constraint for the domain, else 0
 *   pins         the node that the domain is to be entered through, as a number
 *                (192.0.2.1 is 0xC0000201), else 0
 *   exrs_counts  how many bytes of EXRS the list has for the domain, 0 or more;
 *                exrs_counts[0] is 0
 *
 * The fifth has a byte for each of these, so 1,024 are always enough:
 *
 *   exrs         the EXRS of all domains, domain by domain in the order of the
 *                sequence, for each domain in the order of the list, back to
 *                back, byte for byte as they stand there
 *
 * Returns the first of these, in the order in which the checks are made:
 *
 *    10 to 19  what yq_check_profile finds wrong with the profile
 *    20  ingress not below the profile's domain count
 *    22  list over 1,024 bytes
 *  then the form of each subobject in turn
 *    23  under 4 bytes left
 *    24  type not 1 (IPv4), 5 or 32 (AS), 6 (OSPF area), 7 (IS-IS area) or 33
 *        (EXRS)
 *    27  top bit (L) set
 *    26  area length of type 7 not 1 to 13
 *    25  length not the type's; of an EXRS under 4
 *    23  length past the list's end
 *    26  prefix length of type 1 not 32, an AS that is 0 or 23456, padding of
 *        type 7 not zero, or nothing inside an EXRS
 *    23 to 26  inside an EXRS, up to its end, each subobject in turn: as in an
 *        exclude list (yq_tree), so another EXRS is 24
 *  then the meaning of each subobject in turn
 *    28  no such domain in the profile
 *    29  AS with no area after it, where several domains have that AS
 *    30  a domain of the sequence that was left comes back
 *    31  a seventeenth domain
 *    32  an entry constraint while one waits for its domain
 *  then, of what still waits for a domain, the first in the list
 *    32  an entry constraint
 *    42  an EXRS
 *  then
 *    34  a buffer has fewer elements than the sequence has domains, or exrs
 *        fewer than all its EXRS have bytes
 *  else
 *     0  the sequence is in the buffers; a refusal leaves all five untouched
 *
 * numbers[0]  place: from 10 to 19 as yq_check_profile stores it; from 23 to 32
 *             and on 42 the offset in the list of the subobject that is refused,
 *             of an AS with its area that of the area, inside an EXRS that of
 *             the subobject inside; else 0
 * numbers[1]  on 0 how many domains the sequence has, 1 to 16; else 0
 * numbers[2]  on 0 how many bytes all its EXRS have; else 0
 */
uint32_t yq_read_include(const uint8_t *profile, size_t profile_count,
                         uint16_t ingress,
                         const uint8_t *include, size_t include_count,
                         uint16_t *domains, size_t domains_count,
                         uint8_t *pinned, size_t pinned_count,
                         uint32_t *pins, size_t pins_count,
                         uint32_t *exrs_counts, size_t exrs_counts_count,
                         uint8_t *exrs, size_t exrs_count,
                         uint32_t numbers[3]);

/*
 * Writes a sequence of domains as an include list, which yq_read_include reads
 * back as the same sequence when domains[0] is the ingress.
 *
 * Four input lists have an element for each domain, in order:
 *
 *   domains      the domain, as an index into the profile's domain records,
 *                from 0
 *   pinned       1 where the domain has an entry constraint, else 0
 *   pins         the node that the domain is to be entered through, as a number
 *                (192.0.2.1 is 0xC0000201); not looked at where `pinned` is 0
 *   exrs_counts  how many of the bytes in exrs are the domain's
 *
 * The fifth has the bytes:
 *
 *   exrs         the EXRS of all domains, as yq_read_include stores them: each
 *                domain's are whole EXRS, and they are written byte for byte
 *
 * The list is written to the start of `out`. Without EXRS it has at most 576
 * bytes, with any at most 1,024.
 *
 * Returns the first of these, in the order in which the checks are made:
 *
 *    10 to 19  what yq_check_profile finds wrong with the profile
 *    35  not a sequence that can be written: no domain, or over 16; counts of
 *        the four lists that differ; an index not below the profile's domain
 *        count; a domain twice; a `pinned` over 1; an entry constraint or an
 *        EXRS on the first domain; exrs_counts that don't add up to the count
 *        of exrs; bytes of a domain that aren't whole EXRS (type 33, top bit
 *        clear) of right form, as yq_read_include judges it; a list over 1,024
 *        bytes
 *    34  out has fewer bytes than the list
 *     0  the list is in out; a refusal leaves out untouched
 *
 * numbers[0]  place: from 10 to 19 as yq_check_profile stores it; else 0
 * numbers[1]  on 0 how many bytes the list has; else 0
 */
uint32_t yq_write_list(const uint8_t *profile, size_t profile_count,
                       const uint16_t *domains, size_t domains_count,
                       const uint8_t *pinned, size_t pinned_count,
                       const uint32_t *pins, size_t pins_count,
                       const uint32_t *exrs_counts, size_t exrs_counts_count,
                       const uint8_t *exrs, size_t exrs_count,
                       uint8_t *out, size_t out_count,
                       uint32_t numbers[2]);

/*
 * Builds the backward tree of a request (the virtual shortest path tree of RFC
 * 5441): for each entry node of each domain of the sequence, whether the
 * destination can be reached from it, and the least cost of doing so. The
 * bound isn't applied to its entries.
 *
 * What an EXRS of the include list excludes counts for the next new domain
 * alone: a node as its entry node, an AS or an area as that domain. What the
 * exclude list excludes counts for every node and domain.
 *
 * An exclusion whose top bit (X) is set is only desired (RFC 5521), in the
 * exclude list and inside an EXRS. In a first round all exclusions count. If no
 * path keeps the bound then, and some exclusion has X set, a second round
 * applies, in which only those with X clear count, whether or not it finds a
 * path. yq_tree, yq_first, yq_next and yq_series answer by the round that
 * applies, and an answer 0 names it.
 *
 *   profile         a profile file, as yq_check_profile takes it
 *   ingress         the domain that the sequence starts in, as an index into
 *                   the profile's domain records, from 0
 *   source          the node that a path starts at, as a number
 *   destination     the node that it ends at, as a number
 *   include         an include list, as yq_read_include takes it
 *   exclude         an exclude list: the subobjects of an XRO (RFC 5521),
 *                   without the four flag bytes before them
 *   bandwidth_bits  the bandwidth asked for: the bits of a 32-bit float
 *   bound_counts    whether the cost bound counts
 *   bound_bits      the cost bound: the bits of a 32-bit float; not looked at
 *                   where it doesn't count. A path's total is compared with it
 *                   as it is, not as a float.
 *
 * The four lent buffers have an element for each entry, domain by domain in the
 * order of the sequence, in each domain by ascending address, so 241 elements
 * each are always enough; their counts may differ:
 *
 *   level      the place of the entry's domain in the sequence, from 0
 *   address    the node: at level 0 the source alone, else an entry node of the
 *              domain
 *   reachable  1 where the destination can be reached, else 0
 *   cost       the least cost of a way to the destination; 0 where there is none
 *
 * Returns the first of these, in the order in which the checks are made:
 *
 *    10 to 19  what yq_check_profile finds wrong with the profile
 *    20  ingress not below the profile's domain count
 *    21  bits of the bandwidth, then of a bound that counts, from 7F800000 up
 *    22  include list, then exclude list, over 1,024 bytes
 *    23 to 27  form of the include list, as yq_read_include finds it
 *    23 to 26  form of the exclude list: the same, but its top bit (X) may be
 *        set, a type 1 has a prefix length of 0 to 32 and the attribute 1 (else
 *        26), and an EXRS is 24
 *    28 to 32  meaning of the include list, as yq_read_include finds it
 *    42  likewise: an EXRS with no new domain after it
 *    34  a buffer has fewer elements than the tree has entries
 *     0  the tree is in the buffers; a refusal leaves all four untouched
 *
 * numbers[0]  place: from 10 to 19 as yq_check_profile stores it; on 21 0 for
 *             the bandwidth and 1 for the bound; on 22 0 for the include list
 *             and 1 for the exclude list; from 23 to 32 and on 42 the offset in
 *             the list of the subobject that is refused; else 0
 * numbers[1]  on 0 how many entries the tree has, 1 to 241; else 0
 * numbers[2]  on 0 how many hop records lead from each domain of the sequence
 *             to the next, and inside the last one, twice that in the second
 *             round; else 0
 * numbers[3]  on 0 the round, 1 or 2; else 0
 */
uint32_t yq_tree(const uint8_t *profile, size_t profile_count,
                 uint16_t ingress, uint32_t source, uint32_t destination,
                 const uint8_t *include, size_t include_count,
                 const uint8_t *exclude, size_t exclude_count,
                 uint32_t bandwidth_bits, bool bound_counts,
                 uint32_t bound_bits,
                 uint32_t *level, size_t level_count,
                 uint32_t *address, size_t address_count,
                 uint8_t *reachable, size_t reachable_count,
                 uint32_t *cost, size_t cost_count,
                 uint32_t numbers[4]);

/*
 * The first of a request's shortest paths: of all paths that keep the bound, in
 * the round that applies, and have the least total, the least one, compared
 * address by address from the left. The request is as yq_tree takes it.
 *
 *   path  the path: the source, an entry node for each domain of the sequence
 *         but the first, and the destination, so 17 elements are always enough
 *
 * Returns the first of these, in the order in which the checks are made:
 *
 *    10 to 32  what yq_tree finds wrong with the request
 *    42  likewise: an EXRS with no new domain after it
 *    34  path has fewer elements than a path has addresses
 *     1  no path keeps the bound, in either round
 *     0  the path is at the start of the buffer; the rest of it is untouched
 *
 * A refusal and an answer 1 leave the whole buffer untouched.
 *
 * numbers[0]  place, as yq_tree stores it; on 1 0
 * numbers[1]  on 0 the path's total cost as a whole number, at most
 *             268,435,440; else 0
 * numbers[2]  on 0 the bits of the 32-bit float nearest to the total, of two as
 *             near the one whose last bit is even; else 0. Up to 16,777,216 it
 *             is the total; above, it may lie up to 8 beside it.
 * numbers[3]  on 0 the round, 1 or 2; else 0
 */
uint32_t yq_first(const uint8_t *profile, size_t profile_count,
                  uint16_t ingress, uint32_t source, uint32_t destination,
                  const uint8_t *include, size_t include_count,
                  const uint8_t *exclude, size_t exclude_count,
                  uint32_t bandwidth_bits, bool bound_counts,
                  uint32_t bound_bits,
                  uint32_t *path, size_t path_count,
                  uint32_t numbers[4]);

/*
 * The next of a request's shortest paths after a given list of addresses: the
 * least one that is greater than the list, whether or not the list is itself a
 * path. Given a path that yq_first or yq_next has stored, it is the one after
 * that.
 *
 *   given  as many addresses as a path has
 *   path   as for yq_first; it may hold the list only if given is a copy
 *
 * Returns the first of these, in the order in which the checks are made:
 *
 *    10 to 32  what yq_tree finds wrong with the request
 *    42  likewise: an EXRS with no new domain after it
 *    33  given has more or fewer elements than a path has addresses
 *    34  path has fewer elements than a path has addresses
 *     2  no shortest path is greater than the list
 *     0  the path is at the start of the buffer; the rest of it is untouched
 *
 * A refusal and an answer 2 leave the whole buffer untouched.
 *
 * numbers  as yq_first stores them; on 2 all four are 0
 */
uint32_t yq_next(const uint8_t *profile, size_t profile_count,
                 uint16_t ingress, uint32_t source, uint32_t destination,
                 const uint8_t *include, size_t include_count,
                 const uint8_t *exclude, size_t exclude_count,
                 uint32_t bandwidth_bits, bool bound_counts,
                 uint32_t bound_bits,
                 const uint32_t *given, size_t given_count,
                 uint32_t *path, size_t path_count,
                 uint32_t numbers[4]);

/*
 * Makes a series of calls for first and next on one request, in order. Each
 * next is given a copy of the path last handed out in this series, or, before
 * any, an empty list.
 *
 *   kinds    an element for each call: 0 is a first, 1 a next
 *   sizes    for each call how many addresses its result buffer has
 *   buffers  the calls' result buffers, back to back, each of any content
 *   numbers  five for each call: its answer, place, total as a whole number,
 *            total as the bits of a float, and round, as yq_first stores
 *            them; what lies past them is untouched
 *
 * Returns
 *
 *   100  a kind over 1; counts of kinds and sizes that differ; sizes that do
 *        not add up to the count of buffers; under five numbers for each call.
 *        Told before the request is looked at, and nothing is written, not
 *        even in numbers
 *     0  the calls are made, whatever they answer
 *
 * A call's answer is the first of these:
 *
 *    10 to 32  what yq_tree finds wrong with the request, in each call alike
 *    42  likewise: an EXRS with no new domain after it
 *    33  next: no path was handed out yet
 *    34  its buffer has less room than a path needs
 *     1  first: there is no path
 *     2  next: the path last handed out is the last one
 *     0  a path: first hands out the first one, next the one after that last
 *        handed out. It stands at the start of the call's buffer
 *
 * On any answer but 0 the call's buffer is untouched, its total, float bits and
 * round are 0, on 1 and 2 its place too, and the path last handed out stays so.
 */
uint32_t yq_series(const uint8_t *profile, size_t profile_count,
                   uint16_t ingress, uint32_t source, uint32_t destination,
                   const uint8_t *include, size_t include_count,
                   const uint8_t *exclude, size_t exclude_count,
                   uint32_t bandwidth_bits, bool bound_counts,
                   uint32_t bound_bits,
                   const uint8_t *kinds, size_t kinds_count,
                   const uint32_t *sizes, size_t sizes_count,
                   uint32_t *buffers, size_t buffers_count,
                   uint32_t *numbers, size_t numbers_count);

/*
 * Reads a path computation request, a PCReq message (RFC 5440): whose request
 * it is, and the lists and numbers that it asks with. docs/MESSAGES.md has such
 * a message byte by byte.
 *
 *   message  the whole message, its four-byte header first
 *
 * The objects read are RP, END-POINTS for IPv4, BANDWIDTH type 1, METRIC, IRO
 * and XRO, in any order. All METRICs count; of every other object the first
 * does. Reserved bits, unassigned flags, the XRO's flags, P and I of these
 * objects, and what follows the fixed part of an RP, are not looked at. An
 * object of any other class or type is skipped where its P is clear.
 *
 * The three lent buffers have an element for each METRIC, in the message's
 * order, so 5,460 elements each are always enough; their counts may differ:
 *
 *   kinds   the METRIC's type: 1 IGP, 2 TE, 3 hop count, or any other
 *   flags   its eight flags: B (a bound) is 0x01, C (computed) is 0x02
 *   values  its value: the bits of a 32-bit float
 *
 * Returns the first of these, in the order in which the checks are made:
 *
 *    36  header: under 4 bytes, version not 1, type not 3 (PCReq), or a length
 *        that is not the message's or not a multiple of 4
 *  then each object in turn
 *    37  under 4 bytes left; length under 4, not a multiple of 4, or past the
 *        message's end; for an object that is read not its own: RP 12 or more,
 *        END-POINTS 12, BANDWIDTH 8, METRIC 12, IRO any, XRO 8 or more
 *    38  any other class or type, with P set
 *  then
 *    39  no RP
 *    40  no END-POINTS
 *    21  bits of the bandwidth, then of any METRIC, from 7F800000 up
 *    22  include list, then exclude list, over 1,024 bytes
 *    23 to 27  form of the include list, as yq_read_include finds it
 *    23 to 26  form of the exclude list, as yq_tree finds it
 *    34  a buffer has fewer elements than the message has METRICs
 *  else
 *     0  the request is in the numbers, its METRICs in the buffers; a refusal
 *        leaves all three untouched
 *
 * numbers[0]   place: on 37 and 38 the offset in the message of the object that
 *              is refused; on 21 0 for the bandwidth and 1 for a METRIC; on 22
 *              0 for the include list and 1 for the exclude list; from 23 to 27
 *              the offset in the list of the subobject that is refused; else 0
 * numbers[1]   on 0 the request-ID; else 0
 * numbers[2]   on 0 the RP's flags: O 0x20, B 0x10, R 0x08 and the priority in
 *              the low three bits, all others 0; else 0
 * numbers[3]   on 0 the source, as a number; else 0
 * numbers[4]   on 0 the destination, as a number; else 0
 * numbers[5]   on 0 the bandwidth: the bits of a 32-bit float, those of 0.0
 *              where there is no BANDWIDTH; else 0
 * numbers[6]   on 0 how many METRICs there are; else 0
 * numbers[7]   on 0 the offset in the message of the include list, the IRO's
 *              body; 0 where there is no IRO; else 0
 * numbers[8]   on 0 how many bytes that list has; else 0
 * numbers[9]   on 0 the offset in the message of the exclude list, the XRO's
 *              subobjects; 0 where there is no XRO; else 0
 * numbers[10]  on 0 how many bytes that list has; else 0
 */
uint32_t yq_read_pcreq(const uint8_t *message, size_t message_count,
                       uint8_t *kinds, size_t kinds_count,
                       uint8_t *flags, size_t flags_count,
                       uint32_t *values, size_t values_count,
                       uint32_t numbers[11]);

/*
 * Builds the tree of the request that a PCReq carries: what yq_tree answers for
 * the source, destination, lists and bandwidth that yq_read_pcreq reads. The
 * bound is the value of the first METRIC whose flag B is set, whatever its
 * type, and counts where there is one. yq_pcreq_first and yq_pcreq_next take
 * the request likewise.
 *
 *   profile  a profile file, as yq_check_profile takes it
 *   ingress  the domain that the sequence starts in, as an index into the
 *            profile's domain records, from 0
 *   message  the PCReq, as yq_read_pcreq takes it
 *
 * The four lent buffers are as for yq_tree.
 *
 * Returns the first of these, in the order in which the checks are made:
 *
 *    36 to 40  what yq_read_pcreq finds wrong with the message
 *    10 to 20  what yq_tree finds wrong with the profile and the ingress
 *    21  bits of the bandwidth, then of any METRIC, from 7F800000 up
 *    22 to 32  what yq_tree finds wrong with the two lists
 *    42  likewise: an EXRS with no new domain after it
 *    34  a buffer has fewer elements than the tree has entries
 *     0  the tree is in the buffers; a refusal leaves all four untouched
 *
 * numbers[0]  place: from 36 to 40 as yq_read_pcreq stores it; on 21 0 for the
 *             bandwidth and 1 for a METRIC; else as yq_tree stores it
 * numbers[1] to numbers[3]  as yq_tree stores them
 */
uint32_t yq_pcreq_tree(const uint8_t *profile, size_t profile_count,
                       uint16_t ingress,
                       const uint8_t *message, size_t message_count,
                       uint32_t *level, size_t level_count,
                       uint32_t *address, size_t address_count,
                       uint8_t *reachable, size_t reachable_count,
                       uint32_t *cost, size_t cost_count,
                       uint32_t numbers[4]);

/*
 * The first of the shortest paths of the request that a PCReq carries. Profile,
 * ingress and message are as yq_pcreq_tree takes them, the path is as yq_first
 * stores it: it has an address more than the sequence has domains.
 *
 * Returns the first of these, in the order in which the checks are made:
 *
 *    10 to 32 and 36 to 40  what yq_pcreq_tree finds wrong, in its order
 *    42  likewise: an EXRS with no new domain after it
 *    34  path has fewer elements than a path has addresses
 *     1  no path keeps the bound, in either round
 *     0  the path is at the start of the buffer; the rest of it is untouched
 *
 * A refusal and an answer 1 leave the whole buffer untouched.
 *
 * numbers[0]  place, as yq_pcreq_tree stores it; on 1 0
 * numbers[1] to numbers[3]  as yq_first stores them
 */
uint32_t yq_pcreq_first(const uint8_t *profile, size_t profile_count,
                        uint16_t ingress,
                        const uint8_t *message, size_t message_count,
                        uint32_t *path, size_t path_count,
                        uint32_t numbers[4]);

/*
 * The next of the shortest paths of the request that a PCReq carries, after a
 * given list of addresses. Profile, ingress and message are as yq_pcreq_tree
 * takes them, given and path as yq_next does.
 *
 * Returns the first of these, in the order in which the checks are made:
 *
 *    10 to 32 and 36 to 40  what yq_pcreq_tree finds wrong, in its order
 *    42  likewise: an EXRS with no new domain after it
 *    33  given has more or fewer elements than a path has addresses
 *    34  path has fewer elements than a path has addresses
 *     2  no shortest path is greater than the list
 *     0  the path is at the start of the buffer; the rest of it is untouched
 *
 * A refusal and an answer 2 leave the whole buffer untouched.
 *
 * numbers  as yq_pcreq_first stores them; on 2 all four are 0
 */
uint32_t yq_pcreq_next(const uint8_t *profile, size_t profile_count,
                       uint16_t ingress,
                       const uint8_t *message, size_t message_count,
                       const uint32_t *given, size_t given_count,
                       uint32_t *path, size_t path_count,
                       uint32_t numbers[4]);

/*
 * Writes a path computation reply, a PCRep message (RFC 5440), which
 * yq_read_pcrep reads back as the same fields: RP, then ERO or NO-PATH, then
 * the METRICs. P is set in the RP alone.
 *
 *   request_id  the request's number
 *   rp_flags    the RP's flags, as yq_read_pcreq stores them; any other bit is
 *               not written
 *   found       whether the reply is a path, an ERO; if not, it is a NO-PATH
 *   addresses   the path: each address is written as a type 1 subobject with
 *               prefix length 32; not looked at where `found` is false
 *   nature      the NO-PATH's nature of issue; not looked at where `found` is
 *               true
 *   c_flag      its flag C: unsatisfied constraints follow; likewise
 *
 * The three lists kinds, flags and values have an element for each METRIC, in
 * order, as yq_read_pcreq fills them. They are written bit for bit.
 *
 * The message is written to the start of `out`. It has at most 65,532 bytes.
 *
 * Returns the first of these, in the order in which the checks are made:
 *
 *    37  not a message that can be written: over 65,535 bytes; counts of the
 *        three lists that differ
 *    21  bits of a METRIC's value from 7F800000 up
 *    34  out has fewer bytes than the message
 *     0  the message is in out; a refusal leaves out untouched
 *
 * numbers[0]  place: on 21 1; else 0
 * numbers[1]  on 0 how many bytes the message has; else 0
 */
uint32_t yq_write_pcrep(uint32_t request_id, uint32_t rp_flags, bool found,
                        const uint32_t *addresses, size_t addresses_count,
                        uint8_t nature, bool c_flag,
                        const uint8_t *kinds, size_t kinds_count,
                        const uint8_t *flags, size_t flags_count,
                        const uint32_t *values, size_t values_count,
                        uint8_t *out, size_t out_count,
                        uint32_t numbers[2]);

/*
 * Reads a PCRep message: whose reply it is, its path or that there is none, and
 * its METRICs.
 *
 *   message  the whole message, its four-byte header first
 *
 * The objects read are RP, ERO, NO-PATH and METRIC, in any order. All METRICs
 * count; of RPs the first does, and of EROs and NO-PATHs together the first.
 * What else is not looked at or skipped is as for yq_read_pcreq; what follows
 * the fixed part of a NO-PATH isn't looked at either.
 *
 *   addresses  the path, in order; 8,189 elements are always enough
 *
 * The other three lent buffers have an element for each METRIC, as for
 * yq_read_pcreq.
 *
 * Returns the first of these, in the order in which the checks are made:
 *
 *    36  header: as for yq_read_pcreq, but the type is 4 (PCRep)
 *  then each object in turn
 *    37  length, as for yq_read_pcreq: RP 12 or more, ERO any, NO-PATH 8 or
 *        more, METRIC 12
 *    38  any other class or type, with P set
 *  then
 *    39  no RP
 *    41  neither ERO nor NO-PATH
 *    21  bits of a METRIC's value from 7F800000 up
 *    23 to 27  form of an ERO that counts: as yq_read_include finds it, but
 *        type 1 alone is taken (else 24), and the list may have any length
 *    34  addresses has fewer elements than the path, or one of the other
 *        buffers fewer than the message has METRICs
 *  else
 *     0  the reply is in the numbers and the buffers; a refusal leaves all four
 *        untouched
 *
 * numbers[0]  place: on 37 and 38 the offset in the message of the object that
 *             is refused; on 21 1; from 23 to 27 the offset in the ERO's body
 *             of the subobject that is refused; else 0
 * numbers[1]  on 0 the request-ID; else 0
 * numbers[2]  on 0 the RP's flags, as for yq_read_pcreq; else 0
 * numbers[3]  on 0 whether the reply is a path: 1, or for a NO-PATH 0; else 0
 * numbers[4]  on 0 the NO-PATH's nature of issue, for a path 0; else 0
 * numbers[5]  on 0 whether the NO-PATH's flag C is set: 1, or 0, as for a path;
 *             else 0
 * numbers[6]  on 0 how many addresses the path has, for a NO-PATH 0; else 0
 * numbers[7]  on 0 how many METRICs there are; else 0
 */
uint32_t yq_read_pcrep(const uint8_t *message, size_t message_count,
                       uint32_t *addresses, size_t addresses_count,
                       uint8_t *kinds, size_t kinds_count,
                       uint8_t *flags, size_t flags_count,
                       uint32_t *values, size_t values_count,
                       uint32_t numbers[8]);

#ifdef __cplusplus
}
#endif

#endif
