//! What EXRS take away (document 02's request [5]), on profile W: the entry node
//! or the domain of one stretch, in which round, and nothing else.

use crate::common;
use common::messages::hex;
use common::*;
use reference::series::{reference_series, series, Call};
use reference::Request;

const SPTZ: [u32; 4] = [S, P, T, Z];
const SPUZ: [u32; 4] = [S, P, U, Z];
const SQTZ: [u32; 4] = [S, Q, T, Z];
const SQUZ: [u32; 4] = [S, Q, U, Z];

/// The list to 64497 and 64498, with EXRS before each.
fn include(before_64497: &str, before_64498: &str) -> Vec<u8> {
    hex(&format!(
        "{before_64497} 20 04 FB F1 {before_64498} 20 04 FB F2"
    ))
}

/// An EXRS with one node inside, the last byte of whose address is given.
fn node(last: u8, x: &str) -> String {
    format!("21 0C 00 00 {x}1 08 C0 00 02 {last:02X} 20 01")
}

const OUT_P: u8 = 11;
const OUT_Q: u8 = 12;
const OUT_T: u8 = 21;
const OUT_U: u8 = 22;
const OUT_S: u8 = 1;
const OUT_Z: u8 = 99;

const CLEAR: &str = "0";
const SET: &str = "8";

/// An EXRS of one AS in the short form.
fn short_as(as_number: u16, x: &str) -> String {
    let first = if x == SET { "A0" } else { "20" };
    let [high, low] = as_number.to_be_bytes();
    format!("21 08 00 00 {first} 04 {high:02X} {low:02X}")
}

/// Paths, of one total, and round of a request on W.
#[track_caller]
fn expect(include: &[u8], exclude: &str, round: u32, paths: &[[u32; 4]], total: u32) {
    let (w, exclude) = (profile_w(), hex(exclude));
    let request = Request {
        exclude: &exclude,
        ..ask(&w, include)
    };
    let listed: Vec<_> = paths.iter().map(|p| (p.to_vec(), total, round)).collect();
    assert_eq!(listing(&request, 4), listed);
    let (entries, tally, told) = tree(&request);
    assert_eq!((told, tally), (round, 8 * round));
    let least = (u8::from(!paths.is_empty()), total);
    assert_eq!((entries[0].2, entries[0].3), least);
}

#[test]
fn a_node_is_out_as_the_entry_node_of_its_own_stretch() {
    expect(&include("", ""), "", 1, &[SPUZ, SQTZ, SQUZ], 14);
    let without_q = include(&node(OUT_Q, CLEAR), "");
    expect(&without_q, "", 1, &[SPUZ], 14);
    let without_u = include("", &node(OUT_U, CLEAR));
    expect(&without_u, "", 1, &[SQTZ], 14);
    let without_both = include(&node(OUT_Q, CLEAR), &node(OUT_U, CLEAR));
    expect(&without_both, "", 1, &[SPTZ], 15);
}

#[test]
fn elsewhere_it_is_not_out() {
    let all = [SPUZ, SQTZ, SQUZ];
    for (first, second) in [
        // Another stretch's entry node.
        (node(OUT_U, CLEAR), String::new()),
        (String::new(), node(OUT_Q, CLEAR)),
        (node(OUT_T, CLEAR), node(OUT_P, CLEAR)),
        // An end of the path.
        (node(OUT_S, CLEAR), node(OUT_S, CLEAR)),
        (node(OUT_Z, CLEAR), node(OUT_Z, CLEAR)),
        // Another domain: the one that is left, the ingress, the one after.
        (short_as(64496, CLEAR), short_as(64496, CLEAR)),
        (short_as(64498, CLEAR), short_as(64497, CLEAR)),
        // Nothing that is there.
        (short_as(9, CLEAR), node(77, CLEAR)),
        (short_as(9, SET), node(77, SET)),
    ] {
        expect(&include(&first, &second), "", 1, &all, 14);
    }
}

#[test]
fn a_domain_is_excluded_and_not_refused() {
    for (first, second) in [
        (short_as(64497, CLEAR), String::new()),
        (String::new(), short_as(64498, CLEAR)),
        ("21 0C 00 00 05 08 FF FF 00 00 FB F1".into(), String::new()),
        // Prefix length 0: no node is left to enter through.
        ("21 0C 00 00 01 08 00 00 00 00 00 01".into(), String::new()),
    ] {
        expect(&include(&first, &second), "", 1, &[], 0);
    }
}

/// In an AS of two areas: an area takes away its own domain alone, and an AS the
/// domain that the EXRS stands before.
#[test]
fn areas_of_one_as() {
    let domains = [
        domain(64496, 1, &[0, 0, 0, 0]),
        domain(64496, 1, &[0, 0, 0, 4]),
        domain(64497, 1, &[0, 0, 0, 4]),
    ];
    let hops = [
        hop(0, 1, S, P, 1, B1000),
        hop(1, 2, P, T, 1, B1000),
        hop(2, 2, T, Z, 1, B1000),
    ];
    let profile = file(0, &domains, &hops);
    let area_4 = "06 08 00 00 00 00 00 04";
    let to = |first: &str, second: &str| {
        hex(&format!(
            "{first} {area_4} {second} 05 08 00 00 00 00 FB F1 {area_4}"
        ))
    };
    let exrs = |inside: &str| format!("21 {:02X} 00 00 {inside}", 4 + hex(inside).len());
    let area_0 = exrs("06 08 00 00 00 00 00 00");
    let (area_4_out, as_64496) = (exrs(area_4), exrs("20 04 FB F0"));
    for (list, number) in [
        (to("", ""), 0),
        (to(&area_0, &area_0), 0),
        (to(&area_4_out, ""), 1),
        (to("", &area_4_out), 1),
        (to(&as_64496, ""), 1),
        (to("", &as_64496), 0),
        (to(&exrs("20 04 FB F1"), ""), 0),
        // The same bytes as an IS-IS area.
        (to(&exrs("07 08 04 00 00 00 00 04"), ""), 0),
    ] {
        let request = ask(&profile, &list);
        assert_eq!(first(&request, 4).0, number, "{list:02X?}");
    }
}

#[test]
fn several_add_up() {
    let both = format!("{} {}", node(OUT_P, CLEAR), node(OUT_Q, CLEAR));
    expect(&include(&both, ""), "", 1, &[], 0);
    let inside = "21 14 00 00 01 08 C0 00 02 0B 20 01 01 08 C0 00 02 0C 20 01";
    expect(&include(inside, ""), "", 1, &[], 0);
    // 192.0.2.8/29: P and Q.
    let block = "21 0C 00 00 01 08 C0 00 02 0F 1D 01";
    expect(&include(block, ""), "", 1, &[], 0);
    // With an entry constraint, and with an exclude list.
    let by_u = "01 08 C0 00 02 16 20 00";
    let list = include(&node(OUT_Q, CLEAR), by_u);
    expect(&list, "", 1, &[SPUZ], 14);
    let barred = include("", &format!("{by_u} {}", node(OUT_U, CLEAR)));
    expect(&barred, "", 1, &[], 0);
    let without_q = include(&node(OUT_Q, CLEAR), "");
    expect(&without_q, "01 08 C0 00 02 16 20 01", 1, &[SPTZ], 15);
}

#[test]
fn an_x_inside_opens_the_second_round() {
    let all = [SPUZ, SQTZ, SQUZ];
    let desired = format!("{} {}", node(OUT_P, SET), node(OUT_Q, SET));
    expect(&include(&desired, ""), "", 2, &all, 14);
    expect(&include(&short_as(64497, SET), ""), "", 2, &all, 14);
    // While the first round has a path it stays.
    expect(&include(&node(OUT_Q, SET), ""), "", 1, &[SPUZ], 14);
    // What is demanded stays, here and in the exclude list.
    let mixed = format!("{} {}", node(OUT_P, CLEAR), node(OUT_Q, SET));
    expect(&include(&mixed, ""), "", 2, &[SQTZ, SQUZ], 14);
    expect(
        &include(&node(OUT_Q, SET), ""),
        "01 08 C0 00 02 0B 20 01",
        2,
        &[SQTZ, SQUZ],
        14,
    );
}

#[test]
fn x_counts_over_the_exclude_list_and_all_exrs() {
    let all = [SPUZ, SQTZ, SQUZ];
    // Hitting or not, and in another EXRS than the one that hits.
    for desired in [short_as(9, SET), node(77, SET), node(OUT_S, SET)] {
        let list = include(&short_as(64497, CLEAR), &desired);
        expect(&list, "", 2, &[], 0);
    }
    // An X in the exclude list, too, drops the X inside the EXRS.
    let list = include(&short_as(64497, SET), &node(OUT_T, SET));
    expect(&list, "A0 04 00 09", 2, &all, 14);
    let list = include(&short_as(64497, CLEAR), "");
    expect(&list, "A0 04 00 09", 2, &[], 0);
    // And an X inside drops that of the exclude list: P and Q.
    let p_and_q = "81 08 C0 00 02 0B 1D 01";
    expect(&include("", &short_as(9, SET)), p_and_q, 2, &all, 14);
    // All at once: without T alone there would be a path.
    let list = include(&short_as(64497, SET), &node(OUT_T, SET));
    expect(&list, "", 2, &all, 14);
    // X clear everywhere.
    let list = include(&short_as(64497, CLEAR), &short_as(9, CLEAR));
    expect(&list, "20 04 00 09", 1, &[], 0);
}

#[test]
fn the_bound_takes_part_in_choosing_the_round() {
    let w = profile_w();
    let list = include(&node(OUT_Q, SET), &node(OUT_U, SET));
    for (bound, answer) in [
        (15.0f32, (0, [0, 15, 15.0f32.to_bits(), 1])),
        (14.0, (0, [0, 14, 14.0f32.to_bits(), 2])),
        (13.0, (1, [0; 4])),
    ] {
        let request = Request {
            bound_counts: true,
            bound_bits: bound.to_bits(),
            ..ask(&w, &list)
        };
        let (number, numbers, _) = first(&request, 4);
        assert_eq!((number, numbers), answer, "{bound}");
        let round = if bound == 15.0 { 1 } else { 2 };
        assert_eq!(tree(&request).2, round, "{bound}");
    }
}

/// The entries of the tree before the stretch are cut off, those after aren't.
#[test]
fn the_tree_of_a_stretch() {
    let w = profile_w();
    let list = include(&node(OUT_Q, CLEAR), &node(OUT_U, CLEAR));
    let expected = vec![
        (0, S, 1, 15),
        (1, P, 1, 5),
        (1, Q, 0, 0),
        (2, T, 1, 2),
        (2, U, 0, 0),
    ];
    assert_eq!(tree(&ask(&w, &list)), (expected, 8, 1));
    let list = include(&short_as(64497, CLEAR), "");
    let expected = vec![
        (0, S, 0, 0),
        (1, P, 0, 0),
        (1, Q, 0, 0),
        (2, T, 1, 2),
        (2, U, 1, 3),
    ];
    assert_eq!(tree(&ask(&w, &list)), (expected, 8, 1));
}

/// A node that is source, entry node and destination is out as the entry node
/// alone.
#[test]
fn one_node_at_every_place() {
    let domains = [domain(64496, 0, &[]), domain(64497, 0, &[])];
    let hops = [
        hop(0, 1, S, S, 1, B1000),
        hop(0, 1, S, P, 2, B1000),
        hop(1, 1, S, S, 1, B1000),
        hop(1, 1, P, S, 1, B1000),
    ];
    let profile = file(0, &domains, &hops);
    let list = hex(&format!("{} 20 04 FB F1", node(OUT_S, CLEAR)));
    let request = Request {
        destination: S,
        ..ask(&profile, &list)
    };
    assert_eq!(listing(&request, 3), vec![(vec![S, P, S], 3, 1)]);
}

#[test]
fn a_series_in_round_2() {
    use Call::{First, Next};
    let w = profile_w();
    let desired = format!("{} {}", node(OUT_P, CLEAR), node(OUT_Q, SET));
    let list = include(&desired, "");
    let calls = [Next, First, Next, Next, First];
    let mut run = vec![vec![9; 4]; calls.len()];
    let mut book = run.clone();
    let outcomes = series(&ask(&w, &list), &calls, &mut run);
    assert_eq!(
        outcomes,
        reference_series(&ask(&w, &list), &calls, &mut book)
    );
    assert_eq!(run, book);
    let told: Vec<_> = outcomes.iter().map(|o| (o.number, o.numbers[3])).collect();
    assert_eq!(told, [(33, 0), (0, 2), (0, 2), (2, 0), (0, 2)]);
    assert_eq!(run[1..3], [SQTZ.to_vec(), SQUZ.to_vec()]);
}

/// 28 to 32 and 42 go before 33 and 34, through every call.
#[test]
fn left_over_exrs_refuse_a_request() {
    let w = profile_w();
    let list = hex(&format!("20 04 FB F1 {}", short_as(9, SET)));
    let request = ask(&w, &list);
    let refused = (42, [4, 0, 0, 0], vec![OLD; 1]);
    assert_eq!(first(&request, 1), refused);
    assert_eq!(next(&request, &[], 1), refused);
}
