//! Costs up to 16,777,215: totals that are no floats, the floats that stand for
//! them, and bounds beside them, which decide the round too. What is expected is
//! typed by hand or worked out by the tests' own division.

use reference::Request;
use tests::by_hand::S;
use tests::compare::Kinds;
use tests::floats::{beside, is_float, keeps, nearest};
use tests::lists::{excluded, marked};
use tests::paths::find_first;
use tests::rows::{row, row_path, spread, two_ways};
use tests::tree::Entry;
use tests::wide::{along, bounded, tell, Told, GREATEST, MOST};

// Totals and their floats.

/// Every call on a row of these costs gives their sum and this float, and the
/// tree what is left to pay from each domain on.
#[track_caller]
fn check_row(costs: &[u32], bits: u32) {
    let domains = costs.len();
    let (profile, include) = row(costs);
    let which = format!("{costs:?}");
    let told = tell(&along(&profile, &include, domains), &which);
    let path = row_path(domains);
    let total: u32 = costs.iter().sum();
    assert_eq!(
        (told.number, told.numbers),
        (0, [0, total, bits, 1]),
        "{which}"
    );
    let rest = |i: usize| Some(costs[i..].iter().sum::<u32>());
    let entries: Vec<Entry> = (0..domains).map(|i| (i as u32, path[i], rest(i))).collect();
    assert_eq!((told.path, told.tree.entries), (path, entries), "{which}");
}

/// As many hops of the greatest cost as there can be, and one for what is left.
fn packed(total: u32) -> Vec<u32> {
    let mut costs = vec![MOST; (total / MOST) as usize];
    let left = total % MOST;
    if left > 0 || costs.is_empty() {
        costs.push(left);
    }
    costs
}

/// The costs that a total is tried with: as few hops as there can be, uneven and
/// even, one hop more, and 16.
fn ways_to_pay(total: u32) -> Vec<Vec<u32>> {
    let fewest = packed(total).len();
    let mut counts = vec![fewest, fewest + 1, 16];
    counts.retain(|&count| count <= 16);
    counts.dedup();
    let even = counts.into_iter().map(|count| spread(total, count));
    [packed(total)].into_iter().chain(even).collect()
}

#[test]
fn totals_around_every_power_of_two() {
    let (mut rows, mut inexact, mut one_hop) = (0, 0, 0);
    for power in 24..=28u32 {
        let middle = 1u32 << power;
        for total in middle - 40..=GREATEST.min(middle + 40) {
            for costs in ways_to_pay(total) {
                check_row(&costs, nearest(total));
                rows += 1;
                one_hop += usize::from(costs.len() == 1);
                inexact += usize::from(!is_float(total));
            }
        }
    }
    println!("\nwide costs, around powers of two: {rows} rows,");
    println!("{one_hop} of one hop, {inexact} totals no floats");
    assert!(rows >= 1_200 && one_hop >= 40 && inexact >= 800);
}

/// Totals and the bits of their floats, worked out by hand: halfway between two
/// floats on either side of either kind, and right beside that.
const FLOATS: [(u32, u32); 50] = [
    (0, 0x0000_0000),
    (65_535, 0x477F_FF00),
    (65_536, 0x4780_0000),
    (1_048_560, 0x497F_FF00),
    (16_777_214, 0x4B7F_FFFE),
    (16_777_215, 0x4B7F_FFFF),
    // From here on every second number is a float.
    (16_777_216, 0x4B80_0000),
    (16_777_217, 0x4B80_0000),
    (16_777_218, 0x4B80_0001),
    (16_777_219, 0x4B80_0002),
    (16_777_221, 0x4B80_0002),
    (16_777_223, 0x4B80_0004),
    (33_554_427, 0x4BFF_FFFE),
    (33_554_429, 0x4BFF_FFFE),
    (33_554_430, 0x4BFF_FFFF),
    (33_554_431, 0x4C00_0000),
    // Every fourth.
    (33_554_432, 0x4C00_0000),
    (33_554_433, 0x4C00_0000),
    (33_554_434, 0x4C00_0000),
    (33_554_435, 0x4C00_0001),
    (33_554_438, 0x4C00_0002),
    (33_554_442, 0x4C00_0002),
    (67_108_857, 0x4C7F_FFFE),
    (67_108_858, 0x4C7F_FFFE),
    (67_108_859, 0x4C7F_FFFF),
    (67_108_861, 0x4C7F_FFFF),
    (67_108_862, 0x4C80_0000),
    // Every eighth.
    (67_108_867, 0x4C80_0000),
    (67_108_868, 0x4C80_0000),
    (67_108_869, 0x4C80_0001),
    (67_108_876, 0x4C80_0002),
    (67_108_884, 0x4C80_0002),
    (134_217_716, 0x4CFF_FFFE),
    (134_217_717, 0x4CFF_FFFF),
    (134_217_723, 0x4CFF_FFFF),
    (134_217_724, 0x4D00_0000),
    // Every sixteenth.
    (134_217_735, 0x4D00_0000),
    (134_217_736, 0x4D00_0000),
    (134_217_737, 0x4D00_0001),
    (134_217_751, 0x4D00_0001),
    (134_217_752, 0x4D00_0002),
    (134_217_768, 0x4D00_0002),
    (268_435_415, 0x4D7F_FFFD),
    (268_435_416, 0x4D7F_FFFE),
    (268_435_424, 0x4D7F_FFFE),
    (268_435_431, 0x4D7F_FFFE),
    (268_435_432, 0x4D7F_FFFE),
    (268_435_433, 0x4D7F_FFFF),
    (268_435_439, 0x4D7F_FFFF),
    (268_435_440, 0x4D7F_FFFF),
];

#[test]
fn floats_typed_by_hand() {
    let mut rows = 0;
    for (total, bits) in FLOATS {
        assert_eq!(nearest(total), bits, "the tests' own, {total}");
        for costs in ways_to_pay(total) {
            check_row(&costs, bits);
            rows += 1;
        }
    }
    println!("\nwide costs, floats typed by hand: {rows} rows");
}

/// Totals from 0 to the greatest; no float is more than 8 away, and some are.
#[test]
fn totals_all_over_the_range() {
    let (mut totals, mut farthest) = (0, 0.0f64);
    for total in (0..=GREATEST).step_by(49_999).chain([GREATEST]) {
        let (profile, include) = row(&spread(total, 16));
        let which = format!("total {total}");
        // The call's float is held to the nearest one there.
        let found = find_first(&along(&profile, &include, 16), &which);
        assert_eq!(found, Ok((row_path(16), total, 1)), "{which}");
        let float = f64::from(f32::from_bits(nearest(total)));
        farthest = farthest.max((float - f64::from(total)).abs());
        totals += 1;
    }
    println!("\nwide costs, all over the range: {totals} totals,");
    println!("at most {farthest} from the float");
    assert!(totals >= 5_000 && farthest == 8.0);
}

// Bounds.

/// The totals from one float of 2^power up to the next one, for floats at either
/// end and inside, of even and odd last bit; more of them where there are few
/// totals between.
fn totals_of(power: u32) -> Vec<u32> {
    let unit = 1u32 << (power - 23);
    let (first, next) = (1u32 << power, (1u32 << (power + 1)).min(GREATEST));
    let inside = first + 4_567_890 * unit;
    let ends = (24 / unit).max(3);
    let floats = (0..ends).flat_map(|i| [first + i * unit, next - (i + 1) * unit]);
    let floats = floats.chain([inside, inside + unit]);
    floats.flat_map(|float| float..=float + unit).collect()
}

/// The floats around a total.
fn bounds_around(total: u32) -> Vec<u32> {
    let [lower, upper] = beside(total);
    let mut bounds = vec![lower - 1, lower, upper, upper + 1, nearest(total)];
    bounds.sort_unstable();
    bounds.dedup();
    bounds
}

/// On which side of its total a float lies, and whether the bound is that float.
fn kind(total: u32, bound_bits: u32) -> String {
    let rounded = match (is_float(total), keeps(total, nearest(total))) {
        (true, _) => "exact",
        (_, false) => "rounded down",
        (_, true) => "rounded up",
    };
    let bound = match bound_bits == nearest(total) {
        true => "at the float",
        false => "elsewhere",
    };
    let kept = if keeps(total, bound_bits) {
        "kept"
    } else {
        "not kept"
    };
    format!("total {rounded}, bound {bound}, {kept}")
}

/// The kinds that tell a right comparison from one with the rounded float.
fn wanted_kinds() -> Vec<String> {
    let kinds = [
        "exact, bound at the float, kept",
        "rounded down, bound at the float, not kept",
        "rounded down, bound elsewhere, kept",
        "rounded up, bound at the float, kept",
        "rounded up, bound elsewhere, not kept",
    ];
    kinds.map(|kind| format!("total {kind}")).into()
}

#[test]
fn bounds_are_held_against_the_total() {
    for power in 24..28 {
        let mut kinds = Kinds::default();
        for total in totals_of(power) {
            let (profile, include) = row(&spread(total, 16));
            let request = along(&profile, &include, 16);
            for bound_bits in bounds_around(total) {
                let which = format!("total {total}, bound {bound_bits:08X}");
                let told = tell(&bounded(request, bound_bits), &which);
                let expected = match keeps(total, bound_bits) {
                    true => (0, [0, total, nearest(total), 1]),
                    false => (1, [0; 4]),
                };
                assert_eq!((told.number, told.numbers), expected, "{which}");
                assert_eq!(told.tree.entries[0].2, Some(total), "{which}");
                kinds.add(kind(total, bound_bits));
            }
        }
        kinds.cover(&format!("wide costs, bounds, 2^{power}"), &wanted_kinds());
    }
}

/// Totals with a bound beside them and whether it keeps them, typed by hand: the
/// float rounded down, then up.
#[test]
fn bounds_typed_by_hand() {
    let mut rows = 0;
    for (total, bound_bits, kept) in [
        (16_777_217, 0x4B80_0000, false),
        (16_777_217, 0x4B80_0001, true),
        (33_554_434, 0x4C00_0000, false),
        (33_554_434, 0x4C00_0001, true),
        (67_108_868, 0x4C80_0000, false),
        (67_108_868, 0x4C80_0001, true),
        (134_217_736, 0x4D00_0000, false),
        (134_217_736, 0x4D00_0001, true),
        (268_435_432, 0x4D7F_FFFE, false),
        (268_435_432, 0x4D7F_FFFF, true),
        (16_777_219, 0x4B80_0001, false),
        (16_777_219, 0x4B80_0002, true),
        (33_554_431, 0x4BFF_FFFF, false),
        (33_554_431, 0x4C00_0000, true),
        (67_108_869, 0x4C80_0000, false),
        (67_108_869, 0x4C80_0001, true),
        (134_217_752, 0x4D00_0001, false),
        (134_217_752, 0x4D00_0002, true),
        (268_435_439, 0x4D7F_FFFE, false),
        (268_435_439, 0x4D7F_FFFF, true),
        (268_435_440, 0x4D7F_FFFE, false),
        (268_435_440, 0x4D7F_FFFF, true),
    ] {
        for costs in ways_to_pay(total) {
            let (profile, include) = row(&costs);
            let request = along(&profile, &include, costs.len());
            let which = format!("{costs:?}, bound {bound_bits:08X}");
            let told = tell(&bounded(request, bound_bits), &which);
            assert_eq!(told.number, u32::from(!kept), "{which}");
            rows += 1;
        }
    }
    println!("\nwide costs, bounds typed by hand: {rows} rows");
}

/// The way of the lower total is desired away, so that the other one's total and
/// the bound decide the round.
#[test]
fn the_round_turns_on_the_total() {
    let cheap = row_path(16);
    let mut dear = cheap.clone();
    dear[1] = S + 100;
    let exclude = marked(excluded(S + 1, 32));
    for power in 24..28 {
        let mut kinds = Kinds::default();
        let unit = 1u32 << (power - 23);
        for total in totals_of(power) {
            for less in [1, unit / 2, unit, unit + 1, 300] {
                let (profile, include) = two_ways(total - less, less);
                let request = Request {
                    exclude: &exclude,
                    ..along(&profile, &include, 16)
                };
                for bound_bits in bounds_around(total) {
                    let which = format!("{total} or {less} less, bound {bound_bits:08X}");
                    let told = tell(&bounded(request, bound_bits), &which);
                    let (round, least, path) = match keeps(total, bound_bits) {
                        true => (1, total, &dear),
                        false => (2, total - less, &cheap),
                    };
                    check_round(&told, round, least, path, bound_bits, &which);
                    kinds.add(format!("{}, round {round}", kind(total, bound_bits)));
                }
            }
        }
        let rounds = [1, 2, 1, 1, 2];
        let wanted = wanted_kinds().into_iter().zip(rounds);
        let wanted: Vec<_> = wanted
            .map(|(k, round)| format!("{k}, round {round}"))
            .collect();
        kinds.cover(&format!("wide costs, rounds, 2^{power}"), &wanted);
    }
}

/// The tree has the round's least total; there is a path if that keeps the bound.
#[track_caller]
fn check_round(told: &Told, round: u32, least: u32, path: &[u32], bound_bits: u32, which: &str) {
    let tree = (
        told.tree.round,
        told.tree.hops_examined,
        told.tree.entries[0].2,
    );
    assert_eq!(tree, (round, 18 * round, Some(least)), "{which}");
    let expected = match keeps(least, bound_bits) {
        true => (0, [0, least, nearest(least), round], path),
        false => (1, [0; 4], &[][..]),
    };
    let found = (told.number, told.numbers, &told.path[..]);
    assert_eq!(found, expected, "{which}");
}
