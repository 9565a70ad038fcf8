//! The simulated substation's pairs: that what ticket 3 asks for comes about in
//! made recordings, and that other readings of it would show in the outputs.

use reference::dice::Dice;
use reference::feeder::{length, phasor_of_length, u_ab};
use reference::input::{bit, Input};
use reference::line::remaining;
use reference::make_sheet;
use reference::phasor::{Pair, Phasor};
use reference::reading::{signed_thousandths, Reading};
use reference::record::{Drive, Record};
use reference::scene::Scene;
use reference::sheet::{module_k, slot, Settings, RANGES};
use reference::tick::{tick, Ticked};
use reference::voltage::judge;

fn along_line(settings: &Settings) -> bool {
    settings[slot::COMPENSATION] == 2
}

#[test]
fn phasors_of_a_length() {
    let mut dice = Dice::new(1);
    for u in (0..2_000).chain([98_999, 99_000, 100_000, 200_000, 282_842]) {
        for _ in 0..20 {
            let phasor = phasor_of_length(&mut dice, u);
            let [re, im] = [phasor.re, phasor.im].map(i64::from);
            let (u, sum) = (i64::from(u), re * re + im * im);
            assert!(u * u <= sum && sum < (u + 1) * (u + 1), "{phasor:?} of {u}");
            assert_eq!(i64::from(length(phasor)), u);
        }
    }
}

#[test]
fn u_ab_leaves_the_wanted_u() {
    let mut dice = Dice::new(2);
    for seed in 0..500 {
        let settings = make_sheet::sheet(&mut Dice::new(seed));
        let current = Phasor { re: dice.between(0, 20) as i32 - 10, im: dice.between(0, 20) as i32 - 10 };
        let u = dice.between(90_000, 110_000);
        let u_ab = u_ab(&mut dice, &settings, u, current);
        assert_eq!(remaining(settings[slot::R], settings[slot::X], u_ab, current), i64::from(u));
    }
}

/// Whether R and X are of a kind, given their highest number.
type OfLine = fn(u32, u32, u32) -> bool;

#[test]
fn chance_sheets_of_every_compensation() {
    let sheets: Vec<Settings> = (0..3_000).map(|seed| make_sheet::sheet(&mut Dice::new(seed))).collect();
    let along: Vec<&Settings> = sheets.iter().filter(|sheet| along_line(sheet)).collect();
    assert!((800..1_200).contains(&along.len()), "{} of 3,000", along.len());
    for (module, current) in (0..8).map(|choice| (choice / 4, choice % 4)) {
        let chosen = |sheet: &&&Settings| (sheet[slot::MODULE], sheet[slot::COMPENSATION_CURRENT]) == (module, current);
        assert!(along.iter().filter(chosen).count() > 60, "module {module}, slot 4 = {current}");
    }
    let high = |sheet: &Settings| RANGES[slot::R].ends(module_k(sheet)).1;
    let kinds: [(&str, OfLine); 6] = [
        ("neither", |r, x, _| r == 0 && x == 0),
        ("R alone", |r, x, _| r > 0 && x == 0),
        ("X alone", |r, x, _| r == 0 && x > 0),
        ("R at its end", |r, _, high| r == high),
        ("X at its end", |_, x, high| x == high),
        ("both", |r, x, _| r > 0 && x > 0),
    ];
    for (name, is) in kinds {
        for module in [0, 1] {
            let of_module = along.iter().filter(|sheet| sheet[slot::MODULE] == module);
            let count = of_module.filter(|sheet| is(sheet[slot::R], sheet[slot::X], high(sheet))).count();
            assert!(count >= 5, "{name}: {count} with module {module}");
        }
    }
}

/// Every simulated tick with slot 3 = 2 of these seeds.
fn on_ticks(seeds: std::ops::Range<u64>, mut see: impl FnMut(u64, &Record, &Input, &Ticked)) {
    for seed in seeds {
        let mut scene = Scene::new(seed);
        for _ in 0..500 {
            let before = scene.record.clone();
            if !along_line(&before.settings) {
                break;
            }
            let (input, ticked) = scene.next_tick();
            see(seed, &before, &input, &ticked);
        }
    }
}

#[test]
fn raise_and_lower_both_come() {
    // Automatic commands by seed, raise and lower.
    let mut commands = [[0; 2]; 200];
    on_ticks(0..200, |seed, before, input, ticked| {
        if before.drive == Drive::Rest && input.contacts.on(bit::AUTOMATIC) {
            commands[seed as usize][0] += ticked.outputs[0];
            commands[seed as usize][1] += ticked.outputs[1];
        }
    });
    let both = commands.iter().filter(|[raises, lowers]| *raises > 0 && *lowers > 0).count();
    assert!(both >= 4, "{both} of 200 seeds");
}

/// The band's edges on this tick.
fn edges(settings: &Settings, input: &Input) -> [i64; 2] {
    let chosen = (16..=18).rev().find(|&bit| input.contacts.on(bit)).map_or(0, |bit| bit as usize - 15);
    let (support, half) = (i64::from(settings[slot::U_SUPP + chosen]), i64::from(settings[slot::DU]) / 2);
    [support - half, support + half]
}

#[test]
fn u_lies_on_and_beside_the_edges() {
    let mut beside = [[0; 3]; 2];
    let mut fast = [0; 2];
    on_ticks(0..900, |_, before, input, _| {
        let settings = &before.settings;
        let Some(u) = judge(settings, input).u else { return };
        for (counts, edge) in beside.iter_mut().zip(edges(settings, input)) {
            for (count, by) in counts.iter_mut().zip([-1, 0, 1]) {
                *count += u32::from(u == edge + by);
            }
        }
        for (count, by) in fast.iter_mut().zip([0, 1]) {
            *count += u32::from(u == i64::from(settings[slot::U_SET5]) + by);
        }
    });
    assert!(beside.as_flattened().iter().chain(&fast).all(|&count| count > 300), "{beside:?}, {fast:?}");
}

/// The quadrant of a phasor that is on no axis.
fn quadrant(phasor: Phasor) -> Option<usize> {
    match (phasor.re.signum(), phasor.im.signum()) {
        (0, _) | (_, 0) => None,
        (re, im) => Some(usize::from(re < 0) + 2 * usize::from(im < 0)),
    }
}

#[test]
fn phasors_are_in_all_quadrants() {
    let mut counts = [[0; 4]; 3];
    on_ticks(0..100, |_, before, input, _| {
        let amps = 40 * module_k(&before.settings);
        let pairs = [(input.u_ab_pair, 200), (input.i_bus_pair, amps), (input.i_coupler_pair, amps)];
        for (counts, (pair, limit)) in counts.iter_mut().zip(pairs) {
            if let Some(quadrant) = pair.good(limit).and_then(quadrant) {
                counts[quadrant] += 1;
            }
        }
    });
    assert!(counts.as_flattened().iter().all(|&count| count > 1_000), "{counts:?}");
}

/// Which pairs slot 4 picks.
fn picks(settings: &Settings) -> (bool, bool) {
    let current = settings[slot::COMPENSATION_CURRENT];
    (current != 1, current != 0)
}

#[test]
fn parts_are_spoiled_in_every_way() {
    // By way, of needed parts and of others; and the scalar U_AB beside a good U.
    let mut ways = [[0; 5]; 2];
    let mut scalar = 0;
    on_ticks(0..300, |_, before, input, _| {
        let (bus, coupler) = picks(&before.settings);
        let amps = 40 * module_k(&before.settings);
        let needed = [true, true, bus, bus, coupler, coupler];
        let limits = [200, 200, amps, amps, amps, amps];
        for ((part, needed), limit) in input.readings()[6..].iter().zip(needed).zip(limits) {
            let way = match *part {
                Reading::Held(_) => 0,
                Reading::Invalid => 1,
                Reading::Good(x) if x.is_nan() => 2,
                Reading::Good(x) if signed_thousandths(x, limit).is_none() => 3,
                Reading::Good(x) if x.to_bits() == 0x8000_0000 => 4,
                Reading::Good(_) => continue,
            };
            ways[usize::from(needed)][way] += 1;
        }
        scalar += u32::from(input.u_ab.good(200).is_none() && judge(&before.settings, input).u.is_some());
    });
    assert!(ways.as_flattened().iter().all(|&count| count > 20), "{ways:?}");
    assert!(scalar > 1_000, "{scalar}");
}

/// The pairs turned by this.
fn turn(input: &mut Input, of: impl Fn(Pair) -> Pair) {
    for pair in [&mut input.u_ab_pair, &mut input.i_bus_pair, &mut input.i_coupler_pair] {
        *pair = of(*pair);
    }
}

fn minus(reading: Reading) -> Reading {
    match reading {
        Reading::Good(x) => Reading::Good(-x),
        other => other,
    }
}

/// On how many ticks the outputs would be others with this change.
fn ticks_that_differ(change: impl Fn(&mut Record, &mut Input)) -> u32 {
    let mut differ = 0;
    on_ticks(0..200, |_, before, input, ticked| {
        let (mut record, mut input) = (before.clone(), *input);
        change(&mut record, &mut input);
        differ += u32::from(tick(&record, &input).outputs != ticked.outputs);
    });
    differ
}

#[test]
fn outputs_differ_if_u_goes_by_another_rule() {
    let settings = |change: fn(&mut Settings)| move |record: &mut Record, _: &mut Input| change(&mut record.settings);
    for (name, differ) in [
        ("the scalar", ticks_that_differ(settings(|s| s[slot::COMPENSATION] = 0))),
        ("U_comp", ticks_that_differ(settings(|s| s[slot::COMPENSATION] = 1))),
        ("no R", ticks_that_differ(settings(|s| s[slot::R] = 0))),
        ("no X", ticks_that_differ(settings(|s| s[slot::X] = 0))),
        ("R for X", ticks_that_differ(settings(|s| s.swap(slot::R, slot::X)))),
        ("1 mΩ less", ticks_that_differ(settings(|s| s[slot::R] -= u32::from(s[slot::R] > 0)))),
        ("the other current", ticks_that_differ(settings(|s| s[slot::COMPENSATION_CURRENT] ^= 1))),
        ("X backwards", ticks_that_differ(|_, i| turn(i, |pair| Pair { im: minus(pair.im), ..pair }))),
        ("the bus's parts swapped", ticks_that_differ(|_, i| i.i_bus_pair = swapped(i.i_bus_pair))),
        ("no scalar", ticks_that_differ(|_, i| i.u_ab = Reading::Invalid)),
    ] {
        assert!(differ > 100, "{name}: {differ}");
    }
}

fn swapped(pair: Pair) -> Pair {
    Pair { re: pair.im, im: pair.re }
}

#[test]
fn turning_both_by_a_half_or_a_quarter_changes_no_output() {
    // Roundings and ranges are the same for either sign and either part.
    assert_eq!(ticks_that_differ(|_, i| turn(i, |pair| Pair { re: minus(pair.re), im: minus(pair.im) })), 0);
    assert_eq!(ticks_that_differ(|_, i| turn(i, |pair| Pair { re: minus(pair.im), im: pair.re })), 0);
}

#[test]
fn a_pair_that_slot_4_does_not_pick_changes_no_output() {
    let nothing = Pair { re: Reading::Invalid, im: Reading::Invalid };
    let differ = ticks_that_differ(|record, input| {
        let (bus, coupler) = picks(&record.settings);
        if !bus {
            input.i_bus_pair = nothing;
        }
        if !coupler {
            input.i_coupler_pair = nothing;
        }
    });
    assert_eq!(differ, 0);
}

#[test]
fn without_slot_3_at_2_no_pair_changes_an_output() {
    for seed in 0..100 {
        let mut scene = Scene::new(seed);
        for _ in 0..500 {
            let before = scene.record.clone();
            if along_line(&before.settings) {
                break;
            }
            let (mut input, ticked) = scene.next_tick();
            turn(&mut input, |_| Pair { re: Reading::Invalid, im: Reading::Held(1.0) });
            assert_eq!(tick(&before, &input), ticked);
        }
    }
}
