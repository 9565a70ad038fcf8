//! The simulated substation's ratings: that what ticket 5 asks for comes about
//! in made recordings, and that other readings of it would show in the outputs.

use reference::dice::Dice;
use reference::input::{bit, Input};
use reference::make_sheet;
use reference::reading::{amp_limit, VOLT_LIMIT};
use reference::record::{Drive, Record, Side};
use reference::scene::Scene;
use reference::sheet::{module_k, slot, Settings};
use reference::tick::{tick, Ticked};
use reference::voltage::{judge, picked, side_of, Ratings};

fn by_u_comp(settings: &Settings) -> bool {
    settings[slot::COMPENSATION] == 1
}

fn unequal(settings: &Settings) -> bool {
    let Ratings { transformer, breaker } = Ratings::of(settings);
    transformer != breaker
}

/// Whether the ratings, the transformer's and the breaker's, are of a kind.
type OfRatings = fn(u32, u32) -> bool;

#[test]
fn chance_sheets_of_every_kind_of_ratings() {
    let sheets: Vec<Settings> = (0..3_000).map(|seed| make_sheet::sheet(&mut Dice::new(seed))).collect();
    let by_u_comp: Vec<&Settings> = sheets.iter().filter(|sheet| by_u_comp(sheet)).collect();
    assert!((700..1_200).contains(&by_u_comp.len()), "{} of 3,000", by_u_comp.len());
    let kinds: [(&str, OfRatings, usize); 9] = [
        ("equal", |t, b| t == b, 150),
        ("the transformer's larger", |t, b| t > b, 250),
        ("the breaker's larger", |t, b| t < b, 250),
        ("neighbours", |t, b| t.abs_diff(b) == 1, 150),
        ("2,000 on 1,250", |t, b| (t, b) == (2_000, 1_250), 15),
        ("moderate", |t, b| t <= 4 * b && b <= 4 * t, 700),
        ("the transformer's at an end", |t, _| t == 1 || t == 20_000, 50),
        ("the breaker's at an end", |_, b| b == 1 || b == 20_000, 50),
        ("farthest apart", |t, b| t.abs_diff(b) == 19_999, 10),
    ];
    for (name, is, least) in kinds {
        let count = by_u_comp.iter().map(|sheet| Ratings::of(sheet)).filter(|r| is(r.transformer, r.breaker)).count();
        assert!(count >= least, "{name}: {count}");
    }
}

/// Every simulated tick in service of sheets by U_comp, of these seeds.
fn on_ticks(seeds: std::ops::Range<u64>, mut see: impl FnMut(u64, &Record, &Input, &Ticked)) {
    for seed in seeds {
        let mut scene = Scene::new(seed);
        for _ in 0..500 {
            let before = scene.record.clone();
            if !by_u_comp(&before.settings) || before.settings[slot::IN_SERVICE] == 0 {
                break;
            }
            let (input, ticked) = scene.next_tick();
            if !input.contacts.on(bit::OUT) {
                see(seed, &before, &input, &ticked);
            }
        }
    }
}

#[test]
fn raise_and_lower_both_come() {
    let mut commands = [[0; 2]; 300];
    on_ticks(0..300, |seed, before, input, ticked| {
        if unequal(&before.settings) && before.drive == Drive::Rest && input.contacts.on(bit::AUTOMATIC) {
            commands[seed as usize][0] += ticked.outputs[0];
            commands[seed as usize][1] += ticked.outputs[1];
        }
    });
    let both = commands.iter().filter(|[raises, lowers]| *raises > 0 && *lowers > 0).count();
    assert!(both >= 4, "{both} of 300 seeds");
}

/// U_supp on this tick.
fn support(settings: &Settings, input: &Input) -> u32 {
    let chosen = (16..=18).rev().find(|&bit| input.contacts.on(bit)).map_or(0, |bit| bit as usize - 15);
    settings[slot::U_SUPP + chosen]
}

#[test]
fn u_lies_on_and_beside_the_edges() {
    // By kind of ratings: equal, moderate and far apart.
    let mut beside = [[[0; 3]; 2]; 3];
    on_ticks(0..600, |_, before, input, _| {
        let settings = &before.settings;
        let Ratings { transformer, breaker } = Ratings::of(settings);
        let kind = match transformer.max(breaker) / transformer.min(breaker) {
            1 if transformer == breaker => 0,
            1..=4 => 1,
            _ => 2,
        };
        let Some(u) = judge(settings, input).u else { return };
        let (support, half) = (i64::from(support(settings, input)), i64::from(settings[slot::DU]) / 2);
        for (counts, edge) in beside[kind].iter_mut().zip([support - half, support + half]) {
            for (count, by) in counts.iter_mut().zip([-1, 0, 1]) {
                *count += u32::from(u == edge + by);
            }
        }
    });
    assert!(beside.as_flattened().as_flattened().iter().all(|&count| count > 100), "{beside:?}");
}

/// The current of slot 4 and U_AB, if both are there.
fn current_and_u_ab(settings: &Settings, input: &Input) -> Option<(i64, i64)> {
    let amps = amp_limit(module_k(settings));
    let bus = input.i_bus.good(amps).map(i64::from);
    let coupler = input.i_coupler.good(amps).map(i64::from);
    Some((picked(settings, bus, coupler)?, i64::from(input.u_ab.good(VOLT_LIMIT)?)))
}

#[test]
fn u_ab_is_seldom_at_an_end_of_its_range() {
    let (mut ticks, mut at_end, mut minus, mut dropped) = (0, 0, 0, 0);
    on_ticks(0..600, |_, before, input, _| {
        if let Some((current, u_ab)) = current_and_u_ab(&before.settings, input) {
            ticks += 1;
            at_end += u32::from(u_ab == 0 || u_ab == 200_000);
            minus += u32::from(current < 0);
            dropped += u32::from(judge(&before.settings, input).u != Some(u_ab));
        }
    });
    assert!(at_end > 0 && at_end < ticks / 10, "{at_end} of {ticks}");
    assert!(minus > ticks / 20, "{minus} of {ticks}");
    assert!(dropped > ticks * 4 / 5, "{dropped} of {ticks}");
}

/// A drop, from U_comp, I, k and the two ratings.
type Rule = fn(i64, i64, i64, i64, i64) -> i64;

/// The ticket's drop, and wrong ones.
const TICKET: Rule = |u, i, k, t, b| u * i * t / (1_000 * k * b);
const WRONG: [(&str, Rule); 10] = [
    ("01's drop", |u, i, k, _, _| u * i / (1_000 * k)),
    ("ratings swapped", |u, i, k, t, b| u * i * b / (1_000 * k * t)),
    ("01's drop first", |u, i, k, t, b| u * i / (1_000 * k) * t / b),
    ("the rated current first", |u, i, k, t, b| i * t / b * u / (1_000 * k)),
    ("the rated U_comp first", |u, i, k, t, b| u * t / b * i / (1_000 * k)),
    ("the ratings' quotient first", |u, i, k, t, b| u * i * (t / b) / (1_000 * k)),
    ("down", |u, i, k, t, b| (u * i * t).div_euclid(1_000 * k * b)),
    ("away from zero", |u, i, k, t, b| (u * i * t + i.signum() * (1_000 * k * b - 1)) / (1_000 * k * b)),
    ("the nearest", |u, i, k, t, b| (2 * u * i * t + i.signum() * 1_000 * k * b) / (2_000 * k * b)),
    ("in 32 bits", |u, i, k, t, b| i64::from((u * i * t) as i32) / (1_000 * k * b)),
];

/// Outputs 17 and 18 on this tick by a rule for the drop.
fn low_and_high(settings: &Settings, input: &Input, rule: Rule) -> [u32; 2] {
    let Some((current, u_ab)) = current_and_u_ab(settings, input) else { return [0, 0] };
    let [u_comp, t, b] = [slot::U_COMP, 66, 67].map(|slot| i64::from(settings[slot]));
    let u = u_ab - rule(u_comp, current, module_k(settings).into(), t, b);
    match side_of(u, support(settings, input), settings[slot::DU]) {
        Some(Side::Low) => [1, 0],
        Some(Side::High) => [0, 1],
        None => [0, 0],
    }
}

/// On how many ticks of sheets with unequal ratings, and of how many seeds,
/// low or high would be another by this rule.
fn ticks_that_differ(rule: Rule) -> (u32, usize) {
    let mut differ = [0; 400];
    on_ticks(0..400, |seed, before, input, ticked| {
        if unequal(&before.settings) {
            differ[seed as usize] += u32::from(low_and_high(&before.settings, input, rule) != ticked.outputs[17..=18]);
        }
    });
    (differ.iter().sum(), differ.iter().filter(|&&count| count > 0).count())
}

#[test]
fn low_and_high_are_the_ticket_s() {
    assert_eq!(ticks_that_differ(TICKET), (0, 0));
}

#[test]
fn outputs_differ_if_the_drop_goes_by_another_rule() {
    for (name, rule) in WRONG {
        let (ticks, seeds) = ticks_that_differ(rule);
        assert!(ticks > 100 && seeds >= 5, "{name}: {ticks} ticks of {seeds} seeds");
    }
}

#[test]
fn a_neighbouring_rating_differs() {
    for rating in [slot::TRANSFORMER_RATING, slot::BREAKER_RATING] {
        let mut differ = 0;
        on_ticks(0..300, |_, before, input, ticked| {
            let mut record = before.clone();
            record.settings[rating] ^= 1;
            record.settings[rating] = record.settings[rating].clamp(1, 20_000);
            differ += u32::from(tick(&record, input).outputs != ticked.outputs);
        });
        assert!(differ > 100, "slot {rating}: {differ}");
    }
}

#[test]
fn without_slot_3_at_1_no_rating_changes_a_tick() {
    let mut ticks = [0; 3];
    for seed in 0..200 {
        let mut scene = Scene::new(seed);
        let mut dice = Dice::new(seed);
        for _ in 0..300 {
            let before = scene.record.clone();
            if by_u_comp(&before.settings) {
                break;
            }
            let mut other = before.clone();
            for rating in [slot::TRANSFORMER_RATING, slot::BREAKER_RATING] {
                other.settings[rating] = dice.between(1, 20_000);
            }
            let (input, ticked) = scene.next_tick();
            let mut answer = tick(&other, &input);
            assert_eq!(answer.next.settings, other.settings);
            answer.next.settings = before.settings;
            assert_eq!(answer, ticked);
            ticks[before.settings[slot::COMPENSATION] as usize] += 1;
        }
    }
    assert!(ticks[0] > 10_000 && ticks[1] == 0 && ticks[2] > 10_000, "{ticks:?}");
}
