//! Sheets: round trips, the table of names against the library, every refusal by name, bad files.

mod common;

use common::{bytes, defaults, file, Dice};
use desk::diff::diff;
use desk::names::{rated_amps, Kind, ABSENT, CONTINUOUS, MODULE, N_L, N_POS, N_R, TABLE, TAP_SOURCE};
use desk::sheet::{self, explain, refusals};
use desk::template::{template, MODULES};
use desk::unit::{start, Refusal};
use desk::{decimal, value};
use library::SLOTS;

fn problems(text: &str) -> Vec<String> {
    sheet::read(&file(text)).expect_err("a bad sheet")
}

fn one_problem(text: &str) -> String {
    let problems = problems(text);
    assert_eq!(problems.len(), 1, "{problems:?}");
    problems[0].clone()
}

fn slot_of(text: &str, slot: usize) -> u32 {
    sheet::read(&file(text)).expect("a good sheet").list[slot]
}

/// Whether the table of names takes a number.
fn table_takes(slot: usize, module: u32, number: u32) -> bool {
    let (low, high) = TABLE[slot].bounds(module);
    (low..=high).contains(&number) && (number - low).is_multiple_of(TABLE[slot].step)
}

/// Numbers at and around the edges of a slot.
fn edges(slot: usize, module: u32) -> Vec<u32> {
    let (low, high) = TABLE[slot].bounds(module);
    let step = TABLE[slot].step;
    let mut numbers = vec![0, 1, low, low + 1, low + step, high, high + 1, high + step, u32::MAX];
    numbers.extend([low.checked_sub(1), low.checked_sub(step), high.checked_sub(1), high.checked_sub(step)].iter().flatten());
    numbers.extend([low + step / 2, low + 5 * step, low.wrapping_mul(5), high.wrapping_mul(5), high / 5]);
    numbers
}

#[test]
fn the_table_of_names_agrees_with_the_library_at_every_edge() {
    for module in [0, 1] {
        for slot in (0..SLOTS).filter(|slot| *slot != MODULE) {
            for number in edges(slot, module) {
                let mut list = defaults(module);
                list[slot] = number;
                let refused = start(&list).err();
                match table_takes(slot, module, number) {
                    true => assert!(refused.is_none_or(|r| r.number == 3), "slot {slot} takes {number}: {refused:?}"),
                    false => assert_eq!(refused, Some(Refusal { number: 2, slot: slot as u32 }), "slot {slot}: {number}"),
                }
            }
        }
    }
}

#[test]
fn a_counted_tap_is_refused_with_continuous_regulation_alone() {
    for (continuous, source) in (0..2).flat_map(|continuous| (0..5).map(move |source| (continuous, source))) {
        let mut list = defaults(0);
        (list[CONTINUOUS], list[TAP_SOURCE]) = (continuous, source);
        let wanted = (continuous == 1 && source >= 3).then_some(Refusal { number: 5, slot: 63 });
        assert_eq!(start(&list).err(), wanted, "XB2 {continuous}, XB6 {source}");
        assert_eq!(refusals(&list), wanted.into_iter().collect::<Vec<_>>());
    }
}

/// In A, by what the ranges are and not by the table.
#[test]
fn ratings_go_from_1_to_20_000_a_with_either_module() {
    for (slot, module) in [(66, 0), (67, 0), (66, 1), (67, 1)] {
        for (number, taken) in [(0, false), (1, true), (20_000, true), (20_001, false), (u32::MAX, false)] {
            let mut list = defaults(module);
            list[slot] = number;
            let wanted = if taken { None } else { Some(Refusal { number: 2, slot: slot as u32 }) };
            assert_eq!(start(&list).err(), wanted, "slot {slot}, module {module}: {number}");
        }
    }
    assert_eq!(
        one_problem("Inom_bus1 = 0 A"),
        "file:1: Inom_bus1 = 0 A: it takes 1 A to 20000 A in steps of 1 A (refusal 2, slot 67)"
    );
}

/// So that a sheet without them is what it was before there were ratings.
#[test]
fn ratings_that_are_left_out_are_equal() {
    assert_eq!(slot_of("XB4 = U_comp", 66), slot_of("XB4 = U_comp", 67));
}

/// In mΩ, by what the ranges are and not by the table.
#[test]
fn resistance_and_reactance_go_up_to_400_ohm_with_1_a_and_to_80_with_5() {
    for (slot, module, highest) in [(64, 0, 400_000), (65, 0, 400_000), (64, 1, 80_000), (65, 1, 80_000)] {
        for (number, taken) in [(0, true), (1, true), (highest, true), (highest + 1, false), (u32::MAX, false)] {
            let mut list = defaults(module);
            list[slot] = number;
            let wanted = if taken { None } else { Some(Refusal { number: 2, slot: slot as u32 }) };
            assert_eq!(start(&list).err(), wanted, "slot {slot}, module {module}: {number}");
        }
    }
}

#[test]
fn compensation_takes_0_to_2() {
    for number in 0..=4 {
        let mut list = defaults(0);
        list[3] = number;
        assert_eq!(start(&list).err(), (number > 2).then_some(Refusal { number: 2, slot: 3 }), "{number}");
    }
}

#[test]
fn the_module_takes_0_and_1() {
    for number in [0, 1] {
        assert!(start(&defaults(number)).is_ok());
    }
    for number in [2, 5, u32::MAX] {
        let mut list = defaults(0);
        list[MODULE] = number;
        assert_eq!(start(&list).err(), Some(Refusal { number: 2, slot: MODULE as u32 }));
    }
}

const MANUAL_DEFAULTS: [&str; 37] = [
    "I_nom = 1 A",
    "U_supp4 = 100 V",
    "dU_set = 2 V",
    "U_comp = 5 V",
    "I_set1 = 1 A",
    "I_set3 = 0.1 A",
    "U_set1 = 120 V",
    "U_set2 = 80 V",
    "U_set3 = 10 V",
    "U_set4 = 5 V",
    "U_set5 = 110 V",
    "T1 = 120 s",
    "T2 = 60 s",
    "T3 = 20 s",
    "T4 = 15 s",
    "T5 = 5 s",
    "T6 = 0 s",
    "T7 = 0 s",
    "T8 = 10 s",
    "T9 = 9 s",
    "T10 = 9 s",
    "T11 = 0.05 s",
    "T15 = 0.05 s",
    "N_pos = 20",
    "N_R = 40",
    "N_L = 1",
    "N_start = 0",
    "N_max = 50000",
    "N10 = empty",
    "XB14 = block",
    "XB17 = pulse",
    "XB20 = off",
    "XB2 = impulse",
    "XB4 = off",
    "R_set = 0 ohm",
    "X_set = 0 ohm",
    "Inom_bus1 = 2000 A",
];

#[test]
fn the_defaults_are_those_of_the_manual() {
    let list = sheet::read(&file("XB1 = off")).expect("defaults").list;
    let text = sheet::to_text(&list);
    for line in MANUAL_DEFAULTS {
        assert!(text.contains(&format!("\n{line} ")), "{line}\n{text}");
    }
    assert_eq!(slot_of("I_nom = 5 A", 25), 5000);
    assert_eq!(slot_of("I_nom = 5 A", 27), 500);
}

#[test]
fn each_slot_has_a_name_of_its_own() {
    for (at, slot) in TABLE.iter().enumerate() {
        assert_eq!(desk::names::find(slot.name), Some(at));
        assert!(ABSENT.iter().all(|(name, _)| *name != slot.name));
        assert!(!slot.meaning.is_empty());
    }
}

/// A chance sheet that is taken.
fn chance(dice: &mut Dice) -> Vec<u32> {
    let module = dice.below(2);
    let mut list: Vec<u32> = TABLE
        .iter()
        .map(|slot| {
            let (low, high) = slot.bounds(module);
            low + slot.step * dice.below((high - low) / slot.step + 1)
        })
        .collect();
    list[MODULE] = module;
    list[N_L] = 1 + dice.below(20);
    list[N_R] = list[N_L] + 1 + dice.below(40 - list[N_L]);
    list[N_POS] = list[N_L] + dice.below(list[N_R] - list[N_L] + 1);
    if list[CONTINUOUS] == 1 {
        list[TAP_SOURCE] = dice.below(3);
    }
    list
}

#[test]
fn sheets_go_to_text_and_back() {
    let mut dice = Dice(1);
    for _ in 0..300 {
        let list = chance(&mut dice);
        let read = sheet::read(&file(&sheet::to_text(&list))).expect("its own text");
        assert_eq!((read.told(), read.list), (format!("{SLOTS} settings named, 0 by default"), list.clone()));
        let binary = bytes(sheet::to_bytes(&list));
        assert_eq!(binary.bytes.len(), sheet::BYTES);
        assert_eq!(sheet::read_binary(&binary).expect("its own bytes").list, list);
        assert_eq!(sheet::read(&binary).expect("a SHEET in place of text").list, list);
    }
}

#[test]
fn any_number_of_any_slot_goes_to_text_and_back() {
    let mut dice = Dice(2);
    for slot in &TABLE {
        for number in [0, 1, 2, 7, 1999, u32::MAX, dice.next(), dice.next()] {
            assert_eq!(value::number(slot, &value::text(slot, number)), Ok(number), "{}", slot.name);
        }
    }
}

#[test]
fn values_are_written_as_people_write_them() {
    for (text, slot, number) in [
        ("U_supp1 = 100.5 V", 19, 100_500),
        ("U_supp1=100.5", 19, 100_500),
        ("  U_supp1 = 99900 mV  # a comment", 19, 99_900),
        ("T1 = 0.1 s", 33, 20),
        ("T1 = 2.5s\r", 33, 500),
        ("T1 = 1500 ms", 33, 300),
        ("T1 = 4000 ticks", 33, 4000),
        ("I_set1 = 1.234 A", 25, 1234),
        ("I_nom = 5A", 1, 1),
        ("I_nom = 1 a", 1, 0),
        ("I_nom = 5", 1, 1),
        ("I_nom = 1", 1, 0),
        ("XB6 = bcd", 5, 1),
        ("XB6 = counted-reversed", 5, 4),
        ("XB4 = u_comp", 3, 1),
        ("XB4 = rx", 3, 2),
        ("R_set = 4.5 ohm", 64, 4500),
        ("R_set = 4.5", 64, 4500),
        ("R_set = 4500 mohm", 64, 4500),
        ("X_set = 4.5 Ω", 65, 4500),
        ("X_set = 4500mΩ", 65, 4500),
        ("X_set = 0.001 \u{2126}", 65, 1),
        ("X_set = 400 ohm", 65, 400_000),
        ("Inom_ct1 = 2000 A", 66, 2000),
        ("Inom_ct1 = 1", 66, 1),
        ("Inom_bus1 = 1.25 kA", 67, 1250),
        ("Inom_bus1 = 20kA", 67, 20_000),
        ("XB5 = bus+coupler", 4, 3),
        ("XB5 = bus - coupler", 4, 2),
        ("XB17 = lasting", 16, 1),
        ("XB2 = continuous", 63, 1),
        ("XB2 = Impulse", 63, 0),
        ("N3 = 7", 55, 7),
        ("N3 = empty", 55, 0),
        ("N_max = 500000", 52, 500_000),
        ("T2 = raw 777", 34, 777),
        ("\u{feff}T2 = 1", 34, 200),
    ] {
        assert_eq!(slot_of(text, slot), number, "{text}");
    }
}

#[test]
fn every_slot_out_of_range_is_told_by_name_value_range_step_number_and_slot() {
    for (at, slot) in TABLE.iter().enumerate() {
        let text = format!("# one line\n{} = raw {}", slot.name, slot.high * 5 + 7 * slot.step);
        let told = problems(&text)[0].clone();
        let shown = value::text(slot, slot.high * 5 + 7 * slot.step);
        assert!(told.starts_with(&format!("file:2: {} = {shown}: it takes ", slot.name)), "{told}");
        assert!(told.ends_with(&format!("(refusal 2, slot {at})")), "{told}");
        match slot.kind {
            Kind::Words(words) => assert!(told.contains(&words.join(" or ")), "{told}"),
            Kind::TapOrEmpty => assert!(told.contains("it takes empty, or 1 to 40 in steps of 1 "), "{told}"),
            _ => {
                let (low, high) = (value::text(slot, slot.low), value::text(slot, slot.high));
                assert!(told.contains(&format!("{low} to {high} in steps of ")), "{told}");
            }
        }
    }
}

#[test]
fn a_refusal_reads_well() {
    assert_eq!(
        one_problem("U_supp1 = 140.1 V"),
        "file:1: U_supp1 = 140.1 V: it takes 80 V to 140 V in steps of 0.1 V (refusal 2, slot 19)"
    );
    assert_eq!(
        one_problem("dU_set = 1.05"),
        "file:1: dU_set = 1.05 V: it takes 1 V to 40 V in steps of 0.1 V (refusal 2, slot 23)"
    );
    assert_eq!(
        one_problem("\n\nT8 = 10.005 s"),
        "file:3: T8 = 10.005 s: it takes 0.1 s to 10 s in steps of 0.005 s (refusal 2, slot 40)"
    );
    assert_eq!(
        one_problem("I_nom = 5 A\nI_set3 = 0.1 A"),
        "file:2: I_set3 = 0.1 A: it takes 0.25 A to 25 A in steps of 0.001 A with I_nom = 5 A, \
         and 0.05 A to 5 A with I_nom = 1 A (refusal 2, slot 27)"
    );
    assert_eq!(one_problem("XB4 = raw 3"), "file:1: XB4 = raw 3: it takes off or U_comp or RX (refusal 2, slot 3)");
}

#[test]
fn a_range_that_goes_by_the_module_says_so() {
    assert_eq!(
        one_problem("I_nom = 5 A\nR_set = 80.001 ohm"),
        "file:2: R_set = 80.001 ohm: it takes 0 ohm to 80 ohm in steps of 0.001 ohm with I_nom = 5 A, \
         and 0 ohm to 400 ohm with I_nom = 1 A (refusal 2, slot 64)"
    );
    assert_eq!(
        one_problem("X_set = 401"),
        "file:1: X_set = 401 ohm: it takes 0 ohm to 400 ohm in steps of 0.001 ohm with I_nom = 1 A, \
         and 0 ohm to 80 ohm with I_nom = 5 A (refusal 2, slot 65)"
    );
    assert_eq!(
        one_problem("I_set1 = 50 A"),
        "file:1: I_set1 = 50 A: it takes 0.1 A to 40 A in steps of 0.001 A with I_nom = 1 A, \
         and 0.5 A to 200 A with I_nom = 5 A (refusal 2, slot 25)"
    );
    let told = problems("I_nom = raw 7\nX_set = 401");
    assert_eq!(told.len(), 2, "{told:?}");
    let takes = "takes 0 ohm to 400 ohm in steps of 0.001 ohm with I_nom = 1 A, and 0 ohm to 80 ohm with I_nom = 5 A";
    assert!(told[1].contains(takes), "{told:?}");
    assert!(sheet::read(&file("I_nom = 5 A\nR_set = 80 ohm\nX_set = 80 ohm")).is_ok());
}

#[test]
fn the_order_of_the_taps_is_told() {
    assert_eq!(
        one_problem("N_L = 9\nN_R = 9\nN_pos = 9"),
        "file:2: N_R = 9: it takes 1 to 40 in steps of 1, and must be above N_L = 9 (refusal 3, slot 49)"
    );
    assert_eq!(
        one_problem("N_R = 19"),
        "file: N_pos = 20: it takes 1 to 40 in steps of 1, and must lie from N_L = 1 to N_R = 19 (refusal 3, slot 48)"
    );
}

#[test]
fn a_counted_tap_without_a_contact_is_told_with_what_to_do() {
    for source in ["counted", "counted-reversed"] {
        let told = format!(
            "file:3: XB2 = continuous: no contact tells of a move, so XB6 = {source} has nothing to count; \
             choose XB6 off, BCD or sensor, or XB2 impulse (refusal 5, slot 63)"
        );
        assert_eq!(one_problem(&format!("XB6 = {source}\n\nXB2 = continuous")), told);
        let mut list = defaults(0);
        (list[CONTINUOUS], list[TAP_SOURCE]) = (1, value::number(&TABLE[TAP_SOURCE], source).expect("a word"));
        let told = sheet::read_binary(&bytes(sheet::to_bytes(&list))).expect_err("no contact").concat();
        assert!(told.starts_with("file: XB2 = continuous: no contact tells of a move"), "{told}");
        for changed in ["XB2 = impulse\nXB6 = {}", "XB2 = continuous\nXB6 = sensor", "XB2 = continuous\nXB6 = BCD"] {
            assert!(sheet::read(&file(&changed.replace("{}", source))).is_ok(), "{changed}");
        }
    }
}

#[test]
fn a_list_of_another_length_is_told() {
    for length in [0, 1, SLOTS - 1, SLOTS + 1, 2 * SLOTS] {
        let list = vec![0; length];
        let refusal = Refusal { number: 1, slot: 0 };
        assert_eq!(refusals(&list), [refusal]);
        let numbers = if length == 1 { "1 number".to_string() } else { format!("{length} numbers") };
        assert_eq!(explain(&list, refusal), format!("the list has {numbers}, a sheet has {SLOTS} (refusal 1, slot 0)"));
    }
    let (short, odd) = (sheet::BYTES - 4, sheet::BYTES - 1);
    let told = sheet::read_binary(&bytes(vec![0; short])).expect_err("a number less");
    assert_eq!(told, [format!("file: the list has {} numbers, a sheet has {SLOTS} (refusal 1, slot 0)", SLOTS - 1)]);
    let told = sheet::read(&bytes(vec![0; odd])).expect_err("no numbers");
    assert_eq!(told, [format!("file: {odd} bytes are no list of 32-bit numbers; a SHEET has {}", sheet::BYTES)]);
}

#[test]
fn all_refusals_are_told_at_once() {
    let told = problems("T1 = 0\nU_supp2 = 200\nN_R = 41\nN_L = 40");
    let slots: Vec<&str> = told.iter().map(|line| line.rsplit(' ').next().unwrap_or("")).collect();
    assert_eq!(slots, ["33)", "20)", "49)"]);
}

/// The line and the slot of each error that has a slot, of all errors of a text.
fn places(text: &str) -> Vec<String> {
    let place = |words: &String| {
        let line = words.split(": ").next().unwrap_or_default();
        let slot = words.rsplit_once("slot ").map(|(_, slot)| slot.trim_end_matches(')')).unwrap_or_default();
        format!("{line} {slot}")
    };
    problems(text).iter().map(place).collect()
}

#[test]
fn refusals_are_told_beside_texts_that_are_no_values() {
    for (text, wanted) in [
        ("U_supp4 = 100.05\nT1 = abc\nT2 = 500", vec!["file:1 22", "file:2 33", "file:3 34"]),
        ("T2 = 500\nT1 =\nfly\nT3 = 0\nU_supp4 = 100.05", vec!["file:1 34", "file:2 ", "file:3 ", "file:4 35", "file:5 22"]),
        ("T1 = abc\nN_R = 19", vec!["file:1 33", "file 48"]),
        ("N_R = 19\nT1 = abc\nfly", vec!["file:2 33", "file:3 ", "file 48"]),
        ("XB1 = yes\nXB6 = counted\nXB2 = continuous", vec!["file:1 0", "file:3 63"]),
    ] {
        assert_eq!(places(text), wanted, "{text}");
    }
}

/// A text that is no value stands for any.
#[test]
fn what_hangs_on_a_text_that_is_no_value_is_not_told() {
    for (text, wanted) in [
        ("N_R = x\nN_L = 40", vec!["file:1 49"]),
        ("N_R =\nN_L = 40", vec!["file:1 "]),
        ("N_L = x\nN_R = 19", vec!["file:1 50"]),
        ("N_pos = x\nN_R = 19", vec!["file:1 48"]),
        ("N_pos = x\nN_R = 41", vec!["file:1 48", "file:2 49"]),
        ("XB6 = x\nXB2 = continuous", vec!["file:1 5"]),
        ("XB2 = x\nXB6 = counted", vec!["file:1 63"]),
        ("I_nom = x\nI_set1 = 50 A", vec!["file:1 1"]),
        ("I_nom = x\nI_set3 = 0.1 A\nX_set = 81 ohm", vec!["file:1 1"]),
        ("I_nom = x\nI_set1 = 201 A\nT1 = 0", vec!["file:1 1", "file:2 25", "file:3 33"]),
    ] {
        assert_eq!(places(text), wanted, "{text}");
    }
}

/// The number and slot of each refusal of a text, in the order in which they are told.
fn numbers(text: &str) -> Vec<String> {
    let tail = |line: &String| line.rsplit_once("(refusal ").expect("a refusal").1.trim_end_matches(')').to_string();
    problems(text).iter().map(tail).collect()
}

#[test]
fn orders_between_settings_are_told_with_the_ranges() {
    let continuous = "XB2 = continuous\nXB6 = counted\n";
    for (text, wanted) in [
        ("T1 = 0", vec!["5, slot 63", "2, slot 33"]),
        ("N_R = 9", vec!["5, slot 63", "3, slot 48"]),
        ("T1 = 0\nN_L = 9\nN_R = 9\nN_pos = 9", vec!["5, slot 63", "2, slot 33", "3, slot 49"]),
        ("N_R = 41\nN_L = 40", vec!["5, slot 63", "2, slot 49"]),
    ] {
        assert_eq!(numbers(&format!("{continuous}{text}")), wanted, "{text}");
    }
    assert_eq!(numbers("XB2 = raw 2\nXB6 = counted"), ["2, slot 63"]);
    assert_eq!(numbers("XB2 = continuous\nXB6 = raw 5"), ["2, slot 5"]);
}

#[test]
fn every_list_comes_to_an_end_and_no_slot_is_told_twice() {
    let mut dice = Dice(4);
    let mut seen = [0; 6];
    for _ in 0..2000 {
        let mut list = chance(&mut dice);
        for _ in 0..dice.below(6) {
            let any = dice.below(SLOTS as u32) as usize;
            let edits = [(TAP_SOURCE, 6), (CONTINUOUS, 3), (N_POS, 45), (N_R, 45), (N_L, 45), (any, 45)];
            let (slot, end) = edits[dice.below(6) as usize];
            list[slot] = dice.below(end);
        }
        let found = refusals(&list);
        found.iter().for_each(|refusal| seen[refusal.number as usize] += 1);
        let mut slots: Vec<u32> = found.iter().map(|refusal| refusal.slot).collect();
        slots.sort();
        slots.dedup();
        assert_eq!(slots.len(), found.len(), "{found:?}");
        assert_eq!(found.first().copied(), start(&list).err());
    }
    assert!(seen[2] > 100 && seen[3] > 100 && seen[5] > 100, "{seen:?}");
}

#[test]
fn bad_lines_are_told_with_their_line() {
    for (text, told) in [
        ("XB1 = on\nT1 20", "file:2: `T1 20` is not `name = value`"),
        ("XB1 = on\n\nT99 = 1", "file:3: no setting is called `T99`"),
        ("t1 = 1", "file:1: no setting is called `t1`; T1 is one"),
        ("XB2 = on", "file:1: XB2 = on: is none of its words; it takes impulse or continuous (slot 63)"),
        ("XB19 = on", "file:1: XB19 is no setting of this unit: this unit takes 3U0 as it is brought"),
        ("dU = 2", "file:1: dU is no setting of this unit: write dU_set"),
        ("T1 =  # nothing", "file:1: T1 has no value"),
        ("T1 = 5\nT2 = 5\nT1 = 5", "file:3: T1 is given again; line 1 gives it too"),
        ("T1 = 5 V", "file:1: T1 = 5 V: has the unit `V`, and not s or ms or ticks; it takes 0.1 s to 180 s in steps of 0.005 s (slot 33)"),
        ("T1 = -5", "file:1: T1 = -5: is below 0; it takes 0.1 s to 180 s in steps of 0.005 s (slot 33)"),
        ("T1 = 5,5", "file:1: T1 = 5,5: is not a number; it takes 0.1 s to 180 s in steps of 0.005 s (slot 33)"),
        ("T1 = 0.101", "file:1: T1 = 0.101: is finer than a sheet can hold; it takes 0.1 s to 180 s in steps of 0.005 s (slot 33)"),
        ("T1 = 0.1001", "file:1: T1 = 0.1001: has more than three decimals; it takes 0.1 s to 180 s in steps of 0.005 s (slot 33)"),
        ("T1 = 99999999999", "file:1: T1 = 99999999999: is too large; it takes 0.1 s to 180 s in steps of 0.005 s (slot 33)"),
        ("R_set = 4 kohm", "file:1: R_set = 4 kohm: has the unit `kohm`, and not ohm or mohm or Ω or mΩ; it takes 0 ohm to 400 ohm in steps of 0.001 ohm with I_nom = 1 A, and 0 ohm to 80 ohm with I_nom = 5 A (slot 64)"),
        ("R_set = 0.0005", "file:1: R_set = 0.0005: has more than three decimals; it takes 0 ohm to 400 ohm in steps of 0.001 ohm with I_nom = 1 A, and 0 ohm to 80 ohm with I_nom = 5 A (slot 64)"),
        ("x_set = 1", "file:1: no setting is called `x_set`; X_set is one"),
        ("inom_bus1 = 1", "file:1: no setting is called `inom_bus1`; Inom_bus1 is one"),
        ("Inom_ct1 = 5 mA", "file:1: Inom_ct1 = 5 mA: has the unit `mA`, and not A or kA; it takes 1 A to 20000 A in steps of 1 A (slot 66)"),
        ("Inom_bus1 = 1250.5 A", "file:1: Inom_bus1 = 1250.5 A: is finer than a sheet can hold; it takes 1 A to 20000 A in steps of 1 A (slot 67)"),
        ("XB4 = R_set", "file:1: XB4 = R_set: is none of its words; it takes off or U_comp or RX (slot 3)"),
        ("N_R = 1.5", "file:1: N_R = 1.5: is not a whole number; it takes 1 to 40 in steps of 1 (slot 49)"),
        ("I_nom = 2", "file:1: I_nom = 2: is none of its words; it takes 1 A or 5 A (slot 1)"),
        ("XB1 = 1", "file:1: XB1 = 1: is none of its words; it takes off or on (slot 0)"),
        ("T1 = raw x", "file:1: T1 = raw x: `x` is no number of 32 bits; it takes 0.1 s to 180 s in steps of 0.005 s (slot 33)"),
        ("", "file: no setting is named in it: begin with what `avr sheet template` prints, or with one line, `XB1 = on`"),
        ("# nothing\n\n", "file: no setting is named in it: begin with what `avr sheet template` prints, or with one line, `XB1 = on`"),
    ] {
        assert_eq!(one_problem(text), told);
    }
}

#[test]
fn a_sheet_says_what_its_file_gives() {
    for (text, named) in [("XB1 = on", "1 setting"), ("XB1 = on\nT1 = 5", "2 settings")] {
        let read = sheet::read(&file(text)).expect("a sheet");
        let left = SLOTS - text.lines().count();
        assert_eq!(read.told(), format!("{named} named, {left} by default"));
        assert_eq!((read.line(0), read.is_left_out(0)), (Some(1), false));
        assert_eq!((read.line(SLOTS - 1), read.is_left_out(SLOTS - 1)), (None, true));
    }
    let binary = bytes(sheet::to_bytes(&defaults(0)));
    for read in [sheet::read(&binary), sheet::read_binary(&binary)].map(|read| read.expect("a SHEET")) {
        assert_eq!(read.told(), format!("a SHEET, with all {SLOTS} settings"));
        assert_eq!((read.line(0), read.is_left_out(0)), (None, false));
    }
}

#[test]
fn at_most_20_errors_are_told() {
    for (lines, told, last) in
        [(20, 20, "file:20: no setting is called `T`"), (21, 21, "file: and 1 more"), (999, 21, "file: and 979 more")]
    {
        let problems = problems(&"T = 1\n".repeat(lines));
        assert_eq!((problems.len(), problems[told - 1].as_str()), (told, last));
    }
    let mut list = vec![u32::MAX; SLOTS];
    list[MODULE] = 0;
    let told = sheet::read_binary(&bytes(sheet::to_bytes(&list))).expect_err("all out of range");
    assert_eq!(told.last(), Some(&format!("file: and {} more", SLOTS - 1 - 20)));
}

/// What the file has is told in part only, and so that no terminal acts on it.
#[test]
fn text_of_the_file_is_cut_and_plain_in_errors() {
    let long = format!("\u{1b}[2J\u{202e}{}", "x9".repeat(50_000));
    for text in [
        long.clone(),
        format!("{long} = 1"),
        format!("T1 = {long}"),
        format!("T1 = 5{long}"),
        format!("T1 = raw {long}"),
        format!("N1 = {long}"),
        format!("XB6 = {long}"),
    ] {
        let told = one_problem(&text);
        assert!(told.len() < 600 && !told.contains(char::is_control) && !told.contains('\u{202e}'), "{told}");
        assert!(told.contains(" more)"), "{told}");
    }
}

/// Bad lines, bad values and refusals in the order in which they stand.
#[test]
fn errors_of_a_sheet_are_told_from_its_top_to_its_end() {
    let told = sheet::read(&file("T2 = x\nfly\nT4 = 0\nT1 = y\nT1 = 3\n")).expect_err("a bad sheet");
    let heads: Vec<&str> = told.iter().map(|words| &words[..6]).collect();
    assert_eq!(heads, ["file:1", "file:2", "file:3", "file:4", "file:5"], "{told:?}");
}

#[test]
fn the_template_is_a_sheet_of_defaults_for_its_module() {
    for module in [0, 1] {
        let text = template(module);
        let read = sheet::read(&file(&text)).expect("a sheet");
        assert_eq!((read.told(), read.list), (format!("{SLOTS} settings named, 0 by default"), defaults(module)));
        let rows: Vec<&str> = text.lines().skip_while(|line| !line.starts_with("XB1")).collect();
        let names: Vec<&str> = rows.iter().filter_map(|row| row.split_whitespace().next()).collect();
        assert_eq!(names, TABLE.map(|slot| slot.name));
        for (row, slot) in rows.iter().zip(&TABLE) {
            assert!(row.ends_with(&format!("  {}", slot.meaning)), "{row}");
            assert_eq!((row.find('='), row.find('#')), (rows[0].find('='), rows[0].find('#')), "{row}");
        }
    }
}

#[test]
fn the_template_has_the_ranges_of_its_module() {
    for (module, row) in [
        (0, "I_set1     = 1 A      # 0.1 A to 40 A in steps of 0.001 A "),
        (1, "I_set1     = 5 A      # 0.5 A to 200 A in steps of 0.001 A "),
        (0, "X_set      = 0 ohm    # 0 ohm to 400 ohm in steps of 0.001 ohm "),
        (1, "X_set      = 0 ohm    # 0 ohm to 80 ohm in steps of 0.001 ohm "),
        (0, "I_nom      = 1 A      # 1 A, 5 A "),
        (1, "I_nom      = 5 A      # 1 A, 5 A "),
        (1, "N10        = empty    # empty, or 1 to 40 in steps of 1 "),
    ] {
        assert!(template(module).contains(&format!("\n{row}")), "{row}\n{}", template(module));
    }
}

/// A command line takes what a sheet takes.
#[test]
fn a_module_is_named_with_its_unit_and_without() {
    assert_eq!(MODULES.map(|(word, _)| word), ["1", "5", "1 A", "5 A", "1A", "5A"]);
    for (word, module) in MODULES {
        assert_eq!(word.trim_end_matches([' ', 'A']), rated_amps(module).to_string());
        assert_eq!(slot_of(&format!("I_nom = {word}"), MODULE), module, "{word}");
    }
}

#[test]
fn a_difference_is_told_with_both_values_and_the_meaning() {
    let (one, mut other) = (defaults(0), defaults(0));
    assert_eq!(diff(&one, &other), "no setting differs\n");
    (other[5], other[33]) = (4, 777);
    let told = "XB6  off    -> counted-reversed  where the tap is read\n\
                T1   120 s  -> 3.885 s           delay of the first automatic command\n\
                2 settings differ\n";
    assert_eq!(diff(&one, &other), told);
    other[5] = 0;
    let told = "T1  3.885 s  -> 120 s  delay of the first automatic command\n1 setting differs\n";
    assert_eq!(diff(&other, &one), told);
}

#[test]
fn a_file_that_is_no_text_is_told() {
    let told = sheet::read(&bytes(b"XB1 = on\nT1 = \xff\n".to_vec())).expect_err("no text");
    assert_eq!(told, ["file:2: this is no text (not UTF-8)"]);
}

#[test]
fn a_text_in_utf_16_is_told() {
    let told = "file: this is text in UTF-16; save it as UTF-8";
    let marked = |text: &str| std::iter::once(0xfeff).chain(text.encode_utf16()).collect::<Vec<u16>>();
    for text in ["XB1 = on\r\nT1 = 20 s\r\n", "XB1 = on", "\u{432}\u{43a}"] {
        let least_first: Vec<u8> = marked(text).iter().flat_map(|unit| unit.to_le_bytes()).collect();
        let most_first: Vec<u8> = marked(text).iter().flat_map(|unit| unit.to_be_bytes()).collect();
        for file in [least_first, most_first].map(bytes) {
            assert_eq!(sheet::read(&file).expect_err("no UTF-8"), [told]);
            assert_eq!(sheet::read_binary(&file).expect_err("no SHEET"), [told]);
        }
    }
}

#[test]
fn a_text_in_place_of_a_sheet_is_told() {
    for text in [template(0), "XB1 = on".to_string(), "x".repeat(sheet::BYTES), "\u{feff}XB1 = on # Ω".to_string()] {
        let told = sheet::read_binary(&file(&text)).expect_err("a text");
        assert_eq!(told, ["file: this is text and no SHEET; `avr sheet check` reads it"]);
    }
    for (binary, told) in [(vec![], "file: the list has 0 numbers, "), (vec![0xff; 4], "file: the list has 1 number, ")] {
        assert!(sheet::read_binary(&bytes(binary)).expect_err("no list")[0].starts_with(told), "{told}");
    }
}

#[test]
fn decimals_are_exact() {
    for (text, number) in [("0", 0), ("0.001", 1), ("100.1", 100_100), ("007", 7000), ("1.500000", 1500)] {
        assert_eq!(decimal::thousandths(text), Ok(number));
    }
    for text in ["", ".", ".5", "5.", "1e3", "+1", "1 2", "1.2.3", "--1", "½"] {
        assert_eq!(decimal::thousandths(text), Err(decimal::Bad::NotANumber), "{text}");
    }
    for number in [0, 1, 10, 100, 1000, 1010, 123_456] {
        assert_eq!(decimal::thousandths(&decimal::text(number)), Ok(number));
    }
}
