//! Ticket 9, "A journal of changes": the recorder, and the journals of simulated runs.

mod common;

use common::journals::{taken, told_of_list, written};
use common::*;
use reference::dice::Dice;
use reference::input::bit;
use reference::journal::{changes, of_run, ChangesAdded, CHANGE};
use reference::scene::Scene;
use reference::tick::{tick, OUTPUTS};

const NONE: Outputs = [0; OUTPUTS];
const MAX: u32 = u32::MAX;

fn added(refusal: u32, count: u32, stamp: u32) -> ChangesAdded {
    ChangesAdded { refusal, count, stamp }
}

/// No outputs but these.
fn outputs(fields: &[(usize, u32)]) -> Outputs {
    let mut outputs = NONE;
    fields.iter().for_each(|&(field, value)| outputs[field] = value);
    outputs
}

// One tick.

#[test]
fn a_tick_adds_a_record_for_each_change() {
    let before = outputs(&[(3, 20), (13, 1), (25, 7)]);
    let now = outputs(&[(0, 1), (3, 21), (13, 1), (27, 1)]);
    let mut list = [77; 14];
    assert_eq!(changes(&before, &now, 9, &mut list), added(0, 12, 10));
    assert_eq!(list, [9, 0, 1, 9, 3, 21, 9, 25, 0, 9, 27, 1, 77, 77]);
}

#[test]
fn a_tick_without_changes_adds_nothing() {
    for same in [NONE, [1; OUTPUTS], outputs(&[(3, 40), (25, 999_999)])] {
        assert_eq!(changes(&same, &same, 9, &mut []), added(0, 0, 10));
        let mut list = [77; 3];
        assert_eq!((changes(&same, &same, 9, &mut list), list), (added(0, 0, 10), [77; 3]));
    }
}

/// "... the stamp runs through 4,294,967,295 back to 0."
#[test]
fn the_next_stamp_is_one_more() {
    for (stamp, next) in [(0, 1), (0x7FFF_FFFF, 0x8000_0000), (MAX - 1, MAX), (MAX, 0)] {
        let mut list = [77; 3];
        assert_eq!(changes(&NONE, &outputs(&[(2, 1)]), stamp, &mut list), added(0, 3, next));
        assert_eq!(list, [stamp, 2, 1]);
    }
}

#[test]
fn a_list_too_short_for_a_tick_stays_as_it_is() {
    let now = [1; OUTPUTS];
    for lent in [0, 1, 3, CHANGE * OUTPUTS - 3, CHANGE * OUTPUTS - 1] {
        let mut list = vec![77; lent];
        assert_eq!((changes(&NONE, &now, MAX, &mut list), list), (added(7, 0, MAX), vec![77; lent]));
    }
    let mut list = [77; CHANGE * OUTPUTS];
    assert_eq!(changes(&NONE, &now, MAX, &mut list), added(0, 84, 0));
    assert!(list.chunks_exact(CHANGE).enumerate().all(|(field, record)| *record == [MAX, field as u32, 1]));
}

#[test]
fn the_recorder_asks_nothing_of_the_outputs() {
    let mut list = [0; 6];
    assert_eq!(changes(&[MAX; OUTPUTS], &outputs(&[]), 1, &mut list), added(7, 0, 1));
    assert_eq!(changes(&NONE, &outputs(&[(3, 41), (4, MAX)]), 1, &mut list), added(0, 6, 2));
    assert_eq!((list, written(&list)), ([1, 3, 41, 1, 4, MAX], Err(2)));
}

// Whole runs.

#[test]
fn a_run_of_no_ticks_or_no_changes_is_an_empty_journal() {
    assert_eq!(of_run(5, &[]), []);
    assert_eq!(of_run(5, &[NONE; 100]), []);
}

#[test]
fn the_first_tick_is_compared_with_all_fields_0() {
    let first = outputs(&[(2, 1), (3, 20)]);
    assert_eq!(of_run(5, &[first]), [5, 2, 1, 5, 3, 20]);
    assert_eq!(of_run(5, &[first, first, NONE]), [5, 2, 1, 5, 3, 20, 7, 2, 0, 7, 3, 0]);
    assert_eq!(of_run(5, &[NONE, first]), [6, 2, 1, 6, 3, 20]);
}

#[test]
fn the_stamp_counts_ticks_with_and_without_changes() {
    let (on, off) = (outputs(&[(24, 1)]), NONE);
    assert_eq!(of_run(5, &[on, on, on, on, off]), [5, 24, 1, 9, 24, 0]);
    assert_eq!(of_run(MAX - 1, &[off, on, off, off, on]), [MAX, 24, 1, 0, 24, 0, 2, 24, 1]);
}

/// A raise by the button, the move, and out.
#[test]
fn a_manual_command_and_its_move() {
    let mut record = fresh(&[]);
    let button = with(&[bit::RAISE_BUTTON]);
    let moving = with(&[bit::SWITCHING]);
    let inputs = [calm(), button, calm(), moving, moving, with(&[bit::OUT]), with(&[bit::OUT])];
    let run: Vec<Outputs> = inputs.iter().map(|input| step(&mut record, input)).collect();
    let journal = of_run(100, &run);
    let of = |field| -> Vec<(u32, u32)> {
        let records = journal.chunks_exact(CHANGE).filter(|record| record[1] == field);
        records.map(|record| (record[0], record[2])).collect()
    };
    assert_eq!(of(0), [(101, 1), (105, 0)]);
    assert_eq!(of(24), [(101, 1), (105, 0)]);
    assert_eq!(of(2), [(100, 1), (105, 0)]);
    assert_eq!(of(1), []);
    assert_eq!(taken(&written(&journal).unwrap()), Ok(journal));
}

/// A tick that is refused with 4 has outputs 0 and is counted as any other.
#[test]
fn a_refused_tick_takes_back_all_fields() {
    let mut record = fresh(&[]);
    let first = step(&mut record, &calm());
    record.operations = 1_000_000;
    let refused = tick(&record, &calm());
    assert_eq!(refused.refusal, 4);
    let journal = of_run(8, &[first, refused.outputs]);
    let back = journal.chunks_exact(CHANGE).filter(|record| record[0] == 9 && record[2] == 0).count();
    assert_eq!((back, journal.len()), (first.iter().filter(|&&value| value != 0).count(), 2 * CHANGE * back));
}

/// The outputs of so many ticks of a journal from this stamp on.
fn played(journal: &[u32], stamp: u32, ticks: usize) -> Vec<Outputs> {
    let mut records = journal.chunks_exact(CHANGE).peekable();
    let mut now = NONE;
    let mut run = Vec::new();
    for tick in 0..ticks {
        let stamp = stamp.wrapping_add(tick as u32);
        while let Some(record) = records.next_if(|record| record[0] == stamp) {
            now[record[1] as usize] = record[2];
        }
        run.push(now);
    }
    assert_eq!(records.next(), None, "a record is left");
    run
}

/// What the recorder gives tick by tick, with no more lent than is needed.
fn recorded(stamp: u32, run: &[Outputs]) -> (Vec<u32>, u32) {
    let (mut journal, mut before, mut stamp) = (Vec::new(), NONE, stamp);
    for now in run {
        let count = CHANGE * (0..OUTPUTS).filter(|&field| now[field] != before[field]).count();
        if count > 0 {
            let mut short = vec![77; count - 1];
            assert_eq!((changes(&before, now, stamp, &mut short), short), (added(7, 0, stamp), vec![77; count - 1]));
        }
        let mut list = vec![77; count + 1];
        let answer = changes(&before, now, stamp, &mut list);
        assert_eq!((answer.refusal, answer.count as usize, list.pop()), (0, count, Some(77)));
        journal.extend(list);
        (before, stamp) = (*now, answer.stamp);
    }
    (journal, stamp)
}

#[test]
fn a_run_s_journal_is_taken_and_gives_back_each_tick() {
    let mut dice = Dice::new(98);
    let mut changed = [0; OUTPUTS];
    let mut round = 0;
    for seed in 0..400 {
        let mut scene = Scene::new(seed);
        let ticks = dice.between(1, 1_000) as usize;
        let run: Vec<Outputs> = (0..ticks).map(|_| scene.next_tick().1.outputs).collect();
        let (beside, any) = (dice.between(0, 1_000).wrapping_sub(1_000), dice.bits());
        let first = dice.pick(&[0, beside, beside, 0x7FFF_FF00, any]);
        let journal = of_run(first, &run);
        assert_eq!(recorded(first, &run), (journal.clone(), first.wrapping_add(ticks as u32)));
        assert_eq!((told_of_list(&journal), journal.len() % CHANGE), (None, 0));
        let text = written(&journal).expect("the writer takes it");
        assert_eq!(taken(&text).as_ref(), Ok(&journal));
        assert!(played(&journal, first, ticks) == run);
        journal.chunks_exact(CHANGE).for_each(|record| changed[record[1] as usize] += 1);
        round += u32::from(journal.last_chunk::<CHANGE>().is_some_and(|last| last[0] < first));
    }
    assert!(changed.iter().all(|&count| count >= 10), "{changed:?}");
    assert!(round >= 50, "{round}");
}
