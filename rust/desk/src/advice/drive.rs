//! Advice on the drive: its delays and times, its taps and its wear.

use super::{is, said, when, Advice};
use crate::names::{at, N_L, N_R, TABLE, TAP_SOURCE};
use crate::sheet::is_continuous;

pub fn end_without_tap(list: &[u32]) -> Vec<Advice> {
    when(is(list, at("XB16"), "on") && is(list, TAP_SOURCE, "off"), at("XB16"), || {
        "has no part with XB6 = off: no tap is known, so no end is either, and only the contacts end_up and end_down block \
         there; say with XB6 where the tap is read, or write XB16 = off"
            .to_string()
    })
}

/// T2 has no part in continuous regulation.
pub fn slow_acceleration(list: &[u32]) -> Vec<Advice> {
    let (t1, t2, t3) = (at("T1"), at("T2"), at("T3"));
    let (names, settings, lower) = match (list[t3] > list[t1], list[t3] > list[t2] && !is_continuous(list)) {
        (false, false) => return Vec::new(),
        (false, true) => ("T2", said(list, t2), "repeated lower"),
        (true, true) => ("T1 and T2", format!("{} and {}", said(list, t1), said(list, t2)), "lower"),
        (true, false) if is_continuous(list) => ("T1", said(list, t1), "lower"),
        (true, false) => ("T1", said(list, t1), "first lower"),
    };
    let limit = said(list, at("U_set5"));
    let words = format!(
        "is longer than {settings}: a voltage above {limit} waits longer for its {lower} than one that is only high; \
         set T3 below {names}"
    );
    vec![Advice { slot: t3, words }]
}

pub fn fast_or_long(list: &[u32]) -> Vec<Advice> {
    let (t4, t6) = (at("T4"), at("T6"));
    when(!is_continuous(list) && list[t6] >= list[t4], t6, || match list[t6] == list[t4] {
        true => "is as long as T4: a commanded move that does not last just so long is a fault, 'fast' if it is shorter and \
                 'long' if it is longer; set T6 below T4"
            .to_string(),
        false => {
            let t4 = said(list, t4);
            format!("is above {t4}: each commanded move is a fault, 'fast' up to T4 and 'long' beyond; set T6 below T4")
        }
    })
}

pub fn worn_at_start(list: &[u32]) -> Vec<Advice> {
    let (start, most) = (at("N_start"), at("N_max"));
    when(is(list, at("XB18"), "on") && list[start] >= list[most], start, || {
        let most = said(list, most);
        format!("is not below {most}: the drive is told as worn from the start; set N_max above N_start, or write XB18 = off")
    })
}

pub fn sliding_taps(list: &[u32]) -> Vec<Advice> {
    let used: Vec<usize> = (at("N1")..=at("N10")).filter(|slot| list[*slot] != 0).collect();
    let Some(first) = used.first() else { return Vec::new() };
    let no_part = match (is_continuous(list), is(list, TAP_SOURCE, "off")) {
        (true, _) => "has no part with XB2 = continuous, where no contact tells of a move; leave N1 to N10 empty",
        (_, true) => {
            "has no part with XB6 = off: no tap is known, and a drive that goes on by itself is a run-away; \
             say with XB6 where the tap is read, or leave N1 to N10 empty"
        }
        _ => return used.iter().filter_map(|slot| sliding_tap(list, &used, *slot)).collect(),
    };
    vec![Advice { slot: *first, words: no_part.to_string() }]
}

/// Advice on one sliding tap among those that are used.
fn sliding_tap(list: &[u32], used: &[usize], slot: usize) -> Option<Advice> {
    let name = TABLE[slot].name;
    let before = used.iter().find(|other| **other < slot && list[**other] == list[slot]);
    let words = match before {
        _ if !(list[N_L]..=list[N_R]).contains(&list[slot]) => {
            let (lowest, highest) = (said(list, N_L), said(list, N_R));
            format!(
                "is outside {lowest} to {highest}, where the tap never is, and has no part; \
                 correct it, or write {name} = empty"
            )
        }
        Some(other) => format!("is the tap of {} too, and has no part; write {name} = empty", TABLE[*other].name),
        None => return None,
    };
    Some(Advice { slot, words })
}
