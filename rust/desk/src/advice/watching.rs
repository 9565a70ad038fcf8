//! Advice on what is watched: limits that cross, that no reading can pass, or that the section forestalls.

use super::{blocking, is, said, when, Advice};
use crate::names::{at, MODULE, TABLE};

/// Without a section nothing is watched.
pub fn load_without_section(list: &[u32]) -> Vec<Advice> {
    when(is(list, at("XB3"), "on") && is(list, at("XB9"), "on"), at("XB9"), || {
        "never trips with XB3 = on: where I_bus is under I_set3 there is no section, and nothing is watched; \
         write XB3 = off or XB9 = off"
            .to_string()
    })
}

/// With XB3 the least load of a section is one that XB8 watches as an overload.
pub fn section_overloaded(list: &[u32]) -> Vec<Advice> {
    let (over, least) = (at("I_set2"), at("I_set3"));
    let watched = is(list, at("XB3"), "on") && is(list, at("XB8"), "on");
    when(watched && list[least] >= list[over], least, || {
        let (over, delay) = (said(list, over), said(list, at("T10")));
        let blocked = blocking(list, at("XB14"), " and blocks automatic");
        format!(
            "is not below {over}: with XB3 = on there is a section only where I_bus is above I_set3, and there it is over I_set2, \
             so that it trips after {delay}{blocked}; set I_set3 below I_set2, or write XB3 = off or XB8 = off"
        )
    })
}

/// Limits at the largest reading that counts, with what watches them.
pub fn never_over(list: &[u32]) -> Vec<Advice> {
    let watches = [(at("I_set1"), at("XB7")), (at("I_set2"), at("XB8")), (at("U_set1"), at("XB10"))];
    let highest = |limit: usize| TABLE[limit].bounds(list[MODULE]).1;
    let odd = watches.into_iter().filter(|(limit, watch)| is(list, *watch, "on") && list[*limit] == highest(*limit));
    let told = |(limit, watch): (usize, usize)| {
        let watch = TABLE[watch].name;
        let words = format!(
            "is the largest reading that counts, and one above it is missing: what {watch} watches never trips; \
             set it lower, or write {watch} = off"
        );
        Advice { slot: limit, words }
    };
    odd.map(told).collect()
}

/// A limit from below that lies above the one from above, both watched.
fn crossed(list: &[u32], [over, watch_over]: [usize; 2], [under, watch_under]: [usize; 2], mode: usize) -> Vec<Advice> {
    let watched = is(list, watch_over, "on") && is(list, watch_under, "on");
    when(watched && list[under] > list[over], under, || {
        let blocked = blocking(list, mode, " and blocks automatic");
        let (low, high) = (TABLE[under].name, TABLE[over].name);
        format!(
            "is above {}: any reading is over the one or under the other, so that one trips{blocked}; set {low} below {high}",
            said(list, over)
        )
    })
}

/// With XB3 a load under I_set3 is not watched.
pub fn loads_crossed(list: &[u32]) -> Vec<Advice> {
    if is(list, at("XB3"), "on") {
        return Vec::new();
    }
    crossed(list, [at("I_set2"), at("XB8")], [at("I_set3"), at("XB9")], at("XB14"))
}

pub fn voltages_crossed(list: &[u32]) -> Vec<Advice> {
    crossed(list, [at("U_set1"), at("XB10")], [at("U_set2"), at("XB11")], at("XB15"))
}
