//! `reference values`: worked values, always the same.

use std::io::{self, Write};

use crate::floats::float_of;
use crate::front::{Front, Quality, Sign};
use crate::input::{Input, READINGS};
use crate::line;
use crate::phasor::Phasor;
use crate::reading::{amp_limit, signed_thousandths, thousandths, Reading, VOLT_LIMIT};
use crate::record::Record;
use crate::sheet::{check, slot, Settings, SLOTS};
use crate::tap;
use crate::voltage::{compensated, judge};

/// A sheet that is taken, and that the worked values start from.
#[rustfmt::skip]
pub const BASE: Settings = [
    1, 0, 0, 0, 0, 0,
    1, 1, 1, 1, 1, 1, 1,
    0, 0, 0, 0, 1, 0,
    100_000, 100_000, 100_000, 100_000,
    2_000, 5_000,
    1_000, 1_000, 100,
    120_000, 90_000, 10_000, 5_000, 110_000,
    20, 20, 20, 100, 100, 10, 10,
    20,
    10, 10, 10, 10, 10, 10, 10,
    20, 40, 1,
    0, 100_000,
    0, 0, 0, 0, 0, 0, 0, 0, 0, 0,
    0,
    4_000, 3_000,
    2_000, 1_250,
];

/// Good readings against 200, by their bits.
pub const AGAINST_200: [u32; 26] = [
    0x42C8_3333,
    0x4348_0000,
    0x4348_0001,
    0x8000_0000,
    0x0000_0001,
    0x7FC0_0000,
    0xFFC0_0000,
    0x7F80_0000,
    0xFF80_0000,
    0x8000_0001,
    0xBF80_0000,
    0x3A83_126E,
    0x3A83_126F,
    0x3F80_0000,
    0x007F_FFFF,
    0x0080_0000,
    0x7F7F_FFFF,
    0x4347_FFFF,
    0x42C8_3168,
    0x4347_FFE6,
    0x3A03_126E,
    0x3A03_126F,
    0x3D7F_FFFF,
    0x3D80_0000,
    0x42C8_2000,
    0x4347_F000,
];

/// Good readings against 40, by their bits.
pub const AGAINST_40: [u32; 5] = [0x4220_0000, 0x4220_0001, 0x421F_FFFF, 0x421F_FF97, 0x421F_C000];

/// Held readings against 200, by their bits.
pub const HELD_AGAINST_200: [u32; 2] = [0x4348_0000, 0x3D80_0000];

/// Good parts of a pair against 200, by their bits.
pub const PARTS_AGAINST_200: [u32; 21] = [
    0xC2C8_3333,
    0xC348_0000,
    0xC348_0001,
    0x4348_0000,
    0x4348_0001,
    0x8000_0000,
    0x8000_0001,
    0x0000_0001,
    0xBA03_126E,
    0xBA03_126F,
    0x3A03_126F,
    0xBD80_0000,
    0x3D80_0000,
    0xBD7F_FFFF,
    0xC2C8_3168,
    0x7F80_0000,
    0xFF80_0000,
    0x7FC0_0000,
    0xFFC0_0000,
    0xFF7F_FFFF,
    0xBF80_0000,
];

/// Good parts of a pair against 40, by their bits.
pub const PARTS_AGAINST_40: [u32; 6] = [0xC220_0000, 0xC220_0001, 0xC21F_FFFF, 0xC21F_FF97, 0xC21F_C000, 0x4220_0001];

/// Numbers whose root is shown.
pub const ROOTS: [u64; 22] = [
    0,
    1,
    2,
    3,
    4,
    8,
    9,
    10,
    15,
    16,
    24,
    25,
    26,
    9_999_999_999,
    10_000_000_000,
    10_000_000_001,
    4_294_967_295,
    4_294_967_296,
    18_446_744_065_119_617_024,
    18_446_744_065_119_617_025,
    18_446_744_065_119_617_026,
    18_446_744_073_709_551_615,
];

/// R and X, the parts of U_AB and those of the current.
pub type Along = (u32, u32, i32, i32, i32, i32);

/// Lines along which U is shown.
pub const ALONG: [Along; 17] = [
    (4_000, 0, 100_000, 0, 1_000, 0),
    (0, 3_000, 100_000, 0, 1_000, 0),
    (4_000, 3_000, 100_000, 0, 1_000, -500),
    (4_000, 3_000, 60_000, 80_000, 0, 0),
    (0, 0, 60_000, 80_000, 40_000, -40_000),
    (0, 0, 99_999, 1, 0, 0),
    (0, 0, -3, 4, 0, 0),
    (0, 0, -3, 3, 0, 0),
    (0, 0, 3, -5, 0, 0),
    (400_000, 0, 100_000, 0, 40_000, 0),
    (400_000, 400_000, -200_000, 200_000, 80_000, -80_000),
    (80_000, 80_000, 200_000, 200_000, 400_000, 400_000),
    (1, 0, 0, 0, 577, 0),
    (1, 0, 0, 0, 578, 0),
    (1, 0, 0, 0, -578, 0),
    (0, 1, 0, 0, 0, 578),
    (1, 1, 1, 1, 289, -289),
];

/// A sheet that compensates by U_comp and by bus - coupler, and the readings of
/// one tick, in mV and mA.
#[derive(Clone, Copy, Debug)]
pub struct Comp {
    /// Slot 1's number.
    pub module: u32,
    pub u_comp: u32,
    pub transformer: u32,
    pub breaker: u32,
    pub u_ab: u32,
    pub i_bus: u32,
    pub i_coupler: u32,
}

const fn comp([module, u_comp, transformer, breaker, u_ab, i_bus, i_coupler]: [u32; 7]) -> Comp {
    Comp { module, u_comp, transformer, breaker, u_ab, i_bus, i_coupler }
}

/// Ticks of which U by U_comp is shown.
pub const COMPS: [Comp; 13] = [
    comp([1, 5_100, 1_250, 1_250, 100_000, 1, 4]),
    comp([1, 5_100, 2_000, 1_250, 100_000, 1, 4]),
    comp([1, 5_100, 2_000, 1_250, 100_000, 4, 1]),
    comp([1, 5_100, 1_250, 2_000, 100_000, 1, 4]),
    comp([0, 5_100, 2_000, 1_250, 100_000, 1, 4]),
    comp([1, 5_100, 2_000, 1_250, 100_000, 0, 37]),
    comp([1, 5_100, 2_000, 1_250, 100_000, 7, 7]),
    comp([1, 1_000, 1, 20_000, 100_000, 200_000, 0]),
    comp([1, 1_000, 1, 20_000, 100_000, 199_999, 0]),
    comp([0, 30_000, 1_999, 2_000, 100_000, 1_000, 0]),
    comp([1, 40_000, 20_000, 20_000, 100_000, 200_000, 0]),
    comp([1, 40_000, 20_000, 1, 200_000, 0, 200_000]),
    comp([0, 40_000, 20_000, 1, 0, 40_000, 0]),
];

/// Numbers tried in every slot.
const TRIED: [u32; 51] = [
    0,
    1,
    2,
    3,
    4,
    5,
    19,
    20,
    40,
    41,
    50,
    99,
    100,
    500,
    1_000,
    1_050,
    2_000,
    2_001,
    5_000,
    5_001,
    25_000,
    25_001,
    36_000,
    36_001,
    40_000,
    40_100,
    60_000,
    60_100,
    80_000,
    100_000,
    100_050,
    100_100,
    140_000,
    140_100,
    200_000,
    200_001,
    200_100,
    499_999,
    500_000,
    500_001,
    4_294_967_295,
    49,
    900,
    1_900,
    4_900,
    79_900,
    80_001,
    400_000,
    400_001,
    20_000,
    20_001,
];

/// Checksums are taken modulo this.
const MODULUS: u64 = 1_000_003;

/// Prints all worked values.
pub fn print(out: &mut impl Write) -> io::Result<()> {
    print_readings(out)?;
    print_generated_readings(out)?;
    print_fronts(out)?;
    print_parts(out)?;
    print_generated_parts(out)?;
    print_roots(out)?;
    print_along(out)?;
    print_generated_along(out)?;
    print_comps(out)?;
    print_generated_comps(out)?;
    print_sheets(out)?;
    print_slots(out, "slot", &BASE)?;
    print_slots(out, "slot5", &base_5a())?;
    print_slots(out, "continuous", &base_continuous())?;
    print_bcd(out)
}

/// Each byte of BCD lines, with taps 1 to 40: tap, wrong code, range error.
fn print_bcd(out: &mut impl Write) -> io::Result<()> {
    let mut settings = BASE;
    settings[slot::TAP_SOURCE] = tap::source::BCD;
    let record = Record::fresh(settings);
    for bcd in 0..=255u8 {
        let read = tap::read(&record, &with_bcd(bcd));
        let (wrong, range) = (u32::from(read.wrong_code), u32::from(read.range_error));
        writeln!(out, "bcd {bcd} {} {wrong} {range}", read.number)?;
    }
    Ok(())
}

/// A tick that brings nothing but BCD lines.
fn with_bcd(bcd: u8) -> Input {
    Input::of([Reading::Invalid; READINGS], 0, bcd, 0)
}

fn print_readings(out: &mut impl Write) -> io::Result<()> {
    let good = |bits: u32| Reading::Good(f32::from_bits(bits));
    for bits in AGAINST_200 {
        print_reading(out, 200, bits, good(bits))?;
    }
    for bits in AGAINST_40 {
        print_reading(out, 40, bits, good(bits))?;
    }
    for bits in HELD_AGAINST_200 {
        print_reading(out, 200, bits, Reading::Held(f32::from_bits(bits)))?;
    }
    Ok(())
}

fn print_reading(out: &mut impl Write, limit: u32, bits: u32, reading: Reading) -> io::Result<()> {
    match reading.good_or_held(limit) {
        Some(answer) => writeln!(out, "reading {limit} {bits} {answer}"),
        None => writeln!(out, "reading {limit} {bits} missing"),
    }
}

/// What the generated values start from.
const FIRST_SEED: u64 = 12_345;

/// One step of their generator.
fn next_seed(seed: u64) -> u64 {
    (seed * 1_103_515_245 + 12_345) % (1 << 31)
}

/// A checksum over 20,000 generated bit patterns.
fn print_generated_readings(out: &mut impl Write) -> io::Result<()> {
    let mut seed = FIRST_SEED;
    let mut sum: u64 = 7;
    for i in 0..20_000_u64 {
        seed = next_seed(seed);
        let bits = pattern(i, seed);
        let limit = if i % 2 == 0 { 200 } else { 40 };
        let folded = match answer(bits, limit) {
            None => 1,
            Some(answer) => 2 + u64::from(answer),
        };
        sum = (sum * 31 + folded) % MODULUS;
    }
    writeln!(out, "readings 20000 {sum}")
}

/// Every third pattern is any float at all, the others are mostly in range.
fn pattern(i: u64, seed: u64) -> u32 {
    let bits = match i % 3 {
        0 => (seed * 2 + i % 2) % (1 << 32),
        _ => 0x3A00_0000 + seed % 0x0F00_0000,
    };
    bits as u32
}

/// The converted pattern; a NaN is missing without converting it.
fn answer(bits: u32, limit: u32) -> Option<u32> {
    match is_nan(bits) {
        true => None,
        false => thousandths(f32::from_bits(bits), limit),
    }
}

fn is_nan(bits: u32) -> bool {
    bits % (1 << 31) > 0x7F80_0000
}

/// The qualities and signs of the `front` lines, in their order.
const QUALITIES: [(Quality, &str); 3] = [(Quality::Good, "good"), (Quality::Held, "held"), (Quality::Invalid, "invalid")];
const SIGNS: [(Sign, &str); 2] = [(Sign::Plus, "plus"), (Sign::Minus, "minus")];

/// What passes the first step of a voltage, a 1 A and a 5 A current.
fn print_fronts(out: &mut impl Write) -> io::Result<()> {
    for limit in [VOLT_LIMIT, amp_limit(1), amp_limit(5)] {
        for (quality, quality_word) in QUALITIES {
            for (sign, sign_word) in SIGNS {
                let answers = front_answers(limit, quality, sign);
                writeln!(out, "front {limit} {quality_word} {sign_word} {answers}")?;
            }
        }
    }
    Ok(())
}

/// For each exponent 1 where the number passes, 0 where it is missing.
fn front_answers(limit: u32, quality: Quality, sign: Sign) -> String {
    let passes = |exponent| Front { quality, sign, exponent }.passes(limit);
    (0..=255).map(|exponent| if passes(exponent) { '1' } else { '0' }).collect()
}

fn print_parts(out: &mut impl Write) -> io::Result<()> {
    for bits in PARTS_AGAINST_200 {
        print_part(out, 200, bits)?;
    }
    for bits in PARTS_AGAINST_40 {
        print_part(out, 40, bits)?;
    }
    Ok(())
}

fn print_part(out: &mut impl Write, limit: u32, bits: u32) -> io::Result<()> {
    match Reading::Good(f32::from_bits(bits)).good_part(limit) {
        Some(answer) => writeln!(out, "part {limit} {bits} {answer}"),
        None => writeln!(out, "part {limit} {bits} missing"),
    }
}

/// A checksum over the same patterns as parts, two in five of them negative.
fn print_generated_parts(out: &mut impl Write) -> io::Result<()> {
    let mut seed = FIRST_SEED;
    let mut sum: u64 = 7;
    for i in 0..20_000_u64 {
        seed = next_seed(seed);
        let sign = if i % 5 < 2 { 0x8000_0000 } else { 0 };
        let limit = if i % 2 == 0 { 200 } else { 40 };
        let folded = match part_answer(pattern(i, seed) | sign, limit) {
            None => 1,
            Some(part @ 0..) => 2 + u64::from(part.unsigned_abs()),
            Some(part) => 500_000 + u64::from(part.unsigned_abs()),
        };
        sum = (sum * 31 + folded) % MODULUS;
    }
    writeln!(out, "parts 20000 {sum}")
}

/// The pattern converted as a part; a NaN is missing without converting it.
fn part_answer(bits: u32, limit: u32) -> Option<i32> {
    match is_nan(bits) {
        true => None,
        false => signed_thousandths(f32::from_bits(bits), limit),
    }
}

fn print_roots(out: &mut impl Write) -> io::Result<()> {
    for n in ROOTS {
        writeln!(out, "root {n} {}", line::root(n.into()))?;
    }
    Ok(())
}

fn print_along(out: &mut impl Write) -> io::Result<()> {
    for along in ALONG {
        let (r, x, u_re, u_im, i_re, i_im) = along;
        writeln!(out, "along {r} {x} {u_re} {u_im} {i_re} {i_im} {}", u_along(along))?;
    }
    Ok(())
}

fn u_along((r, x, u_re, u_im, i_re, i_im): Along) -> i64 {
    line::remaining(r, x, Phasor { re: u_re, im: u_im }, Phasor { re: i_re, im: i_im })
}

/// A checksum over U along 20,000 generated lines.
fn print_generated_along(out: &mut impl Write) -> io::Result<()> {
    let mut seed = FIRST_SEED;
    let mut sum: u64 = 7;
    for _ in 0..20_000 {
        let [r, x, u_re, u_im, i_re, i_im] = [(); 6].map(|()| {
            seed = next_seed(seed);
            (seed % 400_001) as u32
        });
        let part = |drawn: u32| drawn as i32 - 200_000;
        let u = u_along((r, x, part(u_re), part(u_im), part(i_re), part(i_im)));
        sum = (sum * 31 + 2 + u.unsigned_abs()) % MODULUS;
    }
    writeln!(out, "along 20000 {sum}")
}

fn print_comps(out: &mut impl Write) -> io::Result<()> {
    for comp in COMPS {
        let Comp { module, u_comp, transformer, breaker, u_ab, i_bus, i_coupler } = comp;
        let current = i64::from(i_bus) - i64::from(i_coupler);
        writeln!(out, "comp {module} {u_comp} {transformer} {breaker} {u_ab} {current} {}", u_by_u_comp(comp))?;
    }
    Ok(())
}

/// U of this tick, by rule 6 as a whole.
pub fn u_by_u_comp(comp: Comp) -> i64 {
    let mut settings = BASE;
    settings[slot::MODULE] = comp.module;
    settings[slot::COMPENSATION] = compensated::BY_U_COMP;
    settings[slot::COMPENSATION_CURRENT] = 2;
    settings[slot::U_COMP] = comp.u_comp;
    settings[slot::TRANSFORMER_RATING] = comp.transformer;
    settings[slot::BREAKER_RATING] = comp.breaker;
    let good = |number| Reading::Good(float_of(number));
    let mut input = Input::of([Reading::Invalid; READINGS], 0, 0, 0);
    (input.u_ab, input.i_bus, input.i_coupler) = (good(comp.u_ab), good(comp.i_bus), good(comp.i_coupler));
    judge(&settings, &input).u.expect("readings in range")
}

/// A checksum over U by U_comp of 20,000 generated ticks with the 5 A module.
fn print_generated_comps(out: &mut impl Write) -> io::Result<()> {
    let mut seed = FIRST_SEED;
    let mut sum: u64 = 7;
    for _ in 0..20_000 {
        let [a, b, c, d, e, f] = [(); 6].map(|()| {
            seed = next_seed(seed);
            seed as u32
        });
        let rating = |drawn| 1 + drawn % 20_000;
        let reading = |drawn| drawn % 200_001;
        let u_comp = 1_000 + 100 * (a % 391);
        let u = u_by_u_comp(comp([1, u_comp, rating(b), rating(c), reading(d), reading(e), reading(f)]));
        let folded = if u >= 0 { 2 + 2 * u.unsigned_abs() } else { 3 + 2 * u.unsigned_abs() };
        sum = (sum * 31 + folded % MODULUS) % MODULUS;
    }
    writeln!(out, "comp 20000 {sum}")
}

fn print_sheets(out: &mut impl Write) -> io::Result<()> {
    let mut longer = BASE.to_vec();
    longer.push(0);
    for list in [&BASE[..], &BASE[..SLOTS - 1], &longer, &[]] {
        let (number, slot) = verdict(list);
        writeln!(out, "sheet {number} {slot}")?;
    }
    Ok(())
}

/// Every slot with every tried number, as a running checksum.
fn print_slots(out: &mut impl Write, word: &str, base: &Settings) -> io::Result<()> {
    let mut sum: u64 = 7;
    for i in 0..base.len() {
        for tried in TRIED {
            let mut list = *base;
            list[i] = tried;
            let (number, slot) = verdict(&list);
            sum = (sum * 31 + u64::from(number) * 1_000 + u64::from(slot) + 1) % MODULUS;
        }
        writeln!(out, "{word} {i} {sum}")?;
    }
    Ok(())
}

/// The refusal's number and slot, 0 and 0 for a sheet that is taken.
fn verdict(list: &[u32]) -> (u32, u32) {
    match check(list) {
        Ok(_) => (0, 0),
        Err(refusal) => (refusal.number, refusal.slot),
    }
}

/// The base sheet for the 5 A module.
pub fn base_5a() -> Settings {
    let mut list = BASE;
    list[slot::MODULE] = 1;
    list[slot::I_SET1] = 5_000;
    list[slot::I_SET2] = 5_000;
    list[slot::I_SET3] = 500;
    list
}

/// The base sheet for a drive without the contact, with counted taps: refused
/// with 5, so that slot by slot it shows what comes before 5.
pub fn base_continuous() -> Settings {
    let mut list = BASE;
    list[slot::CONTINUOUS] = 1;
    list[slot::TAP_SOURCE] = tap::source::COUNTED;
    list
}
