//! Decimal numbers in thousandths, exact, without floats.

/// Why a text is no number of thousandths.
#[derive(Clone, Copy, Debug, PartialEq, Eq)]
pub enum Bad {
    NotANumber,
    Negative,
    TooFine,
    TooLarge,
}

impl Bad {
    pub fn words(self) -> &'static str {
        match self {
            Bad::NotANumber => "is not a number",
            Bad::Negative => "is below 0",
            Bad::TooFine => "has more than three decimals",
            Bad::TooLarge => "is too large",
        }
    }
}

/// `12.5` is 12,500 thousandths.
pub fn thousandths(text: &str) -> Result<u64, Bad> {
    match text.strip_prefix('-') {
        Some(rest) => unsigned(rest).and(Err(Bad::Negative)),
        None => unsigned(text),
    }
}

fn unsigned(text: &str) -> Result<u64, Bad> {
    let (whole, fraction) = text.split_once('.').unwrap_or((text, ""));
    if !digits(whole) || !(fraction.is_empty() || digits(fraction)) || text.ends_with('.') {
        return Err(Bad::NotANumber);
    }
    let fraction = fraction.trim_end_matches('0');
    if fraction.len() > 3 {
        return Err(Bad::TooFine);
    }
    let whole: u64 = whole.parse().map_err(|_| Bad::TooLarge)?;
    let small: u64 = format!("{fraction:0<3}").parse().map_err(|_| Bad::NotANumber)?;
    whole.checked_mul(1000).and_then(|n| n.checked_add(small)).ok_or(Bad::TooLarge)
}

fn digits(text: &str) -> bool {
    !text.is_empty() && text.bytes().all(|b| b.is_ascii_digit())
}

/// 12,500 thousandths are `12.5`.
pub fn text(thousandths: u64) -> String {
    let (whole, small) = (thousandths / 1000, thousandths % 1000);
    match small {
        0 => whole.to_string(),
        _ => format!("{whole}.{small:03}").trim_end_matches('0').to_string(),
    }
}
