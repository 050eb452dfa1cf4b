//! Opacities as they may be written.

use crate::random::Random;

/// Plain ones, those at the two limits, and those that are no numbers.
const KNOWN: [&str; 34] = [
    "0",
    "1",
    "0.5",
    "-0",
    "-0.0",
    "+0",
    "+1",
    "1.0",
    "1.",
    ".5",
    "0.25",
    "5e-1",
    "5E-1",
    "10e-1",
    "1.0000001",
    "1.00000001",
    "1.00000006",
    "0.99999999",
    "0.999999999999",
    "nan",
    "NaN",
    "-nan",
    "inf",
    "-inf",
    "infinity",
    "+inf",
    "2",
    "-1",
    "1e-45",
    "-1e-46",
    "7e-46",
    "1e400",
    "1e-400",
    "-1e-400",
];

/// A spelling that Rust's `f32::from_str` takes.
pub fn opacity(random: &mut Random) -> String {
    type Form = fn(&mut Random) -> String;
    let forms: [(u64, Form); 6] = [
        (30, |random| random.pick(&KNOWN).to_string()),
        (20, shortest),
        (20, halfway),
        (15, digits),
        (10, exponent),
        (5, near_one),
    ];
    random.weighted(&forms)(random)
}

/// A plain opacity, most often one that is accepted.
pub fn plain_opacity(random: &mut Random) -> String {
    random.pick(&KNOWN).to_string()
}

/// The shortest spelling of a float from 0 to 1.
fn shortest(random: &mut Random) -> String {
    let value = small_float(random);
    if random.percent(50) {
        format!("{value}")
    } else {
        format!("{value:e}")
    }
}

/// Just between two neighbouring floats, or a little beside that: here a rounding shows whether it is right.
fn halfway(random: &mut Random) -> String {
    let low = small_float(random);
    let high = f32::from_bits(low.to_bits() + 1);
    // Both the sum and its half have few enough digits for an f64 to be exact, and so is the text.
    let middle = (f64::from(low) + f64::from(high)) / 2.0;
    let exact = format!("{middle:.180}");
    let exact = exact.trim_end_matches('0');
    match random.below(3) {
        0 => exact.to_string(),
        1 => format!("{exact}{}1", "0".repeat(random.below(30) as usize)),
        // One unit of the last place less: the last digit is not 0.
        _ => {
            let last = exact.len() - 1;
            let digit = exact.as_bytes()[last] - 1;
            format!("{}{}9", &exact[..last], char::from(digit))
        }
    }
}

/// Any digits after the point, up to a great many.
fn digits(random: &mut Random) -> String {
    let most = random.pick(&[3, 9, 20, 60, 800]);
    let count = random.between(1, most);
    let digits: String = (0..count).map(|_| digit(random)).collect();
    format!("{}.{digits}", random.pick(&["0", "", "00", "1"]))
}

/// Digits with an exponent, that may be far out.
fn exponent(random: &mut Random) -> String {
    let count = random.between(1, 25);
    let digits: String = (0..count).map(|_| digit(random)).collect();
    let exponent = match random.below(4) {
        0 => random.below(60) as i64 - 50,
        1 => -(count as i64),
        2 => -(random.between(30, 70) as i64),
        _ => random.pick(&[400, -400, 99_999, -99_999, i64::MAX, i64::MIN]),
    };
    let sign = random.pick(&["", "+", "-"]);
    let sign = if exponent < 0 { "" } else { sign };
    format!("{digits}{}{sign}{exponent}", random.pick(&["e", "E"]))
}

/// Around the float that follows 1: up to the middle between the two, all round down to 1.
fn near_one(random: &mut Random) -> String {
    let tail = match random.below(3) {
        0 => String::new(),
        1 => "1".to_string(),
        _ => format!("{}1", "0".repeat(random.below(40) as usize)),
    };
    let stem = random.pick(&["1.000000059604644775390625", "1.00000005960464477539062499"]);
    format!("{stem}{tail}")
}

/// A float from 0 to 1, small ones and those below the normal range among them.
fn small_float(random: &mut Random) -> f32 {
    let one = u64::from(1_f32.to_bits());
    let bits = match random.below(4) {
        0 => random.below(0x0080_0000),
        1 => random.between(0x007f_fff0, 0x0080_0010),
        2 => random.between(0x3d00_0000, one),
        _ => random.between(0, one),
    };
    f32::from_bits(bits as u32)
}

fn digit(random: &mut Random) -> char {
    char::from(b'0' + random.below(10) as u8)
}
