//! Degrees in words, and what tests/header.c has to print of them: ten-millionths to the nearest, of two as near to the
//! even one, from exact fractions.

use crate::imports::position_bytes;
use crate::random::Random;

const MOST: u128 = 1_800_000_000;

/// The whole number nearest to numerator / denominator, of two as near the even one.
fn nearest(numerator: u128, denominator: u128) -> u128 {
    let (whole, rest) = (numerator / denominator, numerator % denominator);
    whole + u128::from(2 * rest > denominator || (2 * rest == denominator && whole % 2 == 1))
}

/// Ten-millionths, or 31 past 180 degrees.
fn in_range(size: u128, negative: bool) -> Result<i32, u32> {
    let size = if size > MOST { return Err(31) } else { size as i32 };
    Ok(if negative { -size } else { size })
}

/// Of a decimal text with at most 30 digits; 30 for any other.
fn of_text(word: &str) -> Result<i32, u32> {
    let size = word.strip_prefix('-').unwrap_or(word);
    let (whole, decimals) = size.split_once('.').unwrap_or((size, "0"));
    let is_number = |part: &str| !part.is_empty() && part.bytes().all(|byte| byte.is_ascii_digit());
    if !is_number(whole) || !is_number(decimals) {
        return Err(30);
    }
    let digits: u128 = format!("{whole}{decimals}").parse().expect("at most 30 digits");
    in_range(nearest(digits * 10_000_000, 10_u128.pow(decimals.len() as u32)), word.starts_with('-'))
}

/// Of a double's exact value, which is a whole number times a power of two; 31 for no number.
fn of_double(degrees: f64) -> Result<i32, u32> {
    if degrees.is_nan() || degrees.abs() > 200.0 {
        return Err(31);
    }
    let (bits, exponent) = (degrees.to_bits(), degrees.to_bits() >> 52 & 0x7ff);
    let (fraction, power) = match exponent {
        0 => (bits & ((1 << 52) - 1), 1_074),
        _ => (bits & ((1 << 52) - 1) | 1 << 52, 1_075 - exponent),
    };
    // Below 2^-60 nothing is left of it.
    let size = if power > 112 { 0 } else { nearest(u128::from(fraction) * 10_000_000, 1_u128 << power) };
    in_range(size, degrees < 0.0)
}

/// The number, and the bytes after it: of two words' angles, which have to be a position.
fn position(angles: [Result<i32, u32>; 2]) -> (u32, [u8; 8]) {
    let unwritten = [b'#'; 8];
    match angles {
        [Ok(_), Ok(latitude)] if latitude.abs() > 900_000_000 => (31, unwritten),
        [Ok(longitude), Ok(latitude)] => (0, position_bytes([longitude, latitude])),
        [first, second] => {
            let refusals = [first, second].into_iter().filter_map(Result::err);
            (refusals.min().expect("a refusal"), unwritten)
        }
    }
}

fn told(lines: &mut String, way: &str, angles: [Result<i32, u32>; 2]) {
    let (number, bytes) = position(angles);
    let hex: String = bytes.iter().map(|byte| format!("{byte:02x}")).collect();
    let (refusal, angle) = angles[0].map_or_else(|refusal| (refusal, 7), |angle| (0, angle));
    *lines += &format!("{way} {number} 0 0\ndegrees {hex}\nangle {refusal} 0 0\nangle {angle} 0 0\n");
}

/// Lines of two words, and what is printed of them. Every word is one of C's doubles in Rust's eyes too, or none.
pub fn lines() -> (String, String) {
    let mut pairs: Vec<[String; 2]> = [
        ["23.6275", "37.9475"],
        ["180", "-90"],
        ["-180.0000000", "90.0"],
        ["180.0000001", "0"],
        ["180.00000005", "0"],
        ["-180.00000005000000000001", "0"],
        ["0", "90.0000001"],
        ["0.00000005", "0.00000015"],
        ["0.00000025", "-0.00000035"],
        ["0.000000150000000000000001", "0.00000014999999999999999"],
        ["0.00390625", "0.01171875"],
        ["-0.00390625", "89.99609375"],
        ["0000000000000000000012.5", "-0"],
        ["1844674407370.9551626", "0"],
        ["429.4967296", "0"],
        ["1e1", "2"],
        ["1e-9", "5E-08"],
        ["+1", "2"],
        [".5", "1"],
        ["5.", "1"],
        ["1", "nan"],
        ["inf", "0"],
        ["200", "x"],
        ["-", "0"],
        ["1.2.3", "0"],
        ["12,5", "0"],
        ["1", "--2"],
    ]
    .map(|pair| pair.map(str::to_string))
    .to_vec();
    let random = &mut Random::new(61);
    for _ in 0..3_000 {
        // A double next to an odd multiple of 1/256, where its product with 10^7 is half a ten-millionth.
        let tie = f64::from(2 * random.between(-23_039, 23_039) + 1) / 256.0;
        let beside = f64::from_bits(tie.to_bits().wrapping_add_signed(random.between(-1, 1).into()));
        let decimals = random.below(13);
        let digits =
            format!("{:012}", u64::from(random.below(1_000_000) as u32) * 1_000_003 % 1_000_000_000_000);
        let sign = random.pick(&["", "-"]);
        let point = if decimals == 0 { "" } else { "." };
        pairs
            .push([format!("{beside}"), format!("{sign}{}{point}{}", random.below(91), &digits[..decimals])]);
    }
    let mut expected = String::new();
    for pair in &pairs {
        told(&mut expected, "text", [0, 1].map(|k| of_text(&pair[k])));
        // What strtod reads: as far as the word is a number.
        let double =
            |word: &str| (0..=word.len()).rev().find_map(|end| word[..end].parse().ok()).unwrap_or(0.0);
        told(&mut expected, "double", [0, 1].map(|k| of_double(double(&pair[k]))));
    }
    (pairs.iter().map(|[a, b]| format!("{a} {b}\n")).collect(), expected)
}
