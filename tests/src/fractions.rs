//! Whole numbers of any size, and the first ten terms of the sine and the cosine as exact fractions (document 02, P7).

use crate::sheet::Grid;
use crate::Point;
use std::cmp::Ordering;
use std::ops::Mul;

/// Digits in base 2^64, the lowest first; the highest is not 0.
#[derive(Clone, Debug, PartialEq, Eq)]
pub struct Whole(Vec<u64>);

impl Whole {
    pub fn from(n: u64) -> Whole {
        Whole(vec![n]).trimmed()
    }

    fn trimmed(mut self) -> Whole {
        while self.0.last() == Some(&0) {
            self.0.pop();
        }
        self
    }

    pub fn power(&self, n: u32) -> Whole {
        (0..n).fold(Whole::from(1), |product, _| &product * self)
    }

    /// self - other, which is no larger.
    fn less(mut self, other: &Whole) -> Whole {
        let mut borrow = 0;
        for (k, digit) in self.0.iter_mut().enumerate() {
            let take = u128::from(other.0.get(k).copied().unwrap_or(0)) + borrow;
            borrow = u128::from(u128::from(*digit) < take);
            *digit = digit.wrapping_sub(take as u64);
        }
        assert_eq!(borrow, 0, "a difference below 0");
        self.trimmed()
    }

    fn compare(&self, other: &Whole) -> Ordering {
        let by_length = self.0.len().cmp(&other.0.len());
        by_length.then_with(|| self.0.iter().rev().cmp(other.0.iter().rev()))
    }

    /// The difference, whichever is larger.
    pub fn apart(self, other: Whole) -> Whole {
        match self.compare(&other) {
            Ordering::Less => other.less(&self),
            _ => self.less(&other),
        }
    }

    pub fn at_most(&self, other: &Whole) -> bool {
        self.compare(other) != Ordering::Greater
    }
}

impl Mul for &Whole {
    type Output = Whole;

    fn mul(self, other: &Whole) -> Whole {
        let mut product = vec![0; self.0.len() + other.0.len()];
        for (i, &a) in self.0.iter().enumerate() {
            let mut carry = 0;
            for (j, &b) in other.0.iter().enumerate() {
                let sum = u128::from(a) * u128::from(b) + u128::from(product[i + j]) + carry;
                product[i + j] = sum as u64;
                carry = sum >> 64;
            }
            product[i + other.0.len()] = carry as u64;
        }
        Whole(product).trimmed()
    }
}

/// The series with a common denominator: ten coefficients, the first one first.
struct Series {
    coefficients: Vec<Whole>,
    denominator: Whole,
}

/// x is t · TURN / FULL, t in ten-millionths of a degree: pi = 3.14159265358979323846 over 180 degrees.
fn full() -> Whole {
    &Whole::from(1_800_000_000) * &Whole::from(10).power(20)
}

fn turn() -> Whole {
    // 314159265358979323846 in two parts.
    let [high, low] = [3_141_592_653, 58_979_323_846].map(Whole::from);
    let Whole(high) = &high * &Whole::from(100_000_000_000);
    let sum = high.iter().rev().fold(0, |sum, &digit| (sum << 64) + u128::from(digit)) + u128::from(low.0[0]);
    Whole(vec![sum as u64, (sum >> 64) as u64])
}

impl Series {
    /// Terms (-1)^k x^(2k + odd) / (2k + odd)!, k from 0 to 9, without the factor x of an odd one.
    fn new(odd: u64) -> Series {
        let full = full();
        let square = &full * &full;
        // From the last term on: the divisors that it has more than the one before.
        let mut coefficients = vec![Whole::from(1)];
        for k in (1..10).rev() {
            let divisor = Whole::from((2 * k + odd) * (2 * k + odd - 1));
            coefficients.push(&(&coefficients[coefficients.len() - 1] * &square) * &divisor);
        }
        coefficients.reverse();
        let denominator = coefficients[0].clone();
        Series { coefficients, denominator }
    }

    /// The numerator for x², by Horner's rule.
    fn at(&self, square: &Whole) -> Whole {
        let mut terms = self.coefficients.iter().rev().cloned();
        let last = terms.next().expect("ten terms");
        terms.fold(last, |sum, coefficient| coefficient.less(&(square * &sum)))
    }
}

/// Ten terms of both, and exactly 0 and 1 at 90 degrees.
pub struct Angles {
    cosine: Series,
    sine: Series,
    turn: Whole,
    sine_denominator: Whole,
    /// Of the products for x, y and z.
    denominators: [Whole; 3],
}

impl Angles {
    pub fn new() -> Angles {
        let (cosine, sine) = (Series::new(0), Series::new(1));
        let cosine_denominator = &cosine.denominator;
        let sine_denominator = &sine.denominator * &full();
        let denominators = [
            cosine_denominator * cosine_denominator,
            &sine_denominator * cosine_denominator,
            sine_denominator.clone(),
        ];
        Angles { cosine, sine, turn: turn(), sine_denominator, denominators }
    }

    /// The numerators of sine and cosine, from 0 to 90 degrees.
    pub fn sin_cos(&self, t: u32) -> (Whole, Whole) {
        if t == 900_000_000 {
            return (self.sine_denominator.clone(), Whole::from(0));
        }
        let x = &self.turn * &Whole::from(t.into());
        let square = &x * &x;
        (&x * &self.sine.at(&square), self.cosine.at(&square))
    }

    /// Document 02's bound, for a position in range: each grid number within one of the grid's limit times the product
    /// of the fractions, on the grid, and of its sign.
    pub fn within_bound(&self, grid: Grid, [longitude, latitude]: [i32; 2], numbers: Point) -> bool {
        let limit = grid.limit().unsigned_abs();
        let east = longitude.unsigned_abs();
        let turned = if east > 900_000_000 { 1_800_000_000 - east } else { east };
        let (sin_lon, cos_lon) = self.sin_cos(turned);
        let (sin_lat, cos_lat) = self.sin_cos(latitude.unsigned_abs());
        let products = [&cos_lat * &cos_lon, &cos_lat * &sin_lon, sin_lat];
        let negative = [east > 900_000_000, longitude < 0, latitude < 0];
        (0..3).all(|k| {
            let (size, denominator) = (numbers[k].unsigned_abs(), &self.denominators[k]);
            let exact = &products[k] * &Whole::from(limit.into());
            let apart = (denominator * &Whole::from(size.into())).apart(exact);
            apart.at_most(denominator) && size <= limit && (size == 0 || (numbers[k] < 0) == negative[k])
        })
    }
}

/// At 60 degrees the cosine is within 10^-14 of a half, and the sine's square within that of three quarters.
#[test]
fn fractions_at_60_degrees() {
    let angles = Angles::new();
    let (sine, cosine) = angles.sin_cos(600_000_000);
    let most = Whole::from(100_000_000_000_000);
    let near = |a: Whole, b: Whole, denominator: &Whole| (&a.apart(b) * &most).at_most(denominator);
    assert!(near(&cosine * &Whole::from(2), angles.cosine.denominator.clone(), &angles.cosine.denominator));
    let square = &angles.sine_denominator * &angles.sine_denominator;
    assert!(near(&(&sine * &sine) * &Whole::from(4), &square * &Whole::from(3), &square));
}
