//! Document 02's P7, from its text alone: a reader by recursive descent that stops at the first byte which no text can
//! have there, and the refusals in their order. The grid numbers are handed in: their bound leaves them open.

use super::{answer, outline};
use crate::imports::Given;
use crate::sheet::Sheet;
use crate::{Answer, Point};

/// Where the longest beginning ends.
type Parsed<T> = Result<T, usize>;

/// Longitude and latitude in ten-millionths of a degree. A number past 10^12 degrees is that.
type Position = [i128; 2];

struct Reader<'a> {
    text: &'a [u8],
    at: usize,
}

impl Reader<'_> {
    fn peek(&self) -> Option<u8> {
        self.text.get(self.at).copied()
    }

    fn expect(&mut self, byte: u8) -> Parsed<()> {
        if self.peek() != Some(byte) {
            return Err(self.at);
        }
        self.at += 1;
        Ok(())
    }

    fn white(&mut self) {
        while matches!(self.peek(), Some(b' ' | b'\t' | b'\n' | b'\r')) {
            self.at += 1;
        }
    }

    fn token(&mut self, byte: u8) -> Parsed<()> {
        self.white();
        self.expect(byte)
    }

    fn string(&mut self, letters: &str) -> Parsed<()> {
        self.token(b'"')?;
        letters.bytes().try_for_each(|letter| self.expect(letter))?;
        self.expect(b'"')
    }

    fn digit(&mut self) -> Option<i128> {
        let digit = self.peek().filter(u8::is_ascii_digit)?;
        self.at += 1;
        Some((digit - b'0').into())
    }

    fn number(&mut self) -> Parsed<i128> {
        self.white();
        let sign = if self.expect(b'-').is_ok() { -1 } else { 1 };
        let mut value = self.digit().ok_or(self.at)?;
        if value != 0 {
            while let Some(digit) = self.digit() {
                value = (10 * value + digit).min(1_000_000_000_000);
            }
        }
        value *= 10_000_000;
        if self.expect(b'.').is_ok() {
            value += 1_000_000 * self.digit().ok_or(self.at)?;
            for unit in [100_000, 10_000, 1_000, 100, 10, 1] {
                value += unit * self.digit().unwrap_or(0);
            }
        }
        Ok(sign * value)
    }

    fn position(&mut self) -> Parsed<Position> {
        self.token(b'[')?;
        let longitude = self.number()?;
        self.token(b',')?;
        let latitude = self.number()?;
        self.token(b']')?;
        Ok([longitude, latitude])
    }

    fn ring(&mut self) -> Parsed<Vec<Position>> {
        self.token(b'[')?;
        self.white();
        let mut ring = vec![];
        if self.expect(b']').is_ok() {
            return Ok(ring);
        }
        loop {
            ring.push(self.position()?);
            self.white();
            if self.expect(b',').is_err() {
                self.expect(b']')?;
                return Ok(ring);
            }
        }
    }

    fn coordinates(&mut self) -> Parsed<Vec<Position>> {
        self.string("coordinates")?;
        self.token(b':')?;
        self.token(b'[')?;
        let ring = self.ring()?;
        self.token(b']')?;
        Ok(ring)
    }

    fn kind(&mut self) -> Parsed<()> {
        self.string("type")?;
        self.token(b':')?;
        self.string("Polygon")
    }

    /// The next key's first letter, after white space and its quote.
    fn first_letter(&self) -> Option<u8> {
        let rest = &self.text[self.at..];
        let key = rest.iter().position(|byte| !b" \t\n\r".contains(byte))?;
        rest.get(key + 1).copied()
    }

    fn object(&mut self) -> Parsed<Vec<Position>> {
        self.token(b'{')?;
        let ring = if self.first_letter() == Some(b'c') {
            let ring = self.coordinates()?;
            self.token(b',')?;
            self.kind()?;
            ring
        } else {
            self.kind()?;
            self.token(b',')?;
            self.coordinates()?
        };
        self.token(b'}')?;
        self.white();
        if self.at < self.text.len() {
            return Err(self.at);
        }
        Ok(ring)
    }
}

/// 31, 32, 33, each at its lowest place.
fn ring_refusal(ring: &[Position]) -> Option<Answer> {
    let degree = 10_000_000;
    let outside = |p: &Position| p[0].abs() > 180 * degree || p[1].abs() > 90 * degree;
    let distant = |pair: &[Position]| (0..2).any(|k| (pair[0][k] - pair[1][k]).abs() > degree);
    if let Some(place) = ring.iter().position(outside) {
        return Some(answer(31, place, 0));
    }
    if ring.len() < 4 || ring.first() != ring.last() {
        return Some(answer(32, 0, 0));
    }
    ring.windows(2).position(distant).map(|place| answer(33, place, 0))
}

/// The answer, and the sheet if there is one; `room` is the buffer's length, `point` gives a position's grid numbers.
pub fn import(
    text: &[u8],
    given: &Given,
    room: usize,
    point: fn(i32, i32, u32) -> Point,
) -> (Answer, Vec<u8>) {
    let refused = |refusal| (refusal, vec![]);
    let ring = match (Reader { text, at: 0 }).object() {
        Ok(ring) => ring,
        Err(place) => return refused(answer(30, place, 0)),
    };
    if let Some(refusal) = ring_refusal(&ring) {
        return refused(refusal);
    }
    if !(1..=3).contains(&given.charset) {
        return refused(answer(23, 0, 0));
    }
    if !(1..=120).contains(&given.name.len()) {
        return refused(answer(22, 0, 0));
    }
    if ring.len() > 4_097 {
        return refused(answer(10, 0, 0));
    }
    let vertices =
        ring[1..].iter().map(|p| point(p[0] as i32, p[1] as i32, given.grid.number())).collect::<Vec<_>>();
    // The last position is the first: it is dropped.
    let vertices = [&vertices[vertices.len() - 1..], &vertices[..vertices.len() - 1]].concat();
    let &Given { grid, zone, charset, name, known } = given;
    let (charset, name) = (charset as u8, name.to_vec());
    let sheet = Sheet { grid, zone, charset, name, known, vertices, second: None }.bytes();
    match outline(&sheet) {
        Err(refusal) => refused(refusal),
        Ok(_) if room < sheet.len() => refused(answer(25, sheet.len(), 0)),
        Ok(_) => (answer(0, sheet.len(), 0), sheet),
    }
}
