//! A case lent on guarded pages, and the answers compared.

use super::told::Told;
use super::{Call, Case, Lent};
use crate::guard::{Edge, Room};
use crate::random::Random;
use std::hint::black_box;
use std::slice;
use std::sync::atomic::{AtomicBool, AtomicU8, Ordering::Relaxed};
use std::thread;
use std::time::{Duration, Instant};

/// Rooms for the bytes of a case.
pub struct Rooms {
    first: Room,
    second: Room,
    buffer: Room,
}

impl Rooms {
    #[allow(clippy::new_without_default)]
    pub fn new() -> Rooms {
        Rooms { first: Room::new(), second: Room::new(), buffer: Room::new() }
    }

    /// Asks the library, with all bytes at this edge of their rooms, and the reference. What is only read is closed for
    /// writing; where nothing is written, the library is asked again with the buffer closed too. The answer's number,
    /// or what was asked and both answers.
    pub fn compare(&mut self, call: &Call, case: &Case, edge: Edge) -> Result<u32, String> {
        let Case { first, second, buffer, words } = case;
        let mut expected = buffer.clone();
        let answer = (call.reference)(&Lent { first, second, words: *words }, &mut expected);
        let lent = Lent {
            first: self.first.lend(first, edge, true),
            second: self.second.lend(second, edge, true),
            words: *words,
        };
        let written = self.buffer.lend(buffer, edge, false);
        let found = (call.library)(&lent, written);
        let after = written.to_vec();
        let beside = if self.buffer.is_painted() { "" } else { ", and bytes beside the buffer" };
        if found == answer && after == expected && beside.is_empty() {
            if expected == *buffer {
                (call.library)(&lent, self.buffer.lend(buffer, edge, true));
            }
            return Ok(answer.0);
        }
        let said = |answer: &Told, buffer: &[u8]| format!("{} {buffer:02x?}", answer.1);
        let (found, answer) = (said(&found, &after), said(&answer, &expected));
        let asked = format!("{}, {edge:?}: {case:02x?}", call.name);
        Err(format!("{asked}\n    library   {found}{beside}\n    reference {answer}"))
    }

    /// Asks the library for so long, while a second thread rewrites bytes of what is lent. How often it was asked: the
    /// answers depend on when a byte was read.
    pub fn ask_while_changing(
        &mut self,
        call: &Call,
        case: &Case,
        edge: Edge,
        long: Duration,
        random: &mut Random,
    ) -> u64 {
        let Case { first, second, buffer, words } = case;
        let first = self.first.lend(first, edge, false);
        let second = self.second.lend(second, edge, false);
        let written = self.buffer.lend(buffer, edge, false);
        let shared = [&mut *first, &mut *second, &mut *written].map(|bytes| unsafe {
            slice::from_raw_parts(bytes.as_mut_ptr().cast::<AtomicU8>(), bytes.len())
        });
        let lent = Lent { first, second, words: *words };
        let ended = AtomicBool::new(false);
        thread::scope(|scope| {
            let end = AtEnd(&ended);
            scope.spawn(|| change(random, &shared, &ended));
            let start = Instant::now();
            let mut asked = 0;
            while start.elapsed() < long {
                (call.library)(&lent, written);
                asked += 1;
            }
            drop(end);
            asked
        })
    }
}

/// Ends the second thread, also where the first one panics.
struct AtEnd<'a>(&'a AtomicBool);

impl Drop for AtEnd<'_> {
    fn drop(&mut self) {
        self.0.store(true, Relaxed);
    }
}

/// One byte after the other, each to another value and back some dozens of times, until the end; fast, as the moment
/// between a check and what goes by it is short. Half of them are at the front, where a sheet has its tags and lengths.
fn change(random: &mut Random, parts: &[&[AtomicU8]], ended: &AtomicBool) {
    let parts: Vec<&[AtomicU8]> = parts.iter().filter(|part| !part.is_empty()).copied().collect();
    while !ended.load(Relaxed) {
        let part = random.pick(&parts);
        let reach = if random.once_in(2) { part.len().min(48) } else { part.len() };
        let byte = &part[random.below(reach)];
        let before = byte.load(Relaxed);
        let other = random.pick(&[0, 1, 5, 6, 7, 12, 0x7f, 0xff, before ^ 1, before ^ 0x80]);
        for _ in 0..100 {
            for value in [other, before] {
                byte.store(value, Relaxed);
                (0..random.below(24)).for_each(|k| _ = black_box(k));
            }
        }
    }
}
