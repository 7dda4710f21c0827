//! A case as the bytes of an input: the call's number, where the bytes stand, the words, the lengths of the second
//! bytes and of the buffer, the second bytes, and the first ones, which are the rest.

use spargolutta_tests::calls::{Case, CALLS, WORDS};
use spargolutta_tests::guard::{Edge, ROOM};

#[derive(Clone)]
pub struct Input {
    pub call: usize,
    pub edge: Edge,
    pub case: Case,
}

const HEAD: usize = 2 + 4 * WORDS + 4;

impl Input {
    /// None if the head is cut, or if there are more bytes than can be lent.
    pub fn of(bytes: &[u8]) -> Option<Input> {
        let (head, rest) = bytes.split_at_checked(HEAD)?;
        let length = |at: usize| usize::from(u16::from_be_bytes([head[at], head[at + 1]]));
        let (second, first) = rest.split_at(length(HEAD - 4).min(rest.len()));
        let mut words = [0; WORDS];
        for (word, bytes) in words.iter_mut().zip(head[2..].chunks(4)) {
            *word = u32::from_be_bytes(bytes.try_into().ok()?);
        }
        let (first, second, buffer) = (first.to_vec(), second.to_vec(), vec![0xc3; length(HEAD - 2)]);
        let case = Case { first, second, buffer, words };
        let edge = if head[1] % 2 == 0 { Edge::End } else { Edge::Start };
        let call = usize::from(head[0]) % CALLS.len();
        (rest.len() <= ROOM).then_some(Input { call, edge, case })
    }

    pub fn bytes(&self) -> Vec<u8> {
        let Case { first, second, buffer, words } = &self.case;
        let mut bytes = vec![self.call as u8, (self.edge == Edge::Start).into()];
        words.iter().for_each(|word| bytes.extend(word.to_be_bytes()));
        [second, buffer].iter().for_each(|part| bytes.extend((part.len() as u16).to_be_bytes()));
        bytes.extend(second);
        bytes.extend(first);
        bytes
    }
}
