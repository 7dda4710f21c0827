//! Answers of any kind, to be compared, printed and counted.

use crate::{Answer, Comparison, Parts, Point, Single, Which};
use std::fmt::Debug;

/// An answer: its number, and all of it in words.
#[derive(Debug, PartialEq, Eq)]
pub struct Told(pub u32, pub String);

pub trait Numbered: Debug {
    fn number(&self) -> u32;

    fn told(self) -> Told
    where
        Self: Sized,
    {
        Told(self.number(), format!("{self:?}"))
    }
}

impl Numbered for Answer {
    fn number(&self) -> u32 {
        self.number
    }
}

impl Numbered for Single {
    fn number(&self) -> u32 {
        self.answer.number
    }
}

impl Numbered for Which {
    fn number(&self) -> u32 {
        self.answer.number
    }
}

impl Numbered for Comparison {
    fn number(&self) -> u32 {
        self.number
    }
}

impl Numbered for Parts {
    fn number(&self) -> u32 {
        self.answer.number
    }
}

/// A number alone.
impl Numbered for u32 {
    fn number(&self) -> u32 {
        *self
    }
}

/// What the place of a number is, and how long its text is.
impl Numbered for (u32, usize) {
    fn number(&self) -> u32 {
        self.0
    }
}

/// A position's number, and its grid numbers unless they are past their bound: on the coarse grid, and on a named one.
impl Numbered for ((u32, Option<Point>), (u32, Option<Point>)) {
    fn number(&self) -> u32 {
        self.1 .0
    }
}
