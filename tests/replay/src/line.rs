//! The line of a vector: the call's number, the answer, and the places of the outputs.
use gedrashiw::Refusal;
use std::fmt::{Display, Write};

#[derive(Default)]
pub struct Line(pub String);

impl Line {
    /// A space and a number.
    pub fn number(&mut self, n: impl Display) {
        write!(self.0, " {n}").expect("a text takes all");
    }

    pub fn numbers<const N: usize>(&mut self, numbers: [u64; N]) {
        numbers.into_iter().for_each(|n| self.number(n));
    }

    /// The numbers of an answer, or the refusal's.
    pub fn answer<const N: usize>(&mut self, answer: Result<[u64; N], Refusal>) {
        match answer {
            Ok(numbers) => self.numbers(numbers),
            Err(refusal) => self.refused(refusal),
        }
    }

    pub fn refused(&mut self, refusal: Refusal) {
        self.0.push_str(" refused");
        self.number(refusal.number());
    }

    /// A bar and the places of an output.
    pub fn places<T: Display>(&mut self, places: &[T]) {
        self.0.push_str(" |");
        places.iter().for_each(|n| self.number(n));
    }
}
