//! The reason for an N beside what it must be, over the library that programs link:
//!
//! - at every position of two strands that there is: all pairs of bytes as bases, all pairs of qualities from 0 to 6, annotated in every
//!   way, every pair of marks;
//! - on molecules by chance: strands of other lengths, absent, uncovered, ragged and overlong, at positions up to the last machine word.
//!
//! Each answer is held to the record that the combination writes for the same strands (N exactly where it is one of the seven reasons,
//! another base exactly where it is called), at the ceilings from 3 to 93 in turn, since no reason takes one; and to document 02, told a
//! second time (document.rs). The last line counts; the status is 1 where something differs, or where a changed expectation is not seen.
//!
//! Its words, if any, are the seed of the molecules by chance and their number.
mod document;
mod every;
mod molecules;

use gedrashiw::phred::{MAX_PHRED, MIN_CEILING};
use gedrashiw::{NoCallReason, Refusal, Settings};
use std::process::ExitCode;

/// What was compared, and what differed.
#[derive(Default)]
pub struct Run {
    /// How often each case was answered; 0 is a refusal.
    answers: [u64; document::LAST as usize + 1],
    by_bytes: u64,
    differences: u64,
    /// In a self-test differences are only counted.
    quiet: bool,
}

/// Every ceiling in turn, again and again.
#[derive(Default)]
pub struct Ceilings(u8);

impl Ceilings {
    fn next(&mut self) -> Settings {
        self.0 = (self.0 + 1) % (MAX_PHRED - MIN_CEILING + 1);
        Settings { ceiling: MIN_CEILING + self.0, ..Settings::default() }
    }
}

/// An answer as its number, or the refusal's.
pub fn told(answer: Result<NoCallReason, Refusal>) -> Result<u8, u8> {
    answer.map(NoCallReason::number).map_err(Refusal::number)
}

impl Run {
    fn count(&mut self, answer: Result<u8, u8>) {
        self.answers[usize::from(answer.unwrap_or(0))] += 1;
    }

    /// The first differences are printed.
    #[cold]
    fn differs(&mut self, what: impl Fn() -> String) {
        self.differences += 1;
        if self.differences <= 5 && !self.quiet {
            println!("DIFFERENT: {}", what());
        }
    }

    fn compared(&self) -> u64 {
        self.answers.iter().sum()
    }

    fn report(&self, what: &str) {
        println!("{what}: {} answers, {} of them by bytes too", self.compared(), self.by_bytes);
        let names = NoCallReason::ALL.map(|reason| format!("{reason:?}"));
        for (name, count) in ["Refused".to_string()].iter().chain(&names).zip(self.answers) {
            if count > 0 {
                println!("  {name:16} {count:10}");
            }
        }
    }
}

fn main() -> ExitCode {
    let words: Vec<usize> = std::env::args().skip(1).map(|word| word.parse().expect("SEED and MOLECULES are numbers")).collect();
    let (seed, count) = (words.first().copied().unwrap_or(1), words.get(1).copied().unwrap_or(20_000));

    let every = every::positions();
    every.report("every position of two strands");
    let drawn = molecules::by_chance(seed as u64, count);
    drawn.report("molecules by chance");

    // The comparison must be able to fail: a changed base and a changed reason, of each part, are a difference each.
    let seen = every::changed() + molecules::changed();
    println!("self-test: with 4 expectations changed, {seen} more differences");
    let all = every.compared() == every::COUNT && drawn.answers[..].iter().all(|&count| count > 0);
    if !all {
        println!("not every position, or not every answer, was compared");
    }
    let differences = every.differences + drawn.differences;
    println!("{} comparisons, {differences} differences", every.compared() + drawn.compared());
    if all && differences == 0 && seen == 4 { ExitCode::SUCCESS } else { ExitCode::FAILURE }
}
