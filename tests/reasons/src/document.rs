//! Document 02's request 101, and what it takes from document 01, a second time and from their words: nothing of the library is used here.
//! A reason is its number.

/// The order of the refusal table's rows, which all references have from one file.
mod order {
    include!("../../../oracle/order.rs");
}

pub const OUTSIDE: u8 = 1;
pub const SINGLE_STRAND: u8 = 2;
pub const CALLED: u8 = 3;
/// A alone is N: the first of the seven, which are numbered in the document's order.
pub const FIRST: u8 = 4;
pub const LAST: u8 = 10;

pub const MOST_POSITIONS: usize = 1024;

/// The pattern of an annotation.
#[derive(Clone, Copy, PartialEq, Eq, Debug)]
pub enum Pattern {
    CToT,
    GToA,
}

/// A strand at a position: its base, its quality, and of its annotation the pattern and the mark.
#[derive(Clone, Copy)]
pub struct Shown {
    pub base: u8,
    pub qual: u8,
    pub annotation: Option<(Pattern, u8)>,
}

/// A methylation call: which quality counts.
enum Call {
    Sum,
    /// That of the strand that confirms it, alone.
    Confirming(u8),
}

/// "A methylation call exists only if both are annotated with different patterns."
fn call(a: Shown, b: Shown) -> Option<Call> {
    let ((of_a, mark_a), (of_b, mark_b)) = (a.annotation?, b.annotation?);
    if of_a == of_b {
        return None;
    }
    let (ct, ct_mark, ga, ga_mark) = if of_a == Pattern::CToT { (a, mark_a, b, mark_b) } else { (b, mark_b, a, mark_a) };
    // The informative strand's mark, whether it shows the converted base, and the other's quality.
    let (mark, converted, confirming) = match (ct.base.to_ascii_uppercase(), ga.base.to_ascii_uppercase()) {
        (b'C', b'C') => (ct_mark, false, ga.qual),
        (b'T', b'C') => (ct_mark, true, ga.qual),
        (b'G', b'G') => (ga_mark, false, ct.qual),
        (b'G', b'A') => (ga_mark, true, ct.qual),
        _ => return None,
    };
    Some(if converted && mark == 0 { Call::Confirming(confirming) } else { Call::Sum })
}

/// Which of the seven reasons are true of two strands at a position, each by itself, in the document's order.
pub fn true_reasons(a: Shown, b: Shown) -> [bool; 7] {
    let (a_is_n, b_is_n) = (a.base == b'N', b.base == b'N');
    let call = call(a, b);
    let disagree = call.is_none() && a.base != b.base;
    let apart = a.qual.abs_diff(b.qual);
    let sum_counts = if call.is_none() { a.base == b.base } else { matches!(call, Some(Call::Sum)) };
    let sum = u16::from(a.qual) + u16::from(b.qual);
    [
        a_is_n && !b_is_n,
        b_is_n && !a_is_n,
        a_is_n && b_is_n,
        disagree && apart == 0,
        disagree && (apart == 1 || apart == 2),
        sum_counts && sum <= 2,
        matches!(call, Some(Call::Confirming(quality)) if quality <= 2),
    ]
}

/// The answer at a position of two strands: the first that is true.
pub fn first_of(reasons: [bool; 7]) -> u8 {
    (FIRST..).zip(reasons).find_map(|(number, holds)| holds.then_some(number)).unwrap_or(CALLED)
}

/// A strand: its arrays, which may be of any lengths.
#[derive(Clone, Debug, Default)]
pub struct Strand {
    pub bases: Vec<u8>,
    pub quals: Vec<u8>,
    pub depths: Vec<u16>,
    pub errors: Vec<u16>,
    pub pattern: Option<Pattern>,
    pub marks: Vec<u8>,
    pub unconverted: Vec<u32>,
    pub converted: Vec<u32>,
}

impl Strand {
    fn shown(&self, position: usize) -> Shown {
        let annotation = self.pattern.map(|pattern| (pattern, self.marks[position]));
        Shown { base: self.bases[position], qual: self.quals[position], annotation }
    }

    /// Evidence counts only where there is an annotation.
    fn lengths(&self) -> Vec<usize> {
        let mut lengths = vec![self.bases.len(), self.quals.len(), self.depths.len(), self.errors.len()];
        if self.pattern.is_some() {
            lengths.extend([self.marks.len(), self.unconverted.len(), self.converted.len()]);
        }
        lengths
    }

    fn covered(&self, positions: usize) -> bool {
        self.depths.iter().take(positions).any(|&depth| depth > 0)
    }
}

/// Rows 7 and 8 over the strands that are there, then the record, then the position.
pub fn reason(a: Option<&Strand>, b: Option<&Strand>, position: usize) -> Result<u8, u8> {
    let there = || [a, b].into_iter().flatten();
    let too_long = there().any(|strand| strand.lengths().iter().any(|&n| n > MOST_POSITIONS));
    let ragged = there().any(|strand| strand.lengths().iter().any(|&n| n != strand.bases.len()));
    if let Some(row) = order::first(&[(7, too_long), (8, ragged)]) {
        return Err(row);
    }
    let shorter = there().map(|strand| strand.bases.len()).min().unwrap_or(0);
    let counts = |strand: Option<&Strand>| strand.is_some_and(|strand| strand.covered(shorter));
    Ok(match (a.filter(|_| counts(a)), b.filter(|_| counts(b))) {
        (Some(a), Some(b)) if position < shorter => first_of(true_reasons(a.shown(position), b.shown(position))),
        (Some(_), Some(_)) | (None, None) => OUTSIDE,
        (Some(alone), None) | (None, Some(alone)) if position < alone.bases.len() => SINGLE_STRAND,
        (Some(_), None) | (None, Some(_)) => OUTSIDE,
    })
}
