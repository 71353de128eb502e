//! What the examples print with: texts, numbers, patterns and whole slices, to standard output.
use gedrashiw::methylation::{ConversionPattern, MethylationMode};
use gedrashiw::{MethylationAnnotation, Refusal};
use std::fmt::Display;

/// A space and a text.
pub fn word(s: &[u8]) {
    print!(" {}", String::from_utf8_lossy(s));
}

/// A space and a number.
pub fn number(n: impl Display) {
    print!(" {n}");
}

pub fn numbers<T: Display>(xs: &[T]) {
    xs.iter().for_each(number);
}

/// The arrays, with commas between them, and the line's end.
pub fn arrays<T: Display>(arrays: &[&[T]]) {
    for (i, array) in arrays.iter().enumerate() {
        if i > 0 {
            print!(",");
        }
        numbers(array);
    }
    println!();
}

/// A number, or the refusal's.
pub fn answered(answer: Result<impl Display, Refusal>) {
    match answer {
        Ok(n) => number(n),
        Err(refusal) => refused(refusal),
    }
}

pub fn refused(refusal: Refusal) {
    print!(" refused {}", refusal.number());
}

pub fn pattern_text(pattern: ConversionPattern) -> &'static str {
    match pattern {
        ConversionPattern::CToT => " C to T",
        ConversionPattern::GToA => " G to A",
    }
}

pub fn annotation_text(pattern: Option<ConversionPattern>) -> &'static str {
    pattern.map_or(" no annotation", pattern_text)
}

pub fn pattern_of(annotation: Option<&MethylationAnnotation>) -> Option<ConversionPattern> {
    annotation.map(|a| a.pattern)
}

pub fn mode_text(mode: MethylationMode) -> &'static str {
    match mode {
        MethylationMode::Disabled => " Disabled",
        MethylationMode::EmSeq => " EM-Seq",
        MethylationMode::Taps => " TAPs",
    }
}
