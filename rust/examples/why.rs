//! Why positions of a molecule show N. Reads an encoded molecule (README.md has its layout) from standard input; prints for the position
//! that is named, counted from 0, or without one for each that shows N, a line with the position, what strand A, strand B and the record
//! show there, and a sentence. `bin/why` builds and runs it.
//!
//! It is not proved, only thin: it splits the molecule into its fields, and the library, which is proved, makes the record of them and
//! tells the reasons. Thresholds are not tested, since no base depends on them, nor on the ceiling of qualities: the usual settings are
//! taken.
use gedrashiw::bytes::{CountBytes, EVIDENCE_BYTES, RecordBytesOut, StrandBytes, duplex_consensus_into, no_call_reason};
use gedrashiw::methylation::ConversionPattern;
use gedrashiw::{MAX_POSITIONS, Refusal, Settings};
use std::fmt::Write;
use std::io::Read;
use std::process::ExitCode;

const MOST_BYTES: usize = 65_536;
const THRESHOLDS: usize = 0x01;
const STRAND_A: usize = 0x10;
const STRAND_B: usize = 0x20;
const LIST: usize = 0x2f;
/// A strand's fields: bases, qualities, depths, errors, annotation.
const FIELDS: usize = 5;

struct Molecule<'a> {
    strands: [Option<StrandBytes<'a>>; 2],
    reads: Option<&'a [u8]>,
}

fn known(tag: usize) -> bool {
    let of = |first: usize| (first..first + FIELDS).contains(&tag);
    tag == THRESHOLDS || of(STRAND_A) || of(STRAND_B) || tag == LIST
}

/// The molecule of some bytes; `None` where they are refused as 13, but for counts that do not fit and a broken run of reads, which the
/// library refuses.
fn split(bytes: &[u8]) -> Option<Molecule<'_>> {
    let mut fields = [None; LIST + 1];
    let (mut rest, mut last) = (bytes, 0);
    while last != LIST && !rest.is_empty() {
        let (head, behind) = rest.split_at_checked(3)?;
        let (value, behind) = behind.split_at_checked(usize::from(u16::from_le_bytes([head[1], head[2]])))?;
        let tag = usize::from(head[0]);
        if !known(tag) || tag <= last {
            return None;
        }
        fields[tag] = Some(value);
        (rest, last) = (behind, tag);
    }
    let strands = [strand(&fields[STRAND_A..])?, strand(&fields[STRAND_B..])?];
    let of_length = |tag: usize, fits: fn(usize) -> bool| fields[tag].is_none_or(|value| fits(value.len()));
    let fits = bytes.len() <= MOST_BYTES && of_length(THRESHOLDS, |n| n % 4 == 0) && of_length(LIST, |n| n == 0);
    fits.then_some(Molecule { strands, reads: fields[LIST].map(|_| rest) })
}

/// The strand of these fields, or that there is none; `None` where there are some of its first four, or an annotation alone.
fn strand<'a>(fields: &[Option<&'a [u8]>]) -> Option<Option<StrandBytes<'a>>> {
    if fields[..FIELDS].iter().all(Option::is_none) {
        return Some(None);
    }
    let counts = CountBytes { depths: fields[2]?, errors: fields[3]? };
    let annotation = match fields[4] {
        None => None,
        Some(value) => Some(annotation(value)?),
    };
    Some(Some(StrandBytes { bases: fields[0]?, quals: fields[1]?, counts, annotation }))
}

/// A pattern and marks are 0 or 1.
fn annotation(value: &[u8]) -> Option<(ConversionPattern, &[u8])> {
    let (pattern, evidence) = value.split_first()?;
    let pattern = match pattern {
        0 => ConversionPattern::CToT,
        1 => ConversionPattern::GToA,
        _ => return None,
    };
    evidence.iter().step_by(EVIDENCE_BYTES).all(|&mark| mark <= 1).then_some((pattern, evidence))
}

/// A base as duplexline prints it.
fn letter(base: u8) -> char {
    if base.is_ascii_graphic() { char::from(base) } else { '?' }
}

/// A strand's base and quality at a position.
fn shown(strand: Option<&StrandBytes>, position: usize) -> String {
    let at = |strand: &StrandBytes| Some((*strand.bases.get(position)?, *strand.quals.get(position)?));
    strand.and_then(at).map_or("-".to_string(), |(base, qual)| format!("{}{qual}", letter(base)))
}

/// The lines for a position, or for each that shows N; `none` where that is asked and there is no record.
fn told(molecule: &Molecule, position: Option<usize>) -> Result<String, Refusal> {
    let [a, b] = molecule.strands.each_ref().map(Option::as_ref);
    let (mut bases, mut quals, mut errors) = ([0; MAX_POSITIONS], [0; MAX_POSITIONS], [0; 2 * MAX_POSITIONS]);
    let (mut first, mut second) = ([0; EVIDENCE_BYTES * MAX_POSITIONS], [0; EVIDENCE_BYTES * MAX_POSITIONS]);
    let mut out = RecordBytesOut {
        bases: &mut bases,
        quals: &mut quals,
        errors: &mut errors,
        first_evidence: &mut first,
        second_evidence: &mut second,
    };
    let record = duplex_consensus_into(Settings::default(), a, b, molecule.reads, &mut out)?;
    let bases = &bases[..record.map_or(0, |record| record.positions)];
    let positions = match position {
        Some(position) => vec![position],
        None => (0..bases.len()).filter(|&i| bases[i] == b'N').collect(),
    };
    let mut text = "position A B record why\n".to_string();
    if record.is_none() && position.is_none() {
        text.push_str("none\n");
    }
    for i in positions {
        let base = bases.get(i).map_or('-', |&base| letter(base));
        let reason = no_call_reason(a, b, i)?;
        writeln!(text, "{i} {} {} {base} {reason}", shown(a, i), shown(b, i)).expect("a text can be written to");
    }
    Ok(text)
}

fn main() -> ExitCode {
    let words: Vec<String> = std::env::args().skip(1).collect();
    let position = match &words[..] {
        [] => None,
        [word] if word.parse::<usize>().is_ok() => word.parse().ok(),
        _ => {
            eprintln!("usage: bin/why [POSITION] <MOLECULE, the position a number from 0 on");
            return ExitCode::from(2);
        }
    };
    let mut bytes = Vec::new();
    if let Err(error) = std::io::stdin().take(MOST_BYTES as u64 + 1).read_to_end(&mut bytes) {
        eprintln!("why: standard input: {error}");
        return ExitCode::FAILURE;
    }
    let answer = split(&bytes).ok_or(Refusal::Broken).and_then(|molecule| told(&molecule, position));
    print!("{}", answer.unwrap_or_else(|refusal| format!("refused {}\n", refusal.number())));
    ExitCode::SUCCESS
}
