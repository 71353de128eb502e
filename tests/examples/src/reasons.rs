//! Why a base is N: the record's base at a position, the reason's number and its sentence.
use crate::text::{pattern_text, refused};
use gedrashiw::methylation::ConversionPattern::{self, CToT, GToA};
use gedrashiw::methylation::EvidenceArrays;
use gedrashiw::{DuplexConsensusCaller as Caller, Settings, VanillaConsensusRead};

/// The answer, and the base where the record has the position.
fn told(a: Option<&VanillaConsensusRead>, b: Option<&VanillaConsensusRead>, position: usize) {
    match Caller::no_call_reason(a, b, position) {
        Err(refusal) => refused(refusal),
        Ok(reason) => {
            let record =
                Caller::duplex_consensus(Settings::default(), a, b, None).expect("what refuses the record refuses the reason");
            let base = record.and_then(|record| record.bases.get(position).copied());
            print!(" {}, reason {}: {reason}", base.map_or('-', char::from), reason.number());
        }
    }
    println!();
}

/// A strand's only position: its base, its quality, and the pattern and mark of its annotation.
type Shown = (u8, u8, Option<(ConversionPattern, u8)>);

/// Two strands of one position with depth 1.
fn why(a: Shown, b: Shown) {
    for (before, (base, qual, annotation)) in [("why ", a), (", ", b)] {
        print!("{before}{}{qual}", char::from(base));
        if let Some((pattern, mark)) = annotation {
            print!("{} with mark {mark}", pattern_text(pattern));
        }
    }
    print!(":");
    let (base_a, qual_a, mark_a) = ([a.0], [a.1], [a.2.map_or(0, |(_, mark)| mark)]);
    let (base_b, qual_b, mark_b) = ([b.0], [b.1], [b.2.map_or(0, |(_, mark)| mark)]);
    let mut one = VanillaConsensusRead::new(&base_a, &qual_a, &[1], &[0]);
    let mut two = VanillaConsensusRead::new(&base_b, &qual_b, &[1], &[0]);
    if let Some((pattern, _)) = a.2 {
        one = one.annotated(pattern, EvidenceArrays::new(&mark_a, &[3], &[1]));
    }
    if let Some((pattern, _)) = b.2 {
        two = two.annotated(pattern, EvidenceArrays::new(&mark_b, &[3], &[1]));
    }
    told(Some(&one), Some(&two), 0);
}

/// A position of strands that are told by their bases.
fn at(name: &str, a: Option<&VanillaConsensusRead>, b: Option<&VanillaConsensusRead>, position: usize) {
    print!("why at {position} of {name}:");
    told(a, b, position);
}

fn of_records() {
    let a = VanillaConsensusRead::new(b"ACNGN", &[30; 5], &[2; 5], &[0; 5]);
    let b = VanillaConsensusRead::new(b"ACA", &[30; 3], &[1; 3], &[0; 3]);
    let uncovered = VanillaConsensusRead::new(b"ACA", &[30; 3], &[0; 3], &[0; 3]);
    for position in [1, 2, 3, usize::MAX] {
        at("ACNGN and ACA", Some(&a), Some(&b), position);
    }
    for position in [2, 3, 4, 5] {
        at("ACNGN and ACA without depth", Some(&a), Some(&uncovered), position);
    }
    at("ACNGN in the place of B", None, Some(&a), 4);
    at("ACA without depth", Some(&uncovered), None, 0);
    at("no strands", None, None, 0);
    // Refused before all else, wherever the position is; 7 before 8, of whichever strand.
    let ragged = VanillaConsensusRead::new(b"ACA", &[30; 3], &[0; 3], &[0; 2]);
    let long = VanillaConsensusRead::new(&[b'N'; 1025], &[2; 1025], &[0; 1025], &[0; 1025]);
    let unmarked = uncovered.clone().annotated(GToA, EvidenceArrays::new(&[0; 2], &[0; 2], &[0; 2]));
    at("ACA with two errors", Some(&ragged), None, usize::MAX);
    at("ACA with two marks", Some(&b), Some(&unmarked), 0);
    at("1025 N", Some(&long), None, 0);
    at("ACA with two errors and 1025 N", Some(&ragged), Some(&long), 2000);
}

pub fn all_reasons() {
    let plain = |base, qual| (base, qual, None);
    for (a, a_qual, b, b_qual) in [
        (b'A', 30, b'A', 20), // P1
        (b'A', 33, b'C', 30), // P3
        (b'A', 32, b'C', 30), // P4
        (b'A', 30, b'C', 31),
        (b'A', 30, b'C', 30), // P5
        (b'A', 30, b'N', 2),  // P6
        (b'N', 2, b'A', 30),
        (b'N', 40, b'N', 1),
        (b'A', 1, b'A', 1), // P7
        (b'A', 1, b'A', 2),
        (b'A', 0, b'A', 0),
        (b'A', 0, b'C', 0),
        (b'n', 20, b'n', 20),
        (b'n', 1, b'n', 1),
        (b'n', 20, b'N', 20),
        (b'a', 30, b'A', 30),
    ] {
        why(plain(a, a_qual), plain(b, b_qual));
    }
    // P10 with a confirming quality of 3 and of 2, with a mark and without one, and its mirror.
    let (ct, ga) = (|base, qual, mark| (base, qual, Some((CToT, mark))), |base, qual, mark| (base, qual, Some((GToA, mark))));
    why(ct(b'T', 30, 0), ga(b'C', 3, 0));
    why(ct(b'T', 30, 0), ga(b'C', 2, 1));
    why(ct(b'T', 30, 1), ga(b'C', 2, 1));
    why(ct(b'T', 1, 200), ga(b'C', 1, 0));
    why(ga(b'a', 30, 0), ct(b'g', 0, 0));
    why(ct(b'C', 1, 0), ga(b'C', 1, 0));
    // No call: the patterns are alike, or the bases are none.
    why(ct(b'T', 3, 0), ct(b'C', 2, 0));
    why(ct(b'T', 3, 0), ga(b'G', 3, 0));
    of_records();
}
