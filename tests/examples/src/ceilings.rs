//! A quality ceiling per lab: the same strands at the ceilings 3, 60, 92 and 93, and what is refused outside 3 to 93.
use crate::text::{arrays, number, numbers, refused, word};
use gedrashiw::bytes::{CountBytes, StrandBytes};
use gedrashiw::methylation::ConversionPattern::{CToT, GToA};
use gedrashiw::methylation::EvidenceArrays;
use gedrashiw::{DuplexConsensusCaller as Caller, Settings, SourceReadBuffer, SourceReads, VanillaConsensusRead, bytes, phred};

const CEILINGS: [u8; 4] = [3, 60, 92, 93];

type Strand<'a> = Option<&'a VanillaConsensusRead<'a>>;

fn qualities(ceiling: u8) {
    print!("qualities 0 2 3 4 93 120 at {ceiling}:");
    for score in [0, 2, 3, 4, 93, 120] {
        match phred::cap_quality(score, ceiling) {
            Err(refusal) => return println!(" refused {}", refusal.number()),
            Ok(quality) => number(quality),
        }
    }
    println!();
}

fn record(name: &str, ceiling: u8, a: Strand, b: Strand, reads: Option<SourceReads>) {
    print!("{name} at {ceiling}:");
    match Caller::duplex_consensus(Settings { ceiling, ..Settings::default() }, a, b, reads) {
        Err(refusal) => refused(refusal),
        Ok(None) => print!(" none"),
        Ok(Some(record)) => {
            word(&record.bases);
            return arrays(&[&record.quals.iter().copied().map(u16::from).collect::<Vec<_>>(), &record.errors]);
        }
    }
    println!();
}

/// Without a list, and with two reads: no error depends on the ceiling. The third position's quality is 3, and the fourth's is too low.
fn two_strands() {
    let a = VanillaConsensusRead::new(b"AAAAAAAA", &[30, 60, 33, 32, 46, 47, 1, 30], &[2; 8], &[0; 8]);
    let b = VanillaConsensusRead::new(b"AACCAAAN", &[20, 60, 30, 30, 46, 46, 1, 2], &[3; 8], &[0, 1, 0, 0, 0, 0, 0, 0]);
    let mut reads = SourceReadBuffer::default();
    reads.push(0x41, b"AACCACTN");
    reads.push(0x81, b"TAC");
    for ceiling in CEILINGS {
        record("two strands", ceiling, Some(&a), Some(&b), None);
        record("two strands with reads", ceiling, Some(&a), Some(&b), Some(reads.list()));
    }
}

/// P10, with a mark and without one.
fn a_call() {
    let ct = |mark: &'static [u8]| {
        VanillaConsensusRead::new(b"T", &[30], &[1], &[0]).annotated(CToT, EvidenceArrays::new(mark, &[3], &[4]))
    };
    let ga = VanillaConsensusRead::new(b"C", &[40], &[1], &[0]).annotated(GToA, EvidenceArrays::new(&[0], &[0], &[0]));
    for ceiling in CEILINGS {
        record("T30 marked and C40", ceiling, Some(&ct(&[1])), Some(&ga), None);
        record("T30 and C40", ceiling, Some(&ct(&[0])), Some(&ga), None);
    }
}

/// The qualities of a strand alone are its own, also above 93.
fn one_strand() {
    let alone = VanillaConsensusRead::new(b"ANg", &[1, 61, 255], &[1; 3], &[0; 3]);
    let uncovered = VanillaConsensusRead::new(b"ANg", &[30; 3], &[0; 3], &[0; 3]);
    for ceiling in CEILINGS {
        record("A alone", ceiling, Some(&alone), Some(&uncovered), None);
        record("B alone", ceiling, None, Some(&alone), None);
    }
}

/// 14 is refused before 7, whatever record there would be; of bytes 13 comes before it.
fn outside() {
    let a = VanillaConsensusRead::new(b"AC", &[30; 2], &[1; 2], &[0; 2]);
    let long = VanillaConsensusRead::new(&[b'A'; 1025], &[30; 1025], &[1; 1025], &[0; 1025]);
    for ceiling in [0, 1, 2, 94, 255] {
        qualities(ceiling);
        record("two strands", ceiling, Some(&a), Some(&a), None);
    }
    record("A alone", 2, Some(&a), None, None);
    record("no strands", 94, None, None, None);
    record("no strands", 93, None, None, None);
    record("1025 positions", 2, Some(&long), None, None);
    record("1025 positions", 3, Some(&long), None, None);
    let counts = CountBytes { depths: &[1, 0], errors: &[0; 2] };
    let whole = StrandBytes { bases: b"A", quals: &[30], counts, annotation: None };
    let cut = StrandBytes { counts: CountBytes { depths: &[1], ..counts }, ..whole };
    for (name, strand) in [("whole", whole), ("cut", cut)] {
        print!("a strand of {name} bytes at 94:");
        match bytes::duplex_consensus(Settings { ceiling: 94, ..Settings::default() }, Some(&strand), None, None) {
            Err(refusal) => refused(refusal),
            Ok(record) => numbers(&record.map(|record| record.quals).unwrap_or_default()),
        }
        println!();
    }
}

pub fn all_ceilings() {
    CEILINGS.into_iter().for_each(qualities);
    two_strands();
    a_call();
    one_strand();
    outside();
}
