//! A limit on positions: the batch product's 1,024, the preview's 256, and others; what is refused over each, in which order, and that up to
//! the limit both products give the same.
use crate::text::{number, numbers, refused};
use gedrashiw::bytes::{CountBytes, StrandBytes};
use gedrashiw::methylation::ConversionPattern::{CToT, GToA};
use gedrashiw::methylation::EvidenceArrays;
use gedrashiw::{DuplexConsensusCaller as Caller, PREVIEW_POSITIONS, Refusal, Settings, VanillaConsensusRead, bytes};

type Strand<'a> = Option<&'a VanillaConsensusRead<'a>>;

/// What any of these strands has at the front: A, quality 30, depth 1, no errors.
struct Arrays {
    bases: [u8; 1025],
    quals: [u8; 1025],
    depths: [u16; 1025],
    errors: [u16; 1025],
    marks: [u8; 1025],
    counts: [u32; 1025],
}

static ARRAYS: Arrays =
    Arrays { bases: [b'A'; 1025], quals: [30; 1025], depths: [1; 1025], errors: [0; 1025], marks: [1; 1025], counts: [7; 1025] };

fn of(positions: usize) -> VanillaConsensusRead<'static> {
    let Arrays { bases, quals, depths, errors, .. } = &ARRAYS;
    VanillaConsensusRead::new(&bases[..positions], &quals[..positions], &depths[..positions], &errors[..positions])
}

/// How many positions a record has, or its refusal.
fn told(made: Result<Option<usize>, Refusal>) {
    match made {
        Err(refusal) => refused(refusal),
        Ok(None) => print!(" none"),
        Ok(Some(positions)) => number(positions),
    }
}

fn record(name: &str, settings: Settings, a: Strand, b: Strand) {
    print!("{name} at {}:", settings.limit);
    told(Caller::duplex_consensus(settings, a, b, None).map(|record| record.map(|record| record.len())));
    print!(", in a preview:");
    told(Caller::preview_consensus(settings, a, b, None).map(|record| record.map(|record| record.len())));
    println!();
}

fn at(limit: u16) -> Settings {
    Settings { limit, ..Settings::default() }
}

/// Whole strands at the limits of both products, and about them; over 1,024 it is 7, whatever the limit.
fn whole_strands() {
    let four = of(4);
    for limit in [255, 256, 257, 1023, 1024, 1025, 65_535] {
        for positions in [255, 256, 257, 1023, 1024, 1025] {
            record(&format!("A of {positions} and B of 4"), at(limit), Some(&of(positions)), Some(&four));
        }
    }
    record("A of none", at(0), Some(&of(0)), None);
    record("A of 1", at(0), Some(&of(1)), None);
    record("no strands", at(0), None, None);
}

/// One array alone, also of evidence; the record's length is not what counts. Evidence aside is not looked at.
fn one_array() {
    let four = of(4);
    let long = VanillaConsensusRead { errors: ARRAYS.errors[..257].into(), ..of(256) };
    record("errors of 257 beside 256", at(256), Some(&long), None);
    record("errors of 257 beside 256", at(257), Some(&long), None);
    let evidence = EvidenceArrays::new(&ARRAYS.marks[..4], &ARRAYS.counts[..4], &ARRAYS.counts[..257]);
    record("evidence of 257 beside 4", at(256), Some(&four), Some(&of(4).annotated(CToT, evidence.clone())));
    record("evidence of 257 beside 4", at(1024), Some(&four), Some(&of(4).annotated(CToT, evidence)));
    record("A of 300 and B of 4", at(256), Some(&of(300)), Some(&four));
    print!("combined, evidence of 300 aside, at 256:");
    let evidence = EvidenceArrays::new(&ARRAYS.marks[..300], &ARRAYS.counts[..300], &ARRAYS.counts[..300]);
    let annotated = of(4).annotated(GToA, evidence);
    told(Caller::combine_strands(at(256), &four, &annotated, false).map(|combined| Some(combined.bases.len())));
    print!(", with it:");
    told(Caller::combine_strands_annotated(at(256), &four, &annotated, false).map(|combined| Some(combined.bases.len())));
    println!();
}

/// 19 comes directly after 7: after 13 and 14, and before 8, 9 and 12.
fn order() {
    let (long, longer) = (of(257), of(1025));
    let ragged = VanillaConsensusRead { quals: ARRAYS.quals[..3].into(), ..of(257) };
    record("A of 257 and B of 1025", at(256), Some(&long), Some(&longer));
    record("A of 257 and B of 1025", Settings { ceiling: 2, ..at(256) }, Some(&long), Some(&longer));
    record("A of 257, ragged", at(256), Some(&ragged), None);
    record("A of 257, ragged", at(257), Some(&ragged), None);
    let counts = CountBytes { depths: &[1; 514], errors: &[0; 514] };
    let whole = StrandBytes { bases: &ARRAYS.bases[..257], quals: &ARRAYS.quals[..257], counts, annotation: None };
    let cut = StrandBytes { counts: CountBytes { errors: &[0; 513], ..counts }, ..whole };
    let many = [0x30, 2, 0, 0, 0].repeat(1025);
    for (name, strand, reads) in
        [("whole", whole, None), ("cut", cut, None), ("whole", whole, Some(&many[..])), ("whole", whole, Some(&b"0"[..]))]
    {
        print!("A of 257 in {name} bytes, {} bytes of reads, in a preview:", reads.map_or(0, <[u8]>::len));
        let made = bytes::preview_consensus(Settings::default(), Some(&strand), None, reads);
        told(made.map(|record| record.map(|record| record.bases.len())));
        println!();
    }
}

/// At most 256 positions both products give the same.
fn alike() {
    print!("previews like the batch's records:");
    let same = |positions: usize| {
        let (a, b) = (of(positions), of(PREVIEW_POSITIONS));
        let usual = Settings::default();
        Caller::preview_consensus(usual, Some(&a), Some(&b), None) == Caller::duplex_consensus(usual, Some(&a), Some(&b), None)
    };
    numbers(&[0..=PREVIEW_POSITIONS, PREVIEW_POSITIONS + 1..=1024].map(|range| range.filter(|&n| same(n)).count()));
    println!();
}

pub fn all_limits() {
    whole_strands();
    one_array();
    order();
    alike();
}
