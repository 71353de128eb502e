// Both sides on the same molecules: the time of a record, the median of many rounds that take turns. Each side's inputs are made
// before; ours writes to the same outputs again and again, the Rust makes its record and drops it.
use super::super::DuplexConsensusCaller;
use super::case::{Case, Outputs};
use super::draw::Draw;
use super::encoded::{self, Encoded, EncodedStrand};
use super::molecules::{Kind, molecule};
use super::library::Product;
use super::timing::medians;
use super::{library, rust};
use crate::vanilla_caller::{SourceRead, VanillaConsensusRead};
use gedrashiw::bytes::no_call_reason;
use std::hint::black_box;

// So many molecules are taken in turn, so that no branch is learnt by heart.
const MOLECULES: usize = 64;

struct Prepared {
    case: Case,
    lent: Vec<gedrashiw::SourceRead>,
    a: VanillaConsensusRead,
    b: VanillaConsensusRead,
    reads: Option<Vec<SourceRead>>,
}

fn prepared(kind: Kind) -> Vec<Prepared> {
    let mut draw = Draw::new(kind.positions as u64);
    let of = |case: Case| Prepared {
        lent: library::reads(&case.reads),
        a: rust::strand(&case.a),
        b: rust::strand(&case.b),
        reads: case.listed.then(|| rust::reads(&case)),
        case,
    };
    (0..MOLECULES).map(|_| of(molecule(&mut draw, kind))).collect()
}

fn run_ours(molecules: &[Prepared], out: &mut Outputs) {
    for molecule in molecules {
        let Prepared { case, lent, .. } = black_box(molecule);
        black_box(library::with_reads(case, lent, black_box(out)));
    }
}

fn run_rust(molecules: &[Prepared]) {
    for molecule in molecules {
        let Prepared { a, b, reads, .. } = black_box(molecule);
        black_box(DuplexConsensusCaller::duplex_consensus(Some(a), Some(b), reads.as_deref()));
    }
}

// A record's time with ours and with the Rust's.
fn measure(kind: Kind) -> [f64; 2] {
    let molecules = prepared(kind);
    let mut out = Outputs::filled(&[kind.positions; 9]);
    for molecule in &molecules {
        let mut must = out.clone();
        let answer = rust::told(&rust::duplex_consensus(&molecule.case), &mut must);
        assert!(library::duplex_consensus(&molecule.case, &mut out) == answer && out == must, "the two differ");
    }
    let times = medians(|| run_ours(&molecules, &mut out), || run_rust(&molecules));
    times.map(|time| time / MOLECULES as f64)
}

const KINDS: [(&str, Option<usize>, bool); 6] = [
    ("no list, no annotation", None, false),
    ("20 reads, no annotation", Some(20), false),
    ("200 reads, no annotation", Some(200), false),
    ("no list, annotated", None, true),
    ("20 reads, annotated", Some(20), true),
    ("200 reads, annotated", Some(200), true),
];

fn ratios() {
    println!("{:44} {:>10} {:>10} {:>7}", "a record of two strands", "ours, ns", "Rust, ns", "ratio");
    for (name, reads, annotated) in KINDS {
        for positions in [150, 300] {
            let [ours, rust] = measure(Kind { positions, reads, annotated });
            println!("{:44} {ours:10.0} {rust:10.0} {:7.2}", format!("{positions} positions, {name}"), rust / ours);
        }
    }
}

// The calls below the record: two strands combined without a list, and a strand alone.
fn parts() {
    println!("{:44} {:>10} {:>10} {:>7}", "what a record is made of", "ours, ns", "Rust, ns", "ratio");
    let tell = |name: String, times: [f64; 2]| {
        let [ours, rust] = times.map(|time| time / MOLECULES as f64);
        println!("{name:44} {ours:10.0} {rust:10.0} {:7.2}", rust / ours);
    };
    for (kind, annotated) in [("no annotation", false), ("annotated", true)] {
        for positions in [150, 300] {
            let molecules = prepared(Kind { positions, reads: None, annotated });
            let mut out = Outputs::filled(&[positions; 9]);
            let combined = medians(
                || {
                    for Prepared { case, .. } in &molecules {
                        black_box(library::combine_strands(black_box(case), annotated, black_box(&mut out)));
                    }
                },
                || {
                    for molecule in &molecules {
                        let Prepared { a, b, .. } = black_box(molecule);
                        black_box(rust::combine_strands(a, b, positions));
                    }
                },
            );
            tell(format!("{positions} positions, combined, {kind}"), combined);
            let single = medians(
                || {
                    for Prepared { case, .. } in &molecules {
                        black_box(library::gated_single_strand(&black_box(case).a, black_box(&mut out)));
                    }
                },
                || {
                    for molecule in &molecules {
                        black_box(DuplexConsensusCaller::gated_single_strand(&black_box(molecule).a));
                    }
                },
            );
            tell(format!("{positions} positions, a strand alone, {kind}"), single);
        }
    }
}

// The call from bytes to bytes, and the call over numbers.
fn measure_bytes(kind: Kind) -> [f64; 2] {
    let molecules = prepared(kind);
    let bytes: Vec<Encoded> = molecules.iter().map(|molecule| encoded::encoded(&molecule.case)).collect();
    let mut out = encoded::filled(&bytes[0].room);
    let mut numbers = Outputs::filled(&[kind.positions; 9]);
    let times = medians(
        || {
            for molecule in &bytes {
                black_box(encoded::consensus(Product::Batch, black_box(molecule), black_box(&mut out)));
            }
        },
        || run_ours(&molecules, &mut numbers),
    );
    times.map(|time| time / MOLECULES as f64)
}

fn from_bytes() {
    println!("{:44} {:>10} {:>10} {:>7}", "the same from bytes to bytes", "bytes, ns", "numbers, ns", "times");
    for (name, reads, annotated) in KINDS {
        for positions in [150, 300] {
            let [bytes, numbers] = measure_bytes(Kind { positions, reads, annotated });
            println!("{:44} {bytes:10.0} {numbers:10.0} {:7.2}", format!("{positions} positions, {name}"), bytes / numbers);
        }
    }
}

// The preview's call and the batch's, of the same bytes: of a record, and of strands that the preview refuses.
fn previewed(kind: Kind) -> [f64; 2] {
    let bytes: Vec<Encoded> = prepared(kind).iter().map(|molecule| encoded::encoded(&molecule.case)).collect();
    let outputs = encoded::filled(&bytes[0].room);
    let run = |product, out: &mut encoded::ByteOutputs| {
        for molecule in &bytes {
            black_box(encoded::consensus(product, black_box(molecule), black_box(out)));
        }
    };
    let (mut shown, mut whole) = (outputs.clone(), outputs);
    let times = medians(|| run(Product::Preview, &mut shown), || run(Product::Batch, &mut whole));
    times.map(|time| time / MOLECULES as f64)
}

fn in_a_preview() {
    println!("{:44} {:>10} {:>10} {:>7}", "from bytes to bytes, in a preview", "preview, ns", "batch, ns", "times");
    for (name, positions, annotated) in [
        ("150 positions, no list, no annotation", 150, false),
        ("150 positions, no list, annotated", 150, true),
        ("300 positions, annotated, refused", 300, true),
    ] {
        let [preview, batch] = previewed(Kind { positions, reads: None, annotated });
        println!("{name:44} {preview:10.0} {batch:10.0} {:7.2}", preview / batch);
    }
}

// The reason for an N at one position, a different one of each molecule; the Rust has no such call.
fn reasons() {
    println!("{:44} {:>10} {:>10} {:>7}", "why a position shows N", "bytes, ns", "numbers, ns", "times");
    for (name, annotated) in [("no annotation", false), ("annotated", true)] {
        for positions in [150, 300] {
            let molecules = prepared(Kind { positions, reads: None, annotated });
            let bytes: Vec<Encoded> = molecules.iter().map(|molecule| encoded::encoded(&molecule.case)).collect();
            let at = |turn: usize| (7 * turn) % positions;
            let [of_bytes, of_numbers] = medians(
                || {
                    for (turn, molecule) in bytes.iter().enumerate() {
                        let [a, b] = black_box(molecule).strands.each_ref().map(EncodedStrand::lent);
                        let _ = black_box(no_call_reason(a.as_ref(), b.as_ref(), at(turn)));
                    }
                },
                || {
                    for (turn, molecule) in molecules.iter().enumerate() {
                        let _ = black_box(library::no_call_reason(black_box(&molecule.case), at(turn)));
                    }
                },
            )
            .map(|time| time / MOLECULES as f64);
            println!("{:44} {of_bytes:10.0} {of_numbers:10.0} {:7.2}", format!("{positions} positions, {name}"), of_bytes / of_numbers);
        }
    }
}

// What a position of a read costs, beyond what the record costs without reads.
fn growth() {
    println!("{:44} {:>10} {:>10}", "a position of a read, beyond an empty list", "ours, ns", "Rust, ns");
    for annotated in [false, true] {
        for positions in [150, 300, 1000] {
            let none = measure(Kind { positions, reads: Some(0), annotated });
            for reads in [10, 40, 160] {
                let all = measure(Kind { positions, reads: Some(reads), annotated });
                let each = |side: usize| (all[side] - none[side]) / (positions * reads) as f64;
                let name = if annotated { "annotated" } else { "no annotation" };
                println!("{:44} {:10.3} {:10.3}", format!("{positions} positions, {reads} reads, {name}"), each(0), each(1));
            }
        }
    }
}

pub fn main() -> bool {
    ratios();
    parts();
    from_bytes();
    in_a_preview();
    reasons();
    growth();
    true
}
