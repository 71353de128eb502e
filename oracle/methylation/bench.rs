// Both sides on the same records: the time of a call, the median of many rounds that take turns. Each side's inputs are made
// before; ours writes to the same outputs again and again, the Rust makes its tags and drops them.
use super::calls::{Call, Left, ours_duplex_tags};
use super::case::Read;
use super::draw::Draw;
use super::inputs::{Case, Evidence, Simplex};
use super::timing::medians;
use super::{library_types, rust};
use crate::methylation::{self, MethylationAnnotation};
use gedrashiw::SourceReads;
use gedrashiw::bytes::{CountBytesOut, TagBytesOut, methylation_tags_into};
use gedrashiw::methylation::{annotate_simplex_methylation_into, build_mm_ml_tags_into, build_mm_tag_no_ml_into};
use std::hint::black_box;

// So many records are taken in turn, so that no branch is learnt by heart.
const RECORDS: usize = 64;

struct Prepared {
    case: Case,
    annotations: Vec<MethylationAnnotation>,
}

// A record as the caller gives it: the molecule's bases with few N, calls at most C of one strand and G of the other, shallow
// counts, of which most reads agree.
fn record(draw: &mut Draw, positions: usize, annotations: [u8; 2]) -> Case {
    let bases: Vec<u8> = draw.many(positions, |draw| if draw.chance(100) { b'N' } else { draw.pick(b"ACGT") });
    let strand = |draw: &mut Draw, annotation: u8| {
        let letter = if annotation == 1 { b'C' } else { b'G' };
        let called: Vec<bool> = bases.iter().map(|&base| base == letter && !draw.chance(20)).collect();
        let deep: Vec<u32> = called.iter().map(|&called| if called { 3 + draw.below(8) as u32 } else { 0 }).collect();
        let converted: Vec<u32> = deep.iter().map(|&n| if draw.chance(4) { 0 } else { n - u32::from(n > 0 && draw.chance(6)) }).collect();
        Evidence {
            annotation,
            marks: called.into_iter().map(u8::from).collect(),
            unconverted: deep.iter().zip(&converted).map(|(n, c)| n - c).collect(),
            converted,
        }
    };
    let strands = annotations.map(|annotation| if annotation == 0 { Evidence::default() } else { strand(draw, annotation) });
    Case { bases, strands, mode: 1, len: positions }
}

fn prepared(positions: usize, annotations: [u8; 2]) -> Vec<Prepared> {
    let mut draw = Draw::new(positions as u64);
    let of = |case: Case| Prepared {
        annotations: case.strands.iter().filter(|strand| strand.annotation != 0).map(rust::annotation).collect(),
        case,
    };
    (0..RECORDS).map(|_| of(record(&mut draw, positions, annotations))).collect()
}

// Outputs that are ample for any record of so many positions.
fn outputs(call: Call, positions: usize) -> Left {
    let outputs = call.outputs();
    outputs.filled(&vec![10 + 10 * positions; outputs.lengths().len()])
}

fn checked(call: Call, records: &[Prepared], out: &mut Left) {
    for Prepared { case, .. } in records {
        let mut must = out.clone();
        must.put(&call.by_rust(case));
        call.by_ours(case, out);
        assert!(*out == must, "the two differ");
    }
}

fn duplex(positions: usize, annotations: [u8; 2]) -> [f64; 2] {
    let records = prepared(positions, annotations);
    let mut out = outputs(Call::DuplexTags, positions);
    checked(Call::DuplexTags, &records, &mut out);
    medians(
        || {
            for record in &records {
                black_box(ours_duplex_tags(black_box(&record.case), black_box(&mut out)));
            }
        },
        || {
            for record in &records {
                let Prepared { case, annotations } = black_box(record);
                let strands: Vec<&MethylationAnnotation> = annotations.iter().collect();
                black_box(methylation::duplex_methylation_tags(&case.bases, &strands, rust::mode(case.mode)));
            }
        },
    )
}

fn one_strand(positions: usize) -> [f64; 2] {
    let records = prepared(positions, [1, 0]);
    let mut out = outputs(Call::MmMl, positions);
    checked(Call::MmMl, &records, &mut out);
    let [mm, ml] = &mut out.bytes[..] else { unreachable!() };
    medians(
        || {
            for record in &records {
                let Case { bases, strands: [a, _], mode, .. } = black_box(&record.case);
                let (annotation, mode) = (library_types::annotation(a), library_types::mode(*mode));
                let _ = black_box(build_mm_ml_tags_into(bases, &annotation, mode, black_box(mm), black_box(ml)));
            }
        },
        || {
            for record in &records {
                let Prepared { case, annotations } = black_box(record);
                black_box(methylation::build_mm_ml_tags(&case.bases, &annotations[0], rust::mode(case.mode)));
            }
        },
    )
}

fn without_ml(positions: usize) -> [f64; 2] {
    let records = prepared(positions, [1, 0]);
    let mut out = outputs(Call::Mm, positions);
    checked(Call::Mm, &records, &mut out);
    medians(
        || {
            for record in &records {
                let Case { bases, strands: [a, _], mode, .. } = black_box(&record.case);
                let (annotation, mode) = (library_types::annotation(a), library_types::mode(*mode));
                let _ = black_box(build_mm_tag_no_ml_into(bases, &annotation, mode, black_box(&mut out.bytes[0])));
            }
        },
        || {
            for record in &records {
                let Prepared { case, annotations } = black_box(record);
                black_box(methylation::build_mm_tag_no_ml(&case.bases, &annotations[0], rust::mode(case.mode)));
            }
        },
    )
}

// A strand's evidence as bytes, nine a position.
fn as_bytes(strand: &Evidence) -> Vec<u8> {
    let at = |i: usize| [&[strand.marks[i]][..], &strand.unconverted[i].to_le_bytes(), &strand.converted[i].to_le_bytes()].concat();
    (0..strand.marks.len()).flat_map(at).collect()
}

// The tags from bytes to bytes, and the call over numbers.
fn from_bytes(positions: usize, annotations: [u8; 2]) -> [f64; 2] {
    let records = prepared(positions, annotations);
    let evidence: Vec<[Vec<u8>; 2]> = records.iter().map(|record| record.case.strands.each_ref().map(as_bytes)).collect();
    let room = 10 + 10 * positions;
    let mut bytes: [Vec<u8>; 11] = std::array::from_fn(|_| vec![0; room]);
    let [seq, a_mm, b_mm, mm, ml, au, at, bu, bt, cu, ct] = &mut bytes;
    let counts = |unconverted, converted| CountBytesOut { unconverted, converted };
    let mut out = TagBytesOut { seq, a_mm, b_mm, mm, ml, a: counts(au, at), b: counts(bu, bt), both: counts(cu, ct) };
    let mut numbers = outputs(Call::DuplexTags, positions);
    medians(
        || {
            for (Prepared { case, .. }, evidence) in records.iter().zip(&evidence) {
                let given = |k: usize| {
                    let Evidence { annotation, .. } = case.strands[k];
                    (annotation != 0).then(|| (library_types::pattern(annotation), &black_box(evidence)[k][..]))
                };
                let mode = library_types::mode(case.mode);
                let _ = black_box(methylation_tags_into(&case.bases, given(0), given(1), mode, black_box(&mut out)));
            }
        },
        || {
            for record in &records {
                black_box(ours_duplex_tags(black_box(&record.case), black_box(&mut numbers)));
            }
        },
    )
}

// Reads of a strand as a caller gives it, all aligned, over a reference that is known: most C are shown as T.
fn aligned_reads(draw: &mut Draw, positions: usize, reads: usize, everywhere: bool) -> Simplex {
    let reference: Vec<u8> = draw.many(positions, |draw| draw.pick(b"ACGT"));
    let (mut list, mut bytes) = (Vec::new(), Vec::new());
    for _ in 0..reads {
        list.push(Read { flags: 0x41, offset: bytes.len(), length: positions });
        bytes.extend(reference.iter().map(|&base| match draw.below(100) {
            0 => draw.pick(b"ACGTN"),
            _ if base == b'C' && !draw.chance(5) => b'T',
            _ => base,
        }));
    }
    let aligned = vec![1; bytes.len()];
    Simplex { len: positions, reads: list, bytes, reference, pattern: 1, aligned, everywhere }
}

fn simplex(positions: usize, reads: usize, everywhere: bool) -> [f64; 2] {
    let mut draw = Draw::new(positions as u64);
    let cases: Vec<Simplex> = (0..RECORDS).map(|_| aligned_reads(&mut draw, positions, reads, everywhere)).collect();
    let lent: Vec<_> = cases.iter().map(|case| (case, library_types::reads(&case.reads))).collect();
    let given: Vec<_> = cases.iter().map(|case| (case, rust::aligned(case))).collect();
    let mut out = Simplex::outputs().filled(&[positions; 3]);
    for case in &cases {
        case.by_ours(&mut out);
        assert!(out == case.by_rust(), "the two differ");
    }
    medians(
        || {
            for (case, reads) in &lent {
                let Simplex { len, bytes, reference, aligned, everywhere, pattern, .. } = black_box(case);
                let (reads, pattern) = (SourceReads { reads, bytes }, library_types::pattern(*pattern));
                let evidence = &mut library_types::evidence(black_box(&mut out));
                let _ = black_box(annotate_simplex_methylation_into(*len, reads, reference, pattern, aligned, *everywhere, evidence));
            }
        },
        || {
            for (case, given) in &given {
                black_box(rust::annotated(black_box(case), given));
            }
        },
    )
}

fn heading(name: &str, [one, other, ratio]: [&str; 3]) {
    println!("{name:44} {one:>10} {other:>10} {ratio:>7}");
}

fn tell(name: String, times: [f64; 2], ratio: fn(f64, f64) -> f64) {
    let [one, other] = times.map(|time| time / RECORDS as f64);
    println!("{name:44} {one:10.0} {other:10.0} {:7.2}", ratio(one, other));
}

pub fn main() -> bool {
    const TWO: [(&str, [u8; 2]); 2] = [("one annotation", [1, 0]), ("two annotations", [1, 2])];
    heading("methylation tags", ["ours, ns", "Rust, ns", "ratio"]);
    let beside = |ours: f64, rust: f64| rust / ours;
    for positions in [150, 300] {
        tell(format!("{positions} positions, a strand's MM and ML"), one_strand(positions), beside);
        tell(format!("{positions} positions, a strand's MM alone"), without_ml(positions), beside);
    }
    for (name, annotations) in TWO {
        for positions in [150, 300] {
            tell(format!("{positions} positions, a record of {name}"), duplex(positions, annotations), beside);
        }
    }
    heading("the same from bytes to bytes", ["bytes, ns", "numbers, ns", "times"]);
    for (name, annotations) in TWO {
        for positions in [150, 300] {
            tell(format!("{positions} positions, a record of {name}"), from_bytes(positions, annotations), |bytes, numbers| bytes / numbers);
        }
    }
    heading("a strand's annotation from its reads", ["ours, ns", "Rust, ns", "ratio"]);
    for (counted, everywhere) in [("at calls", false), ("everywhere", true)] {
        for positions in [150, 300] {
            for reads in [20, 200] {
                tell(format!("{positions} positions, {reads} reads, {counted}"), simplex(positions, reads, everywhere), beside);
            }
        }
    }
    true
}
