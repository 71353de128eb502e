//! Replays test vectors over the Rust crate: reads them from standard input, makes the call that each names, and writes a line for
//! each: the call's number, the answer, and every place of every output. oracle/README.md has the form of a vector.
mod line;
mod vector;

use gedrashiw::duplex_caller::{Counts, combined_depths_into, depth_range, duplex_metrics, strand_metrics};
use gedrashiw::methylation::{ConversionPattern, EvidenceArrays, EvidenceOut, MethylationMode, is_cpg_context};
use gedrashiw::{
    DuplexConsensusCaller as Caller, MiPart, ReadType, Refusal, Settings, StrandOut, VanillaConsensusRead, caller, phred,
};
use line::Line;
use std::io::{BufReader, BufWriter, Write, stdin, stdout};
use vector::Vector;

/// A strand of depths alone.
fn of_depths(depths: &[u16]) -> VanillaConsensusRead<'_> {
    VanillaConsensusRead::new(&[], &[], depths, &[])
}

fn one<T: Into<u64>>(answer: Result<T, Refusal>) -> Result<[u64; 1], Refusal> {
    answer.map(|n| [n.into()])
}

fn pattern_number(pattern: ConversionPattern) -> u64 {
    match pattern {
        ConversionPattern::CToT => 0,
        ConversionPattern::GToA => 1,
    }
}

/// What is asked of numbers alone.
fn of_numbers(v: &Vector) -> Result<[u64; 1], Refusal> {
    Ok([match v.call {
        1 => phred::cap_quality(v.one_u16(0), v.one_u8(1))?.into(),
        2 => caller::clamp_per_base_to_fgbio_short(v.one_u16(0)) as u64,
        3 => caller::clamp_combined_error_to_fgbio_short(v.one_u32(0) as i32).into(),
        5 => [MethylationMode::Disabled, MethylationMode::EmSeq, MethylationMode::Taps][usize::from(v.one_u8(0).min(2))]
            .is_enabled()
            .into(),
        6 => pattern_number(ConversionPattern::from_read_flags(v.one_u16(0))),
        8 => is_cpg_context(&v.u8s(0), v.one_usize(1), v.one_u8(2) != 0).into(),
        10 => Caller::min_yx_reads_for(&v.u32s(0))?.into(),
        11 => Caller::allows_single_strand_consensus(&v.u32s(0))?.into(),
        12 => Caller::written_flags([ReadType::Fragment, ReadType::R1, ReadType::R2][usize::from(v.one_u8(0).min(2))]).into(),
        13 => Caller::is_paired(v.one_u16(0)).into(),
        14 => Caller::is_paired_r1(v.one_u16(0)).into(),
        15 => Caller::is_paired_r2(v.one_u16(0)).into(),
        16 => Caller::has_minimum_number_of_reads(&v.u16s(0), &v.u16s(1), &v.u32s(2))?.into(),
        17 => Caller::are_all_same_strand(&v.u16s(0))?.into(),
        19 => Caller::is_error(v.u8s(0)[0], v.u8s(0)[1]).into(),
        21 => of_depths(&v.u16s(0)).max_depth()?.into(),
        22 => of_depths(&v.u16s(0)).min_depth()?.into(),
        25 => match Caller::extract_strand_from_mi_bytes(&v.u8s(0)) {
            None => 0,
            Some('A') => 1,
            Some(_) => 2,
        },
        26 => caller::calculate_error_rate(&v.u16s(0), &v.u16s(1))?.to_bits().into(),
        call => unreachable!("call {call}"),
    }])
}

fn bases(v: &Vector, line: &mut Line) {
    let pattern = if v.one_u8(0) == 0 { ConversionPattern::CToT } else { ConversionPattern::GToA };
    let (reference, unconverted, converted) = pattern.bases();
    line.numbers([reference, unconverted, converted].map(u64::from));
}

fn molecule_call(v: &Vector, line: &mut Line) {
    match Caller::molecule_call(v.u8s(0)[0], v.u8s(0)[1]) {
        None => line.number(0),
        Some(c) => line.numbers([1, pattern_number(c.pattern), c.call.into(), c.confirmed.into()]),
    }
}

/// Fields 0 and 1: the prefix and the UMI; 2: the output.
fn read_name(v: &Vector, line: &mut Line) {
    let mut out = v.u8s(2);
    line.answer(one(caller::write_consensus_read_name_into(&mut out, &v.u8s(0), &v.u8s(1)).map(|n| n as u64)));
    line.places(&out);
}

/// Field 0: the reads; 1: the MIs' bytes; 2 and 3: the outputs.
fn partition(v: &Vector, line: &mut Line) {
    let part = |[present, offset, length]: [usize; 3]| if present == 0 { MiPart::ABSENT } else { MiPart::new(offset, length) };
    let reads: Vec<MiPart> = v.rows(0).into_iter().map(part).collect();
    let (bytes, mut a, mut b) = (v.u8s(1), v.u16s(2), v.u16s(3));
    let mut base_mi = &[][..];
    match Caller::partition_records_by_strand_into(&reads, &bytes, &mut a, &mut b) {
        Err(refusal) => line.refused(refusal),
        Ok(lengths) => {
            line.numbers([lengths.a as u64, lengths.b as u64]);
            match lengths.base_mi {
                None => line.number(0),
                Some(part) => {
                    line.numbers([1, part.start as u64, part.len() as u64]);
                    base_mi = &bytes[part];
                }
            }
        }
    }
    line.places(base_mi);
    line.places(&a);
    line.places(&b);
}

/// Fields 0 to 6: the strand; 7: annotation, left, base, quality; 8: the new length; 9 to 15: the outputs.
fn padded(v: &Vector, line: &mut Line) {
    let (bases, quals, depths, errors) = (v.u8s(0), v.u8s(1), v.u16s(2), v.u16s(3));
    let (marks, unconverted, converted) = (v.u8s(4), v.u32s(5), v.u32s(6));
    let [annotation, left, base, qual] = v.u8s(7)[..] else { panic!("four settings") };
    let mut strand = VanillaConsensusRead::new(&bases, &quals, &depths, &errors);
    if annotation != 0 {
        let pattern = if annotation == 1 { ConversionPattern::CToT } else { ConversionPattern::GToA };
        strand = strand.annotated(pattern, EvidenceArrays::new(&marks, &unconverted, &converted));
    }
    let (mut bases, mut quals, mut depths, mut errors) = (v.u8s(9), v.u8s(10), v.u16s(11), v.u16s(12));
    let (mut marks, mut unconverted, mut converted) = (v.u8s(13), v.u32s(14), v.u32s(15));
    let mut out = StrandOut {
        bases: &mut bases,
        quals: &mut quals,
        depths: &mut depths,
        errors: &mut errors,
        evidence: EvidenceOut { informative: &mut marks, unconverted_count: &mut unconverted, converted_count: &mut converted },
    };
    let (new_length, left) = (v.one_usize(8), left != 0);
    let answer = match v.call {
        23 => strand.padded_into(new_length, left, base, qual, &mut out),
        _ => strand.padded_default_into(new_length, left, &mut out),
    };
    line.answer(answer.map(|pattern| [pattern.map_or(0, |p| 1 + pattern_number(p))]));
    line.places(&bases);
    line.places(&quals);
    line.places(&depths);
    line.places(&errors);
    line.places(&marks);
    line.places(&unconverted);
    line.places(&converted);
}

/// The bits of each rate: of errors over depths, place by place.
fn rates(v: &Vector, line: &mut Line) {
    v.u32s(0).into_iter().zip(v.u32s(1)).for_each(|(errors, depth)| line.number(caller::rate_bits(errors, depth)));
}

/// Fields 0 and 1: the first strand; 2: whether there is a second; 3 and 4: that one; 5 and 6: the record.
fn metrics(v: &Vector, line: &mut Line) {
    let (a_depths, a_errors, b_depths, b_errors) = (v.u16s(0), v.u16s(1), v.u16s(3), v.u16s(4));
    let first = Counts { depths: &a_depths, errors: &a_errors };
    let second = (v.one_u8(2) != 0).then_some(Counts { depths: &b_depths, errors: &b_errors });
    let answer = duplex_metrics(first, second, &v.u8s(5), &v.u16s(6));
    line.answer(answer.map(|m| {
        let bits = f32::to_bits;
        [m.aD, m.aM, bits(m.aE), m.bD, m.bM, bits(m.bE), m.cD, m.cM, bits(m.cE), m.nc].map(u64::from)
    }));
}

/// Field 0: the positions; 1 and 2: the depths of both strands; 3: the output.
fn combined_depths(v: &Vector, line: &mut Line) {
    let mut out = v.u16s(3);
    let answer = combined_depths_into(v.one_usize(0), &v.u16s(1), &v.u16s(2), &mut out);
    line.answer(answer.map(|n| [n as u64]));
    line.places(&out);
}

/// One position of two strands without annotation or list. Field 0: A's base and quality, and B's; 1: A's depth and errors, and B's.
fn position(v: &Vector, line: &mut Line) {
    let (b, n) = (v.u8s(0), v.u16s(1));
    let strand = |at: usize| VanillaConsensusRead::new(&b[at..=at], &b[at + 1..at + 2], &n[at..=at], &n[at + 1..at + 2]);
    let combined = Caller::combine_strands(Settings::default(), &strand(0), &strand(2), false);
    line.answer(combined.map(|c| [c.bases[0].into(), c.quals[0].into(), c.errors[0].into()]));
}

/// The calls by number, as in oracle/calls.rs and oracle/vectors.py.
fn replay(v: &Vector, line: &mut Line) {
    match v.call {
        4 => read_name(v, line),
        7 => bases(v, line),
        9 => line.answer(Caller::validate_min_reads(&v.u32s(0)).map(|t| [t.total, t.xy, t.yx].map(u64::from))),
        18 => partition(v, line),
        20 => molecule_call(v, line),
        23 | 24 => padded(v, line),
        27 => rates(v, line),
        28 => {
            let figures = strand_metrics(Counts { depths: &v.u16s(0), errors: &v.u16s(1) });
            line.answer(figures.map(|f| [f.largest, f.smallest, f.depths, f.errors].map(u64::from)));
        }
        29 => metrics(v, line),
        30 => combined_depths(v, line),
        31 => {
            let range = depth_range(v.one_usize(0), &v.u16s(1), &v.u16s(2));
            line.answer(range.map(|(min, max)| [min.into(), max.into()]));
        }
        32 => position(v, line),
        _ => line.answer(of_numbers(v)),
    }
}

fn main() -> std::io::Result<()> {
    let (mut input, mut output) = (BufReader::new(stdin()), BufWriter::new(stdout()));
    loop {
        match Vector::read(&mut input) {
            Ok(None) => return output.flush(),
            Err(vector::Bad) => {
                writeln!(output, "bad vector")?;
                return output.flush();
            }
            Ok(Some(vector)) => {
                let mut line = Line(vector.call.to_string());
                replay(&vector, &mut line);
                writeln!(output, "{}", line.0)?;
            }
        }
    }
}
