// Times of the calls that the other programs leave out, ours and the Rust's, on the same inputs: reads and their gates, padding,
// depths, metrics, counts; metrics also from bytes to bytes.
use super::*;
use crate::caller::{self as rust_caller, calculate_error_rate};
use crate::methylation::{self as rust_methylation, MethylationAnnotation, MethylationEvidence};
use crate::MethylationMode;
use crate::vanilla_caller::{ReadType as RustReadType, VanillaConsensusRead};
use draw::Draw;
use gedrashiw::caller as ours_caller;
use gedrashiw::duplex_caller::{
    Counts, combined_depths_into, depth_range, depths_have_minimum_reads, duplex_metrics, methylation_strand_bases_into, strand_metrics,
};
use gedrashiw::methylation as ours_methylation;
use gedrashiw::{DuplexConsensusCaller as Ours, MiPart, StrandOut};
use std::hint::black_box;
use timing::medians;

mod case {
    include!("../combine/case.rs");
}
mod table {
    include!("../combine/table.rs");
}
mod draw {
    include!("../combine/draw.rs");
}
mod timing {
    include!("../timing.rs");
}

// So many inputs are taken in turn, so that no branch is learnt by heart.
const INPUTS: usize = 64;

struct Numbers {
    bases: Vec<u8>,
    quals: Vec<u8>,
    a: [Vec<u16>; 2],
    b: [Vec<u16>; 2],
    errors: Vec<u16>,
    evidence: [Vec<u32>; 2],
    marks: Vec<u8>,
    record: DuplexConsensusRead,
    annotation: MethylationAnnotation,
}

fn strand(bases: &[u8], quals: &[u8], [depths, errors]: &[Vec<u16>; 2]) -> VanillaConsensusRead {
    VanillaConsensusRead {
        id: String::new(),
        bases: bases.to_vec(),
        quals: quals.to_vec(),
        depths: depths.clone(),
        errors: errors.clone(),
        source_reads: None,
        methylation: None,
    }
}

// A record of two strands, or of one.
fn numbers(draw: &mut Draw, n: usize, two: bool) -> Numbers {
    let bases: Vec<u8> = draw.many(n, |draw| draw.pick(b"ACGTACGTACGTN"));
    let quals: Vec<u8> = draw.many(n, |draw| 2 + draw.below(92) as u8);
    let counts = |draw: &mut Draw| [draw.many(n, |draw| 3 + draw.below(8) as u16), draw.many(n, |draw| u16::from(draw.chance(20)))];
    let (a, b) = (counts(draw), if two { counts(draw) } else { Default::default() });
    let errors: Vec<u16> = draw.many(n, |draw| u16::from(draw.chance(10)));
    let evidence = [draw.many(n, |draw| draw.below(9) as u32), draw.many(n, |draw| draw.below(9) as u32)];
    let marks: Vec<u8> = draw.many(n, |draw| u8::from(draw.chance(4)));
    let at = |i: usize| MethylationEvidence {
        informative: marks[i] != 0,
        unconverted_count: evidence[0][i],
        converted_count: evidence[1][i],
    };
    let annotation = MethylationAnnotation { evidence: (0..n).map(at).collect(), pattern: rust_methylation::ConversionPattern::CToT };
    let record = DuplexConsensusRead {
        id: String::new(),
        bases: bases.clone(),
        quals: quals.clone(),
        errors: errors.clone(),
        ab_consensus: strand(&bases, &quals, &a),
        ba_consensus: two.then(|| strand(&bases, &quals, &b)),
        is_ba_only: false,
    };
    Numbers { bases, quals, a, b, errors, evidence, marks, record, annotation }
}

fn tell(name: &str, [ours, rust]: [f64; 2]) {
    println!("{name:52} {:10.1} {:10.1} {:7.2}", ours / INPUTS as f64, rust / INPUTS as f64, rust / ours);
}

fn each<T, A, B>(name: &str, inputs: &[T], mut ours: impl FnMut(&T) -> A, mut rust: impl FnMut(&T) -> B) {
    let ours = || inputs.iter().for_each(|input| drop(black_box(ours(black_box(input)))));
    let rust = || inputs.iter().for_each(|input| drop(black_box(rust(black_box(input)))));
    tell(name, medians(ours, rust));
}

fn rust_metrics(record: &DuplexConsensusRead) -> ([f32; 3], usize) {
    let (ab, ba) = (&record.ab_consensus, record.ba_consensus.as_ref());
    let (_, _, _, _, a) = black_box(DuplexConsensusCaller::ab_metrics(ab));
    let (_, _, b) = black_box(DuplexConsensusCaller::ba_metrics(ba));
    let (_, _, c) = black_box(DuplexConsensusCaller::duplex_metrics(record, ab, ba));
    // The Rust has no nc: a count of N, which is less work, stands for it.
    ([a, b, c], record.bases.iter().filter(|&&base| base == b'N').count())
}

fn counts([depths, errors]: &[Vec<u16>; 2]) -> Counts<'_> {
    Counts { depths, errors }
}

fn of_metrics(draw: &mut Draw) {
    for two in [true, false] {
        for n in [150, 300, 1024] {
            let inputs: Vec<Numbers> = (0..INPUTS).map(|_| numbers(draw, n, two)).collect();
            let strands = if two { "two strands" } else { "one strand" };
            each(
                &format!("metrics, {n} positions, {strands}"),
                &inputs,
                |x| duplex_metrics(counts(&x.a), two.then(|| counts(&x.b)), &x.bases, &x.errors),
                |x| rust_metrics(&x.record),
            );
            let bytes: Vec<([Vec<u8>; 5], &Numbers)> = inputs.iter().map(|x| (low_first(x), x)).collect();
            let mut out = [0; gedrashiw::bytes::METRICS_BYTES];
            each(
                &format!("metrics from bytes to bytes, {n} positions, {strands}"),
                &bytes,
                |([ad, ae, bd, be, e], x)| {
                    let first = gedrashiw::bytes::CountBytes { depths: ad, errors: ae };
                    let second = two.then_some(gedrashiw::bytes::CountBytes { depths: bd, errors: be });
                    gedrashiw::bytes::metrics_into(first, second, &x.bases, e, &mut out)
                },
                |(_, x)| rust_metrics(&x.record),
            );
        }
    }
}

fn low_first(x: &Numbers) -> [Vec<u8>; 5] {
    let bytes = |numbers: &[u16]| numbers.iter().flat_map(|n| n.to_le_bytes()).collect();
    [bytes(&x.a[0]), bytes(&x.a[1]), bytes(&x.b[0]), bytes(&x.b[1]), bytes(&x.errors)]
}

fn of_strands(draw: &mut Draw) {
    for n in [150, 300] {
        let inputs: Vec<Numbers> = (0..INPUTS).map(|_| numbers(draw, n, true)).collect();
        let ours = |x: &'static Numbers| gedrashiw::VanillaConsensusRead::new(&x.bases, &x.quals, &x.a[0], &x.a[1]);
        let inputs: &'static [Numbers] = inputs.leak();
        let pairs: Vec<(&'static Numbers, gedrashiw::VanillaConsensusRead)> = inputs.iter().map(|x| (x, ours(x))).collect();
        each(&format!("max_depth, {n} positions"), &pairs, |(_, s)| s.max_depth(), |(x, _)| x.record.ab_consensus.max_depth());
        each(&format!("min_depth, {n} positions"), &pairs, |(_, s)| s.min_depth(), |(x, _)| x.record.ab_consensus.min_depth());
        each(&format!("calculate_error_rate, {n} positions"), &pairs, |(_, s)| s.error_rate(), |(x, _)| calculate_error_rate(&x.a[0], &x.a[1]));
        each(&format!("padded to {} positions", n + 50), &pairs, |(_, s)| s.padded(n + 50, true, b'n', 2), |(x, _)| x.record.ab_consensus.padded(n + 50, true, b'n', 2));
        let (mut bases, mut quals, mut depths, mut errors) = (vec![0; n + 50], vec![0; n + 50], vec![0; n + 50], vec![0; n + 50]);
        let mut out = StrandOut { bases: &mut bases, quals: &mut quals, depths: &mut depths, errors: &mut errors, ..Default::default() };
        each(&format!("padded_into {} positions", n + 50), &pairs, |(_, s)| s.padded_into(n + 50, true, b'n', 2, &mut out), |(x, _)| x.record.ab_consensus.padded(n + 50, true, b'n', 2));
        each(&format!("padded_default to {} positions", n + 50), &pairs, |(_, s)| s.padded_default(n + 50, true), |(x, _)| x.record.ab_consensus.padded_default(n + 50, true));
        each(&format!("strand metrics, {n} positions"), &pairs, |(x, _)| strand_metrics(counts(&x.a)), |(x, _)| DuplexConsensusCaller::ab_metrics(&x.record.ab_consensus));
        let mut out = vec![0; n];
        each(
            &format!("combined_depths, {n} positions"),
            &pairs,
            |(x, _)| combined_depths_into(n, &x.a[0], &x.b[0], &mut out),
            |(x, _)| x.record.combined_depths(),
        );
        each(&format!("depth_range, {n} positions"), &pairs, |(x, _)| depth_range(n, &x.a[0], &x.b[0]), |(x, _)| x.record.depth_range());
        each(
            &format!("consensus gate, {n} positions"),
            &pairs,
            |(x, _)| depths_have_minimum_reads(n, &x.a[0], &x.b[0], &[5, 3, 1]),
            |(x, _)| DuplexConsensusCaller::duplex_consensus_has_minimum_reads(&x.record, 5, 3, 1),
        );
        of_annotations(inputs, n);
    }
}

fn annotation(x: &Numbers) -> ours_methylation::MethylationAnnotation<'_> {
    ours_methylation::MethylationAnnotation {
        evidence: ours_methylation::EvidenceArrays::new(&x.marks, &x.evidence[0], &x.evidence[1]),
        pattern: ours_methylation::ConversionPattern::CToT,
    }
}

// What changes its arrays changes a copy, on both sides: ours in the same arrays again and again.
fn of_annotations(inputs: &[Numbers], n: usize) {
    let annotated: Vec<_> = inputs.iter().map(|x| (x, annotation(x))).collect();
    let strands: Vec<_> = annotated
        .iter()
        .map(|(x, m)| gedrashiw::VanillaConsensusRead { methylation: Some(m.clone()), ..gedrashiw::VanillaConsensusRead::new(&x.bases, &[], &[], &[]) })
        .collect();
    let rust_strands: Vec<_> = inputs
        .iter()
        .map(|x| VanillaConsensusRead { methylation: Some(x.annotation.clone()), ..strand(&x.bases, &x.quals, &x.a) })
        .collect();
    let of_both: Vec<_> = strands.iter().zip(&rust_strands).collect();
    let mut counts = vec![0; n];
    each(&format!("unconverted_counts, {n} positions"), &annotated, |(_, m)| m.unconverted_counts_into(&mut counts), |(x, _)| x.annotation.unconverted_counts());
    each(&format!("converted_counts, {n} positions"), &annotated, |(_, m)| m.converted_counts_into(&mut counts), |(x, _)| x.annotation.converted_counts());
    each(
        &format!("summed_counts of both kinds, {n} positions"),
        inputs,
        |x| x.evidence.each_ref().map(|of_a| ours_methylation::summed_counts_into(n, of_a, &x.evidence[0], &mut counts)),
        |x| rust_methylation::summed_counts(&x.bases, &[&x.annotation, &x.annotation]),
    );
    let (mut marks, mut unconverted, mut converted) = (vec![0; n], vec![0; n], vec![0; n]);
    let mut out = ours_methylation::EvidenceOut { informative: &mut marks, unconverted_count: &mut unconverted, converted_count: &mut converted };
    each(&format!("truncate to {} positions", n - 10), &annotated, |(_, m)| m.truncate_into(n - 10, &mut out), |(x, _)| x.annotation.truncate(n - 10));
    each(
        &format!("gate_to_informative of a copy, {n} positions"),
        inputs,
        |x| {
            out.informative.copy_from_slice(&x.marks);
            out.unconverted_count.copy_from_slice(&x.evidence[0]);
            out.converted_count.copy_from_slice(&x.evidence[1]);
            ours_methylation::gate_to_informative_into(&mut out)
        },
        |x| {
            let mut copy = x.annotation.clone();
            rust_methylation::gate_to_informative(&mut copy);
            copy
        },
    );
    let mut bases = vec![0; n];
    each(
        &format!("restore_unconverted_bases of a copy, {n} positions"),
        &annotated,
        |(x, m)| {
            bases.copy_from_slice(&x.bases);
            ours_methylation::restore_unconverted_bases(&mut bases, m)
        },
        |(x, _)| {
            let mut copy = x.bases.clone();
            rust_methylation::restore_unconverted_bases(&mut copy, &x.annotation);
            copy
        },
    );
    each(
        &format!("methylation_strand_bases, {n} positions"),
        &of_both,
        |(ours, _)| methylation_strand_bases_into(ours, &mut bases),
        |(_, rust)| methylation_strand_bases(rust).len(),
    );
}

fn of_thresholds(draw: &mut Draw) {
    let list = |draw: &mut Draw| {
        let list: Vec<u32> = [5 + draw.below(3), 2 + draw.below(3), draw.below(3)][..1 + draw.below(3)].iter().map(|&n| n as u32).collect();
        (list.iter().map(|&n| n as usize).collect::<Vec<usize>>(), list)
    };
    let inputs: Vec<_> = (0..INPUTS).map(|_| list(draw)).collect();
    each("validate_min_reads", &inputs, |(_, list)| Ours::validate_min_reads(list), |(list, _)| DuplexConsensusCaller::validate_min_reads(list));
    each("min_yx_reads_for", &inputs, |(_, list)| Ours::min_yx_reads_for(list), |(list, _)| DuplexConsensusCaller::min_yx_reads_for(list));
    each(
        "allows_single_strand_consensus",
        &inputs,
        |(_, list)| Ours::allows_single_strand_consensus(list),
        |(list, _)| DuplexConsensusCaller::allows_single_strand_consensus(list),
    );
}

// Calls of one name, base or number: what passing through the library costs.
fn of_one(draw: &mut Draw) {
    let umis: Vec<String> = (0..INPUTS).map(|_| format!("{}-{}", draw.next(), draw.below(10))).collect();
    let (mut ours, mut rust) = (Vec::new(), Vec::new());
    each(
        "write_consensus_read_name",
        &umis,
        |umi| ours_caller::write_consensus_read_name(&mut ours, "fgumi", umi),
        |umi| rust_caller::write_consensus_read_name(&mut rust, "fgumi", umi),
    );
    let mut out = [0; 64];
    each(
        "write_consensus_read_name_into",
        &umis,
        |umi| ours_caller::write_consensus_read_name_into(&mut out, b"fgumi", umi.as_bytes()),
        |umi| rust_caller::write_consensus_read_name(&mut rust, "fgumi", umi),
    );
    let mis: Vec<&[u8]> = (0..INPUTS).map(|_| draw.pick(&[&b"1234567/A"[..], b"1234567/B", b"1234567"])).collect();
    each("extract_strand_from_mi_bytes", &mis, |mi| Ours::extract_strand_from_mi_bytes(mi), |mi| DuplexConsensusCaller::extract_strand_from_mi_bytes(mi));
    let bases: Vec<(u8, u8)> = draw.many(INPUTS, |draw| (draw.pick(b"CTGA"), draw.pick(b"CTGA")));
    each("is_error", &bases, |&(a, b)| Ours::is_error(a, b), |&(a, b)| DuplexConsensusCaller::is_error(a, b));
    each("molecule_call", &bases, |&(a, b)| Ours::molecule_call(a, b), |&(a, b)| DuplexConsensusCaller::molecule_call(a, b));
    let flags: Vec<(u16, RawRecord)> = draw.many(INPUTS, |draw| {
        let flags = draw.pick(&[0x41, 0x81, 0x51, 0x91, 0x1, 0]);
        (flags, RawRecord { number: 0, flags, mi: None })
    });
    each("is_paired", &flags, |&(flags, _)| Ours::is_paired(flags), |(_, record)| DuplexConsensusCaller::is_paired(record));
    each("is_paired_r1", &flags, |&(flags, _)| Ours::is_paired_r1(flags), |(_, record)| DuplexConsensusCaller::is_paired_r1(record));
    each("is_paired_r2", &flags, |&(flags, _)| Ours::is_paired_r2(flags), |(_, record)| DuplexConsensusCaller::is_paired_r2(record));
    let types = [
        (gedrashiw::ReadType::Fragment, RustReadType::Fragment),
        (gedrashiw::ReadType::R1, RustReadType::R1),
        (gedrashiw::ReadType::R2, RustReadType::R2),
    ];
    let types: Vec<_> = (0..INPUTS).map(|k| types[k % 3]).collect();
    each("written_flags", &types, |&(ours, _)| Ours::written_flags(ours), |&(_, rust)| DuplexConsensusCaller::written_flags(rust));
    let patterns = [
        (ours_methylation::ConversionPattern::CToT, rust_methylation::ConversionPattern::CToT),
        (ours_methylation::ConversionPattern::GToA, rust_methylation::ConversionPattern::GToA),
    ];
    let patterns: Vec<_> = (0..INPUTS).map(|k| patterns[k % 2]).collect();
    each("ConversionPattern::bases", &patterns, |&(ours, _)| ours.bases(), |&(_, rust)| rust.bases());
    let modes = [
        (gedrashiw::MethylationMode::Disabled, MethylationMode::Disabled),
        (gedrashiw::MethylationMode::EmSeq, MethylationMode::EmSeq),
        (gedrashiw::MethylationMode::Taps, MethylationMode::Taps),
    ];
    let modes: Vec<_> = (0..INPUTS).map(|k| modes[k % 3]).collect();
    each("MethylationMode::is_enabled", &modes, |(ours, _)| ours.is_enabled(), |(_, rust)| rust.is_enabled());
    let reference: Vec<u8> = draw.many(300, |draw| draw.pick(b"ACGTacgt"));
    let at: Vec<usize> = draw.many(INPUTS, |draw| draw.below(300));
    each(
        "is_cpg_context",
        &at,
        |&i| ours_methylation::is_cpg_context(&reference, i, i % 2 == 0),
        |&i| rust_methylation::is_cpg_context(&reference, i, i % 2 == 0),
    );
    let depths: Vec<u16> = draw.many(INPUTS, |draw| draw.next() as u16);
    each("cap_quality", &depths, |&n| gedrashiw::phred::cap_quality(n, 93), |&n| DuplexConsensusCaller::cap_quality(i32::from(n)));
    each("clamp_per_base_to_fgbio_short", &depths, |&n| ours_caller::clamp_per_base_to_fgbio_short(n), |&n| rust_caller::clamp_per_base_to_fgbio_short(n));
    each(
        "clamp_combined_error_to_fgbio_short",
        &depths,
        |&n| ours_caller::clamp_combined_error_to_fgbio_short(i32::from(n)),
        |&n| rust_caller::clamp_combined_error_to_fgbio_short(i64::from(n)),
    );
    each("from_read_flags", &depths, |&n| ours_methylation::ConversionPattern::from_read_flags(n), |&n| rust_methylation::ConversionPattern::from_read_flags(n));
    let sums: Vec<(u32, u32)> = draw.many(INPUTS, |draw| (draw.below(1000) as u32, 1 + draw.below(100_000) as u32));
    each(
        "rate_bits",
        &sums,
        |&(e, d)| ours_caller::rate_bits(e, d),
        |&(e, d)| DuplexConsensusCaller::rate(i64::from(e), i64::from(d)).to_bits(),
    );
}

// Reads of a molecule with the flags of some kinds: as records, and as flags, parts and bytes.
fn reads(draw: &mut Draw, n: usize, kinds: &[u16]) -> (Vec<RawRecord>, Vec<u16>, Vec<MiPart>, Vec<u8>) {
    let mut bytes = Vec::new();
    let (mut records, mut flags, mut parts) = (Vec::new(), Vec::new(), Vec::new());
    for number in 0..n {
        let mi = if draw.chance(2) { b"1234567/A" } else { b"1234567/B" };
        parts.push(MiPart::new(bytes.len(), mi.len()));
        bytes.extend(mi);
        flags.push(draw.pick(kinds));
        records.push(RawRecord { number, flags: flags[number], mi: Some(mi.to_vec()) });
    }
    (records, flags, parts, bytes)
}

fn of_reads(draw: &mut Draw) {
    for n in [20, 200] {
        let inputs: Vec<_> = (0..INPUTS).map(|_| reads(draw, n, &[0x41, 0x81, 0x51, 0x91])).collect();
        each(
            &format!("read gate, two lists of {n} reads"),
            &inputs,
            |(_, flags, ..)| Ours::has_minimum_number_of_reads(flags, flags, &[5, 3, 1]),
            |(records, ..)| DuplexConsensusCaller::has_minimum_number_of_reads(records, records, 5, 3, 1),
        );
        // As a molecule's lists are, in which no read differs; and lists whose first reads differ already.
        let alike: Vec<_> = (0..INPUTS).map(|_| reads(draw, n, &[0x41, 0x81])).collect();
        for (list, inputs) in [("alike", &alike), ("mixed", &inputs)] {
            each(
                &format!("are_all_same_strand, {n} reads, {list}"),
                inputs,
                |(_, flags, ..)| Ours::are_all_same_strand(flags),
                |(records, ..)| DuplexConsensusCaller::are_all_same_strand(records.iter()),
            );
        }
        let copied = |records: &[RawRecord]| records.iter().map(|r| RawRecord { number: r.number, flags: r.flags, mi: r.mi.clone() }).collect();
        let (mut a, mut b) = (vec![0; n], vec![0; n]);
        each(
            &format!("partition, {n} reads (the Rust with a copy of its reads)"),
            &inputs,
            |(_, _, parts, bytes)| Ours::partition_records_by_strand_into(parts, bytes, &mut a, &mut b).map(|p| p.a),
            |(records, ..)| DuplexConsensusCaller::partition_records_by_strand(copied(records)).map(|p| p.1.len()),
        );
    }
}

pub fn main() {
    println!("{:52} {:>10} {:>10} {:>7}", "a call", "ours, ns", "Rust, ns", "ratio");
    let mut draw = Draw::new(1);
    of_thresholds(&mut draw);
    of_one(&mut draw);
    of_reads(&mut draw);
    of_strands(&mut draw);
    of_metrics(&mut draw);
}
