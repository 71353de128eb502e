// The Rust's own functions on the same inputs.
use super::super::DuplexConsensusCaller;
use super::super::DuplexConsensusRead;
use super::case::{Answer, Case, Outputs, Strand};
use crate::methylation::{ConversionPattern, MethylationAnnotation, MethylationEvidence};
use crate::vanilla_caller::{SourceRead, VanillaConsensusRead};

// A strand as the Rust has it. Its arrays are those that no row of the table refuses.
pub fn strand(s: &Strand) -> VanillaConsensusRead {
    let evidence = || -> Vec<MethylationEvidence> {
        let counts = s.unconverted.iter().zip(&s.converted);
        let evidence = s.marks.iter().zip(counts).map(|(&mark, (&unconverted_count, &converted_count))| {
            MethylationEvidence { informative: mark != 0, unconverted_count, converted_count }
        });
        evidence.collect()
    };
    let pattern = [None, Some(ConversionPattern::CToT), Some(ConversionPattern::GToA)][usize::from(s.annotation)];
    VanillaConsensusRead {
        id: String::new(),
        bases: s.bases.clone(),
        quals: s.quals.clone(),
        depths: s.depths.clone(),
        errors: s.errors.clone(),
        source_reads: None,
        methylation: pattern.map(|pattern| MethylationAnnotation { evidence: evidence(), pattern }),
    }
}

pub fn reads(case: &Case) -> Vec<SourceRead> {
    let read = |r: &super::case::Read| SourceRead {
        original_idx: 0,
        bases: case.bytes[r.offset..r.offset + r.length].to_vec(),
        quals: Vec::new(),
        simplified_cigar: Default::default(),
        flags: r.flags,
        ref_id: 0,
        alignment_start: 0,
        original_cigar: Default::default(),
        name_hash: 0,
    };
    case.reads.iter().map(read).collect()
}

pub fn duplex_consensus(case: &Case) -> Option<DuplexConsensusRead> {
    let a = case.a.present.then(|| strand(&case.a));
    let b = case.b.present.then(|| strand(&case.b));
    let reads = case.listed.then(|| reads(case));
    DuplexConsensusCaller::duplex_consensus(a.as_ref(), b.as_ref(), reads.as_deref())
}

// Two strands combined as duplex_consensus does it without a list: it gates a copy of each annotation.
pub fn combine_strands(a: &VanillaConsensusRead, b: &VanillaConsensusRead, n: usize) -> (Vec<u8>, Vec<u8>, Vec<u16>) {
    let evidence = |s: &VanillaConsensusRead| s.methylation.as_ref().map(|m| m.truncate(n));
    match (evidence(a), evidence(b)) {
        (None, None) => DuplexConsensusCaller::combine_strands::<false>(a, b, n, None, &mut None, &mut None),
        (mut of_a, mut of_b) => DuplexConsensusCaller::combine_strands::<true>(a, b, n, None, &mut of_a, &mut of_b),
    }
}

fn put<T: Copy>(out: &mut [T], written: &[T]) {
    out[..written.len()].copy_from_slice(written);
}

fn put_evidence(strand: &VanillaConsensusRead, place: usize, out: &mut Outputs) {
    let Some(annotation) = &strand.methylation else { return };
    for (i, evidence) in annotation.evidence.iter().enumerate() {
        out.marks[place][i] = u8::from(evidence.informative);
        out.unconverted[place][i] = evidence.unconverted_count;
        out.converted[place][i] = evidence.converted_count;
    }
}

// What a record is as an answer, and its arrays in the outputs.
pub fn told(record: &Option<DuplexConsensusRead>, out: &mut Outputs) -> Answer {
    let Some(record) = record else { return Answer::NoRecord };
    put(&mut out.bases, &record.bases);
    put(&mut out.quals, &record.quals);
    put(&mut out.errors, &record.errors);
    put_evidence(&record.ab_consensus, 0, out);
    if let Some(ba) = &record.ba_consensus {
        put_evidence(ba, 1, out);
    }
    match (&record.ba_consensus, record.is_ba_only) {
        (Some(_), _) => Answer::Both(record.len()),
        (None, false) => Answer::Ab(record.len()),
        (None, true) => Answer::Ba(record.len()),
    }
}

// The strands that a record stores are the given ones, cut to its length: a caller of ours has them.
pub fn stores_the_given(record: &DuplexConsensusRead, case: &Case) -> bool {
    let n = record.len();
    let same = |stored: &VanillaConsensusRead, s: &Strand| {
        stored.bases[..] == s.bases[..n]
            && stored.quals[..] == s.quals[..n]
            && stored.depths[..] == s.depths[..n]
            && stored.errors[..] == s.errors[..n]
            && stored.methylation.as_ref().map(|m| m.pattern) == strand(s).methylation.map(|m| m.pattern)
    };
    let first = if record.is_ba_only { &case.b } else { &case.a };
    same(&record.ab_consensus, first) && record.ba_consensus.as_ref().is_none_or(|ba| same(ba, &case.b))
}

pub fn gated_single_strand(s: &Strand, out: &mut Outputs) -> Answer {
    let gated = DuplexConsensusCaller::gated_single_strand(&strand(s));
    put(&mut out.bases, &gated.bases);
    put(&mut out.quals, &gated.quals);
    put(&mut out.errors, &gated.errors);
    put_evidence(&gated, 0, out);
    Answer::Ab(gated.bases.len())
}

pub fn has_minimum_reads(record: &DuplexConsensusRead, [total, xy, yx]: [u32; 3]) -> bool {
    let [total, xy, yx] = [total as usize, xy as usize, yx as usize];
    DuplexConsensusCaller::duplex_consensus_has_minimum_reads(record, total, xy, yx)
}
