// The library's calls, through the crate for Rust programs.
use super::case::{Answer, Case, Outputs, Read, Strand};
use gedrashiw::duplex_caller::depths_have_minimum_reads;
use gedrashiw::methylation::{ConversionPattern, EvidenceArrays, EvidenceOut};
use gedrashiw::{
    ConsensusOut, DuplexConsensusCaller, Kind, NoCallReason, Record, Refusal, Settings, SourceRead, SourceReads, VanillaConsensusRead,
};

#[inline]
fn strand(s: &Strand) -> VanillaConsensusRead<'_> {
    let strand = VanillaConsensusRead::new(&s.bases, &s.quals, &s.depths, &s.errors);
    let evidence = || EvidenceArrays::new(&s.marks, &s.unconverted, &s.converted);
    match s.annotation {
        0 => strand,
        1 => strand.annotated(ConversionPattern::CToT, evidence()),
        _ => strand.annotated(ConversionPattern::GToA, evidence()),
    }
}

#[inline]
fn lent(out: &mut Outputs) -> (ConsensusOut<'_>, EvidenceOut<'_>, EvidenceOut<'_>) {
    let ([a_marks, b_marks], [a_unconverted, b_unconverted]) = (&mut out.marks, &mut out.unconverted);
    let [a_converted, b_converted] = &mut out.converted;
    (
        ConsensusOut { bases: &mut out.bases, quals: &mut out.quals, errors: &mut out.errors },
        EvidenceOut { informative: a_marks, unconverted_count: a_unconverted, converted_count: a_converted },
        EvidenceOut { informative: b_marks, unconverted_count: b_unconverted, converted_count: b_converted },
    )
}

fn settings(case: &Case) -> Settings {
    Settings { ceiling: case.ceiling, limit: case.limit }
}

// The reads as they are lent.
pub fn reads(reads: &[Read]) -> Vec<SourceRead> {
    reads.iter().map(|&Read { flags, offset, length }| SourceRead { flags, offset, length }).collect()
}

// The batch product's call, and the preview's, which take the same.
#[derive(Clone, Copy, Debug, PartialEq)]
pub enum Product {
    Batch,
    Preview,
}

pub const PRODUCTS: [Product; 2] = [Product::Batch, Product::Preview];

impl Product {
    // The limit that counts.
    pub fn limit(self, limit: u16) -> u16 {
        if self == Product::Preview { limit.min(256) } else { limit }
    }

    // No output needs more places.
    pub fn places(self) -> usize {
        usize::from(self.limit(1024))
    }
}

pub fn duplex_consensus(case: &Case, out: &mut Outputs) -> Answer {
    consensus(Product::Batch, case, out)
}

pub fn consensus(product: Product, case: &Case, out: &mut Outputs) -> Answer {
    made(product, case, &reads(&case.reads), out)
}

#[inline]
pub fn with_reads(case: &Case, reads: &[SourceRead], out: &mut Outputs) -> Answer {
    made(Product::Batch, case, reads, out)
}

#[inline]
fn made(product: Product, case: &Case, reads: &[SourceRead], out: &mut Outputs) -> Answer {
    let &Case { ref a, ref b, listed, ref bytes, .. } = case;
    let strands = [a, b].map(|s| s.present.then(|| strand(s)));
    let list = listed.then_some(SourceReads { reads, bytes });
    let (mut written, mut first, mut second) = lent(out);
    let [a, b] = strands.each_ref().map(Option::as_ref);
    let call = match product {
        Product::Batch => DuplexConsensusCaller::duplex_consensus_into,
        Product::Preview => DuplexConsensusCaller::preview_consensus_into,
    };
    match call(settings(case), a, b, list, &mut written, &mut first, &mut second) {
        Err(refusal) => Answer::Refused(refusal.number()),
        Ok(None) => Answer::NoRecord,
        Ok(Some(Record { kind: Kind::Ab, positions })) => Answer::Ab(positions),
        Ok(Some(Record { kind: Kind::Ba, positions })) => Answer::Ba(positions),
        Ok(Some(Record { kind: Kind::Both, positions })) => Answer::Both(positions),
    }
}

// Two strands combined, as a caller does who has decided that both are there: with their annotations, or of strands without.
pub fn combine_strands(case: &Case, annotated: bool, out: &mut Outputs) -> Answer {
    let (a, b, settings) = (strand(&case.a), strand(&case.b), settings(case));
    let (mut written, mut first, mut second) = lent(out);
    let combined = if annotated {
        DuplexConsensusCaller::combine_strands_annotated_into(settings, &a, &b, case.listed, &mut written, &mut first, &mut second)
    } else {
        DuplexConsensusCaller::combine_strands_into(settings, &a, &b, case.listed, &mut written)
    };
    combined.map_or_else(|refusal| Answer::Refused(refusal.number()), Answer::Both)
}

// Why two strands that are there show N at a position.
#[inline]
pub fn no_call_reason(case: &Case, position: usize) -> Result<NoCallReason, Refusal> {
    let (a, b) = (strand(&case.a), strand(&case.b));
    DuplexConsensusCaller::no_call_reason(Some(&a), Some(&b), position)
}

// Whether a record is kept, or the refusal's number.
pub fn has_minimum_reads(positions: usize, ab_depths: &[u16], ba_depths: &[u16], min_reads: &[u32]) -> Result<bool, u8> {
    depths_have_minimum_reads(positions, ab_depths, ba_depths, min_reads).map_err(Refusal::number)
}

// A strand alone; its evidence goes to the first strand's outputs.
pub fn gated_single_strand(s: &Strand, out: &mut Outputs) -> Answer {
    let (mut written, mut evidence, _) = lent(out);
    match DuplexConsensusCaller::gated_single_strand_into(&strand(s), &mut written, &mut evidence) {
        Err(refusal) => Answer::Refused(refusal.number()),
        Ok(positions) => Answer::Ab(positions),
    }
}
