// What the crate for Rust programs takes, of the inputs and outputs here.
use super::calls::Left;
use super::case::Read;
use super::inputs::Evidence;
use gedrashiw::methylation::{ConversionPattern, EvidenceArrays, EvidenceOut, MethylationAnnotation, MethylationMode};
use gedrashiw::{SourceRead, VanillaConsensusRead};

pub fn mode(number: u8) -> MethylationMode {
    match number {
        0 => MethylationMode::Disabled,
        1 => MethylationMode::EmSeq,
        _ => MethylationMode::Taps,
    }
}

pub fn pattern(number: u8) -> ConversionPattern {
    if number == 1 { ConversionPattern::CToT } else { ConversionPattern::GToA }
}

#[inline]
pub fn annotation(strand: &Evidence) -> MethylationAnnotation<'_> {
    let evidence = EvidenceArrays::new(&strand.marks, &strand.unconverted, &strand.converted);
    MethylationAnnotation { evidence, pattern: pattern(strand.annotation) }
}

pub fn strand<'a>(bases: &'a [u8], of: &'a Evidence) -> VanillaConsensusRead<'a> {
    let methylation = (of.annotation != 0).then(|| annotation(of));
    VanillaConsensusRead { methylation, ..VanillaConsensusRead::new(bases, &[], &[], &[]) }
}

pub fn reads(reads: &[Read]) -> Vec<SourceRead> {
    reads.iter().map(|&Read { flags, offset, length }| SourceRead { flags, offset, length }).collect()
}

// The outputs of a call that writes evidence.
pub fn evidence(out: &mut Left) -> EvidenceOut<'_> {
    let [unconverted_count, converted_count] = &mut out.words[..] else { unreachable!() };
    EvidenceOut { informative: &mut out.bytes[0], unconverted_count, converted_count }
}
