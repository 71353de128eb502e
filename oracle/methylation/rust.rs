// The Rust's own functions on the same inputs.
use super::super::methylation_strand_bases;
use super::inputs::{Case, Evidence, Simplex};
use crate::MethylationMode;
use crate::methylation::{self, ConversionPattern, DuplexMethylationTags, MethylationAnnotation, MethylationEvidence};
use crate::vanilla_caller::{SourceRead, VanillaConsensusRead};

pub fn mode(number: u8) -> MethylationMode {
    match number {
        0 => MethylationMode::Disabled,
        1 => MethylationMode::EmSeq,
        _ => MethylationMode::Taps,
    }
}

fn pattern(number: u8) -> ConversionPattern {
    if number == 1 { ConversionPattern::CToT } else { ConversionPattern::GToA }
}

// An annotation of so many positions as the Rust has it. An array that a call does not look at may end before.
fn annotation_of(strand: &Evidence, positions: usize) -> MethylationAnnotation {
    let at = |counts: &[u32], i: usize| counts.get(i).copied().unwrap_or(0);
    let evidence = |i: usize| MethylationEvidence {
        informative: strand.marks.get(i).is_some_and(|&mark| mark != 0),
        unconverted_count: at(&strand.unconverted, i),
        converted_count: at(&strand.converted, i),
    };
    MethylationAnnotation { evidence: (0..positions).map(evidence).collect(), pattern: pattern(strand.annotation) }
}

pub fn annotation(strand: &Evidence) -> MethylationAnnotation {
    annotation_of(strand, strand.marks.len())
}

fn annotations(case: &Case) -> Vec<MethylationAnnotation> {
    case.strands.iter().filter(|strand| strand.annotation != 0).map(annotation).collect()
}

pub fn duplex_methylation_tags(case: &Case) -> DuplexMethylationTags {
    let annotations = annotations(case);
    methylation::duplex_methylation_tags(&case.bases, &annotations.iter().collect::<Vec<_>>(), mode(case.mode))
}

pub fn build_mm_ml_tags(case: &Case) -> Option<(String, Vec<u8>)> {
    methylation::build_mm_ml_tags(&case.bases, &annotation(&case.strands[0]), mode(case.mode))
}

pub fn build_mm_tag_no_ml(case: &Case) -> Option<String> {
    methylation::build_mm_tag_no_ml(&case.bases, &annotation(&case.strands[0]), mode(case.mode))
}

pub fn restore_unconverted_bases(case: &Case) -> Vec<u8> {
    let mut bases = case.bases.clone();
    methylation::restore_unconverted_bases(&mut bases, &annotation(&case.strands[0]));
    bases
}

pub fn strand_bases(case: &Case) -> Vec<u8> {
    let strand = VanillaConsensusRead {
        id: String::new(),
        bases: case.bases.clone(),
        quals: Vec::new(),
        depths: Vec::new(),
        errors: Vec::new(),
        source_reads: None,
        methylation: (case.strands[0].annotation != 0).then(|| annotation(&case.strands[0])),
    };
    methylation_strand_bases(&strand).into_owned()
}

// Marks, unconverted and converted counts of an annotation.
pub type Arrays = (Vec<u8>, [Vec<u32>; 2]);

fn arrays(annotation: &MethylationAnnotation) -> Arrays {
    let evidence = &annotation.evidence;
    let unconverted = evidence.iter().map(|e| e.unconverted_count).collect();
    let converted = evidence.iter().map(|e| e.converted_count).collect();
    (evidence.iter().map(|e| u8::from(e.informative)).collect(), [unconverted, converted])
}

pub fn gate_to_informative(strand: &Evidence) -> Arrays {
    let mut annotation = annotation(strand);
    methylation::gate_to_informative(&mut annotation);
    arrays(&annotation)
}

pub fn truncate(strand: &Evidence, len: usize) -> Arrays {
    arrays(&annotation(strand).truncate(len))
}

pub fn unconverted_counts(strand: &Evidence) -> Vec<i16> {
    annotation_of(strand, strand.unconverted.len()).unconverted_counts()
}

pub fn converted_counts(strand: &Evidence) -> Vec<i16> {
    annotation_of(strand, strand.converted.len()).converted_counts()
}

// The counts of one kind, summed over so many positions: the Rust sums an annotation's evidence, here both kinds alike.
pub fn summed_counts(positions: usize, [a, b]: [&[u32]; 2]) -> Vec<i16> {
    let of = |counts: &[u32]| annotation(&Evidence {
        annotation: 1,
        marks: vec![0; counts.len()],
        unconverted: counts.to_vec(),
        converted: counts.to_vec(),
    });
    let (unconverted, converted) = methylation::summed_counts(&vec![b'N'; positions], &[&of(a), &of(b)]);
    assert_eq!(unconverted, converted);
    unconverted
}

// What annotate_simplex_methylation takes of reads and the reference, as the Rust has it.
pub struct Aligned {
    reads: Vec<SourceRead>,
    aligned: Vec<Vec<bool>>,
    reference: Vec<Option<u8>>,
}

pub fn aligned(case: &Simplex) -> Aligned {
    let read = |r: &super::case::Read| SourceRead {
        original_idx: 0,
        bases: case.bytes[r.offset..r.offset + r.length].to_vec(),
        quals: Vec::new(),
        simplified_cigar: Default::default(),
        flags: r.flags,
        ref_id: 0,
        alignment_start: 0,
        original_cigar: Default::default(),
        name_hash: 0,
    };
    let marks = |r: &super::case::Read| -> Vec<bool> {
        (r.offset..r.offset + r.length).map_while(|i| case.aligned.get(i)).map(|&mark| mark != 0).collect()
    };
    Aligned {
        reads: case.reads.iter().map(read).collect(),
        aligned: case.reads.iter().map(marks).collect(),
        // The byte 0 stands for no reference base.
        reference: case.reference.iter().map(|&base| (base != 0).then_some(base)).collect(),
    }
}

pub fn annotated(case: &Simplex, given: &Aligned) -> MethylationAnnotation {
    let Aligned { reads, aligned, reference } = given;
    methylation::annotate_simplex_methylation(case.len, reads, reference, pattern(case.pattern), aligned, case.everywhere)
}

pub fn annotate_simplex_methylation(case: &Simplex) -> Arrays {
    arrays(&annotated(case, &aligned(case)))
}
