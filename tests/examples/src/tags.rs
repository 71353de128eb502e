//! Examples of the methylation calls, SAMtags' own among them. Outputs are filled with dots or nines before a call.
use crate::text::{annotation_text, answered, arrays, mode_text, number, numbers, pattern_of, pattern_text, refused, word};
use gedrashiw::duplex_caller::methylation_strand_bases_into;
use gedrashiw::methylation::ConversionPattern::{CToT, GToA};
use gedrashiw::methylation::MethylationMode::{Disabled, EmSeq, Taps};
use gedrashiw::methylation::{
    ConversionPattern, CountsOut, DuplexTagsOut, EvidenceArrays, EvidenceOut, MethylationAnnotation, MethylationMode, TagLengths,
    build_mm_ml_tags_into, build_mm_tag_no_ml_into, duplex_methylation_tags_into, gate_to_informative_into,
    restore_unconverted_bases,
};
use gedrashiw::{Refusal, VanillaConsensusRead};

fn annotation<'a>(
    pattern: ConversionPattern,
    marks: &'a [u8],
    unconverted: &'a [u32],
    converted: &'a [u32],
) -> MethylationAnnotation<'a> {
    MethylationAnnotation { evidence: EvidenceArrays::new(marks, unconverted, converted), pattern }
}

fn mm_ml(answer: Result<Option<TagLengths>, Refusal>) {
    match answer {
        Err(refusal) => refused(refusal),
        Ok(None) => print!(" no tag"),
        Ok(Some(lengths)) => numbers(&[lengths.mm, lengths.ml]),
    }
}

/// SAMtags' example: the 6th, 19th and 20th of the tracked letters, at places 8, 23 and 24, are called, with 3 of 4, 4 of 4 and 4
/// of 5 reads unconverted.
fn sam_tags(bases: &[u8], pattern: ConversionPattern, mode: MethylationMode) {
    let (mut marks, mut unconverted, mut converted) = ([0; 27], [0; 27], [0; 27]);
    for (place, of_unconverted, of_converted) in [(8, 3, 1), (23, 4, 0), (24, 4, 1)] {
        (marks[place], unconverted[place], converted[place]) = (1, of_unconverted, of_converted);
    }
    let (mut mm, mut ml) = ([b'.'; 13], [9; 4]);
    print!("6th, 19th and 20th of");
    word(bases);
    print!("{}{}:", pattern_text(pattern), mode_text(mode));
    mm_ml(build_mm_ml_tags_into(bases, &annotation(pattern, &marks, &unconverted, &converted), mode, &mut mm, &mut ml));
    word(&mm);
    numbers(&ml);
    println!();
}

/// 21 Cs, the complement, and one base less than there is evidence.
fn all_sam_tags() {
    let (top, bottom) = (b"ACCcTCCGCCCCCNCCCCCCctCCCAC", b"TGGgAGGCGGGGGNGGGGGGgaGGGTG");
    sam_tags(top, CToT, EmSeq);
    sam_tags(top, CToT, Taps);
    sam_tags(top, CToT, Disabled);
    sam_tags(top, GToA, EmSeq);
    sam_tags(bottom, GToA, EmSeq);
    sam_tags(bottom, GToA, Taps);
    sam_tags(&top[..26], CToT, EmSeq);
}

/// ML has two bytes, its output one.
fn ml_one_short() {
    let (mut mm, mut ml) = ([b'.'; 9], [9; 1]);
    print!("tags of CcC, ML of one place:");
    let marked = annotation(CToT, &[1, 0, 1], &[1; 3], &[0; 3]);
    mm_ml(build_mm_ml_tags_into(b"CcC", &marked, EmSeq, &mut mm, &mut ml));
    word(&mm);
    numbers(&ml);
    println!();
}

/// The MM text alone, of cTCC: its c has no counts, its T is not tracked, and its last C has the given mark.
fn mm_alone(mark: u8, mode: MethylationMode) {
    let mut mm = [b'.'; 8];
    let marks = [1, 1, 0, mark];
    print!("MM alone of cTCC with marks");
    numbers(&marks);
    print!("{}:", mode_text(mode));
    let marked = annotation(CToT, &marks, &[0, 2, 1, 1], &[0, 2, 0, 3]);
    match build_mm_tag_no_ml_into(b"cTCC", &marked, mode, &mut mm) {
        Err(refusal) => refused(refusal),
        Ok(None) => print!(" no tag"),
        Ok(Some(length)) => number(length),
    }
    word(&mm);
    println!();
}

/// The tags of a record, whose counts are 0 at some of the marks, and the edges of what is held. Printed are the lengths answered;
/// the sequence, the MM text of each strand and of both, and ML; and of each kind the counts of each strand and of both.
fn tags(bases: &[u8], a: Option<&MethylationAnnotation>, b: Option<&MethylationAnnotation>, mode: MethylationMode) {
    let (mut seq, mut a_mm, mut b_mm, mut mm, mut ml) = ([b'.'; 11], [b'.'; 20], [b'.'; 20], [b'.'; 30], [9; 10]);
    let (mut of_a, mut of_b, mut of_both) = ([[9; 11]; 2], [[9; 11]; 2], [[9; 11]; 2]);
    let mut out = DuplexTagsOut {
        seq: &mut seq,
        a_mm: &mut a_mm,
        b_mm: &mut b_mm,
        mm: &mut mm,
        ml: &mut ml,
        a: counts_out(&mut of_a),
        b: counts_out(&mut of_b),
        both: counts_out(&mut of_both),
    };
    match duplex_methylation_tags_into(bases, a, b, mode, &mut out) {
        Err(refusal) => refused(refusal),
        Ok(n) => numbers(&[n.positions, n.a_mm, n.b_mm, n.mm, n.ml]),
    }
    println!();
    [&seq[..], &a_mm, &b_mm, &mm].into_iter().for_each(word);
    numbers(&ml);
    println!();
    arrays(&[&of_a[0], &of_b[0], &of_both[0]]);
    arrays(&[&of_a[1], &of_b[1], &of_both[1]]);
}

fn counts_out([unconverted, converted]: &mut [[i16; 11]; 2]) -> CountsOut<'_> {
    CountsOut { unconverted, converted }
}

/// The annotation of A with some marks.
fn of_a(pattern: ConversionPattern, marks: &[u8]) -> MethylationAnnotation<'_> {
    let unconverted = &[1, 32767, 0, 3, 5, 0, 0, 4294967295, 2, 32768];
    annotation(pattern, marks, unconverted, &[0, 32768, 1, 1, 6, 0, 0, 1, 2, 0])
}

fn of_b(pattern: ConversionPattern) -> MethylationAnnotation<'static> {
    let unconverted = &[0, 1, 0, 0, 32767, 0, 1, 4294967295, 0, 1];
    annotation(pattern, &[1, 1, 0, 0, 1, 2, 1, 1, 0, 1], unconverted, &[0, 3, 0, 0, 0, 4294967295, 1, 4294967295, 0, 2])
}

fn small_record(a: Option<ConversionPattern>, b: Option<ConversionPattern>, mode: MethylationMode) {
    print!("tags of{},{},{}:", annotation_text(a), annotation_text(b), mode_text(mode));
    let marks = [1, 1, 255, 1, 0, 0, 1, 1, 1, 0];
    tags(b"cGtATagCNG", a.map(|p| of_a(p, &marks)).as_ref(), b.map(of_b).as_ref(), mode);
}

fn all_pairs() {
    let annotations = [None, Some(CToT), Some(GToA)];
    for a in annotations {
        for b in annotations {
            [Disabled, EmSeq, Taps].into_iter().for_each(|mode| small_record(a, b, mode));
        }
    }
}

/// The tags of some bases and marks of A with the counts above, C to T or without an annotation.
fn other_record(bases: &[u8], annotated: bool, marks: &[u8]) {
    let a = annotated.then(|| of_a(CToT, marks));
    let pattern = annotation_text(pattern_of(a.as_ref()));
    print!("tags of {} bases, {} marks,{pattern}:", bases.len(), marks.len());
    tags(bases, a.as_ref(), None, EmSeq);
}

/// Too long; ragged; one position more than the outputs of the sequence and the counts have; an MM text of 21 bytes, its output 20.
fn all_refusals() {
    other_record(&[b'C'; 1025], false, &[1; 9]);
    other_record(&[b'C'; 1025], true, &[1; 9]);
    other_record(&[b'C'; 10], true, &[1; 9]);
    other_record(&[b'C'; 10], false, &[1; 9]);
    other_record(&[b'C'; 12], false, &[1; 9]);
    other_record(&[b'C'; 12], true, &[1; 9]);
    other_record(&[b'C'; 10], true, &[1; 10]);
}

fn restored(marks_text: &str, marks: &[u8], pattern: ConversionPattern) {
    let mut bases = *b"tTcAaNG";
    print!("restored tTcAaNG with {marks_text}{}:", pattern_text(pattern));
    answered(restore_unconverted_bases(&mut bases, &annotation(pattern, marks, &[], &[])));
    word(&bases);
    println!();
}

fn strand_bases(bases: &[u8], annotated: Option<ConversionPattern>) {
    let mut out = [b'.'; 5];
    let mut strand = VanillaConsensusRead::new(bases, &[], &[], &[]);
    strand.methylation = annotated.map(|pattern| annotation(pattern, &[1, 1, 0, 1], &[], &[]));
    print!("strand bases{}", annotation_text(annotated));
    word(bases);
    print!(":");
    answered(methylation_strand_bases_into(&strand, &mut out));
    word(&out);
    println!();
}

fn print_evidence(marks: &[u8], unconverted: &[u32], converted: &[u32]) {
    let marks: Vec<u32> = marks.iter().copied().map(u32::from).collect();
    arrays(&[&marks, unconverted, converted]);
}

fn gated(with: &str, unconverted: &mut [u32], converted: &mut [u32]) {
    let mut marks = [0, 255, 1, 0];
    print!("gated 0 255 1 0{with}:");
    let mut evidence = EvidenceOut { informative: &mut marks, unconverted_count: unconverted, converted_count: converted };
    answered(gate_to_informative_into(&mut evidence));
    print_evidence(&marks, unconverted, converted);
}

/// Of four positions, to outputs of three places.
fn truncated(len: usize) {
    let (mut marks, mut unconverted, mut converted) = ([9; 3], [9; 3], [9; 3]);
    let mut out = EvidenceOut { informative: &mut marks, unconverted_count: &mut unconverted, converted_count: &mut converted };
    print!("truncated to {len}:");
    let four = annotation(CToT, &[0, 255, 1, 0], &[7, 5, 4294967295, 0], &[0, 6, 32768, 1]);
    answered(four.truncate_into(len, &mut out));
    print_evidence(&marks, &unconverted, &converted);
}

pub fn all_tags() {
    all_sam_tags();
    ml_one_short();
    mm_alone(1, EmSeq);
    mm_alone(1, Disabled);
    mm_alone(0, EmSeq);
    all_pairs();
    all_refusals();
    restored("marks 1 0 1 1 2 1 1", &[1, 0, 1, 1, 2, 1, 1], CToT);
    restored("marks 1 0 1 1 2 1 1", &[1, 0, 1, 1, 2, 1, 1], GToA);
    restored("1025 marks", &[1; 1025], CToT);
    for annotated in [None, Some(CToT), Some(GToA)] {
        strand_bases(b"tATa", annotated);
    }
    strand_bases(b"tATaTA", None);
    strand_bases(b"tATaTA", Some(GToA));
    gated("", &mut [7, 5, 4294967295, 0], &mut [0, 6, 32768, 1]);
    gated(" with three counts", &mut [7; 4], &mut [7; 3]);
    (0..=5).filter(|len| *len != 1).for_each(truncated);
}
