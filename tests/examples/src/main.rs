//! Document 01's examples of the calls, and document 02's of reasons for an N, ceilings and limits, one line each: what is asked, and what is
//! answered or left in the outputs. The file expected has what must be printed.
mod ceilings;
mod limits;
mod reasons;
mod tags;
mod text;

use gedrashiw::duplex_caller::{Counts, duplex_metrics};
use gedrashiw::methylation::{ConversionPattern, EvidenceArrays, EvidenceOut};
use gedrashiw::{DuplexConsensusCaller as Caller, MiPart, ReadType, StrandOut, VanillaConsensusRead, caller};
use text::{annotation_text, answered, arrays, number, numbers, pattern_text, refused, word};

fn thresholds(min_reads: &[u32]) {
    print!("thresholds");
    numbers(min_reads);
    print!(":");
    match Caller::validate_min_reads(min_reads) {
        Err(refusal) => refused(refusal),
        Ok(t) => numbers(&[t.total, t.xy, t.yx]),
    }
    match Caller::allows_single_strand_consensus(min_reads) {
        Err(_) => println!(),
        Ok(true) => println!(", single strand allowed"),
        Ok(false) => println!(", two strands needed"),
    }
}

/// The reads' MIs are parts of one buffer; each list has four places, filled with 9.
fn partition(name: &str, reads: &[MiPart], buffer: &[u8]) {
    let (mut a_out, mut b_out) = ([9; 4], [9; 4]);
    print!("partition {name}:");
    match Caller::partition_records_by_strand_into(reads, buffer, &mut a_out, &mut b_out) {
        Err(refusal) => refused(refusal),
        Ok(lengths) => {
            numbers(&[lengths.a, lengths.b]);
            match lengths.base_mi {
                None => print!(" no MI"),
                Some(part) => numbers(&[part.start, part.len()]),
            }
        }
    }
    print!(", A");
    numbers(&a_out);
    print!(", B");
    numbers(&b_out);
    println!();
}

fn gate(a_reads: &[u16], b_reads: &[u16], min_reads: &[u32]) {
    print!("read gate");
    numbers(min_reads);
    print!(":");
    match Caller::has_minimum_number_of_reads(a_reads, b_reads, min_reads) {
        Err(refusal) => refused(refusal),
        Ok(true) => print!(" kept"),
        Ok(false) => print!(" below"),
    }
    println!();
}

fn same_strand(reads: &[u16]) {
    print!("same strand");
    numbers(reads);
    print!(":");
    match Caller::are_all_same_strand(reads) {
        Err(refusal) => refused(refusal),
        Ok(true) => print!(" yes"),
        Ok(false) => print!(" no"),
    }
    println!();
}

fn read_name(prefix: &[u8], umi: &[u8]) {
    let mut out = *b"..........";
    print!("read name:");
    answered(caller::write_consensus_read_name_into(&mut out, prefix, umi));
    word(&out);
    println!();
}

fn call(ct_base: u8, ga_base: u8) {
    print!("call");
    numbers(&[ct_base, ga_base]);
    print!(":");
    match Caller::molecule_call(ct_base, ga_base) {
        None => print!(" none"),
        Some(c) => {
            print!("{}", pattern_text(c.pattern));
            numbers(&[c.call, c.confirmed]);
        }
    }
    println!();
}

fn depths(depths: &[u16]) {
    let strand = VanillaConsensusRead::new(&[], &[], depths, &[]);
    print!("largest and smallest depth:");
    answered(strand.max_depth());
    answered(strand.min_depth());
    println!();
}

/// ACG with qualities 30, 31, 32 and evidence, padded by default; each output has six places, filled with 9.
fn padded(annotation: Option<ConversionPattern>, strand_depths: &[u16], new_length: usize, left: bool) {
    let mut strand = VanillaConsensusRead::new(b"ACG", &[30, 31, 32], strand_depths, &[0, 1, 0]);
    if let Some(pattern) = annotation {
        strand = strand.annotated(pattern, EvidenceArrays::new(&[0, 5, 1], &[0, 7, 70000], &[1, 0, 2]));
    }
    let (mut bases, mut quals, mut depths, mut errors) = (*b"......", [9; 6], [9; 6], [9; 6]);
    let (mut marks, mut unconverted, mut converted) = ([9; 6], [9; 6], [9; 6]);
    let mut out = StrandOut {
        bases: &mut bases,
        quals: &mut quals,
        depths: &mut depths,
        errors: &mut errors,
        evidence: EvidenceOut { informative: &mut marks, unconverted_count: &mut unconverted, converted_count: &mut converted },
    };
    print!("padded to");
    number(new_length);
    print!(":");
    match strand.padded_default_into(new_length, left, &mut out) {
        Err(refusal) => refused(refusal),
        Ok(pattern) => print!("{}", annotation_text(pattern)),
    }
    println!();
    word(&bases);
    let (quals, marks) = (quals.map(u32::from), marks.map(u32::from));
    arrays(&[&quals, &depths.map(u32::from), &errors.map(u32::from), &marks, &unconverted, &converted]);
}

fn flags() {
    print!("written flags:");
    numbers(&[ReadType::R1, ReadType::R2, ReadType::Fragment].map(Caller::written_flags));
    println!();
}

fn errors() {
    print!("errors -2 32767 40000:");
    numbers(&[-2, 32767, 40000].map(caller::clamp_combined_error_to_fgbio_short));
    println!();
}

fn rate(errors: u32, depth: u32) {
    println!("rate of {errors} {depth}: {:08x}", caller::rate_bits(errors, depth));
}

/// The integers of the metrics of ACNN with A's depths 2 and B's 1, and errors 0, 0, 1, 1.
fn metrics(second: bool, errors: &[u16]) {
    print!("metrics:");
    let first = Counts { depths: &[2; 4], errors: &[0; 4] };
    let second = second.then_some(Counts { depths: &[1; 4], errors: &[0; 4] });
    match duplex_metrics(first, second, b"ACNN", errors) {
        Err(refusal) => refused(refusal),
        Ok(m) => numbers(&[m.aD, m.aM, m.bD, m.bM, m.cD, m.cM, m.nc]),
    }
    println!();
}

/// The no-calls of a record with these bases, over the depths of one strand or of two.
fn no_calls(bases: &[u8], first: &[u16], second: Option<&[u16]>) {
    let zeros = [0; 8];
    let first = Counts { depths: first, errors: &zeros[..first.len()] };
    let second = second.map(|depths| Counts { depths, errors: &zeros[..depths.len()] });
    print!("nc of {}:", String::from_utf8_lossy(bases));
    match duplex_metrics(first, second, bases, &zeros[..bases.len()]) {
        Err(refusal) => refused(refusal),
        Ok(m) => numbers(&[m.nc]),
    }
    println!();
}

fn all_rates() {
    for (errors, depth) in [(2, 12), (0, 12), (2, 0), (2895, 2894), (2896, 2895), (2948, 2947), (2949, 2948)] {
        rate(errors, depth);
    }
    metrics(true, &[0, 0, 1, 1]);
    metrics(false, &[0, 0, 1, 1]);
    metrics(true, &[0, 0, 1]);
    no_calls(b"NNANCNN", &[0, 0, 3, 3, 3, 0, 0], None);
    no_calls(b"nnANCnn", &[0, 0, 3, 3, 3, 0, 0], None);
    no_calls(b"NNN", &[0, 1, 0], Some(&[1, 0, 0]));
    no_calls(b"NNN", &[1], Some(&[0, 1]));
    no_calls(b"N", &[1, 1, 1], Some(&[1, 1]));
    no_calls(b"NN", &[], None);
}

fn all_thresholds() {
    thresholds(&[3, 1]);
    thresholds(&[1, 2]);
    thresholds(&[3, 1, 2]);
    thresholds(&[]);
    thresholds(&[4, 3, 2, 5]);
    thresholds(&[1, 1, 0]);
    thresholds(&[1, 2, 0]);
}

fn all_partitions() {
    let (mi, absent) = (MiPart::new, MiPart::ABSENT);
    partition("7/B 7/A 8/A", &[mi(0, 3), mi(3, 3), mi(6, 3)], b"7/B7/A8/A");
    partition("/A", &[mi(0, 2)], b"/A");
    partition("A", &[mi(0, 1)], b"A");
    partition("no reads", &[], b"");
    partition("7 and none", &[mi(0, 1), absent], b"7");
    partition("none and 7", &[absent, mi(0, 1)], b"7");
    partition("outside", &[mi(1, 2), absent], b"/A");
    partition("five reads", &[absent; 5], b"");
}

fn all_paddings() {
    padded(None, &[4, 5, 6], 5, false);
    padded(Some(ConversionPattern::GToA), &[4, 5, 6], 5, true);
    padded(Some(ConversionPattern::CToT), &[4, 5, 6], 3, true);
    padded(None, &[4, 5], 2000, true);
    padded(None, &[4, 5], 7, true);
    padded(None, &[4, 5, 6], 2, false);
    padded(None, &[4, 5, 6], 7, false);
}

fn all_gates() {
    gate(&[77, 77, 141], &[77], &[3, 2, 1]);
    gate(&[64, 77], &[77], &[3]);
    gate(&[], &[], &[0]);
    gate(&[77], &[77], &[1, 2]);
}

fn main() {
    all_thresholds();
    all_partitions();
    all_gates();
    same_strand(&[]);
    same_strand(&[16, 83, 147]);
    same_strand(&[16, 77]);
    flags();
    read_name(b"fgumi", b"7");
    read_name(b"fgumi", b"12345");
    call(b't', b'C');
    call(b'G', b'a');
    call(b'G', b'C');
    depths(&[5, 40000, 3]);
    depths(&[]);
    all_paddings();
    errors();
    all_rates();
    tags::all_tags();
    reasons::all_reasons();
    ceilings::all_ceilings();
    limits::all_limits();
}
