// Reads vectors from standard input (README.md has their form) and writes a line for each: `R` or `T`, and then what the call
// must say. R: the Rust says so. T: the refusal table does, or document 02's rule, for an input outside the Rust's domain.
use super::*;
use crate::MethylationMode;
use crate::caller::*;
use crate::methylation::*;
use crate::no_calls::no_calls;
use crate::order::first;
use crate::vanilla_caller::VanillaConsensusRead;
use std::fmt::{Display, Write as _};
use std::io::{Read, Write as _};
use std::panic::{AssertUnwindSafe, catch_unwind};

fn number(bytes: &[u8]) -> u64 {
    bytes.iter().rev().fold(0, |n, &b| n << 8 | u64::from(b))
}

struct Vector<'a>(&'a [u8]);

impl Vector<'_> {
    // The numbers of `step` bytes in a field whose elements have `width` bytes.
    fn numbers(&self, field: usize, width: usize, step: usize) -> impl Iterator<Item = u64> {
        let entry = &self.0[8 * field..8 * field + 8];
        let (offset, count) = (number(&entry[..4]) as usize, number(&entry[4..6]) as usize);
        assert_eq!(number(&entry[6..]) as usize, width, "the width of field {field}");
        self.0[offset..offset + count * width].chunks(step).map(number)
    }
    fn u8s(&self, field: usize) -> Vec<u8> {
        self.numbers(field, 1, 1).map(|n| n as u8).collect()
    }
    fn u16s(&self, field: usize) -> Vec<u16> {
        self.numbers(field, 2, 2).map(|n| n as u16).collect()
    }
    fn u32s(&self, field: usize) -> Vec<u32> {
        self.numbers(field, 4, 4).map(|n| n as u32).collect()
    }
    fn u64s(&self, field: usize) -> Vec<u64> {
        self.numbers(field, 8, 8).collect()
    }
    fn rows(&self, field: usize) -> Vec<[u64; 3]> {
        let numbers: Vec<u64> = self.numbers(field, 24, 8).collect();
        numbers.chunks(3).map(|row| row.try_into().unwrap()).collect()
    }
    // Reads that have flags only.
    fn records(&self, field: usize) -> Vec<RawRecord> {
        let flags = self.u16s(field).into_iter().enumerate();
        flags.map(|(number, flags)| RawRecord { number, flags, mi: None }).collect()
    }
    fn record(&self, field: usize) -> RawRecord {
        self.records(field).remove(0)
    }
}

struct Said {
    by_rust: bool,
    text: String,
}

impl Said {
    fn and(mut self, answer: impl Display) -> Said {
        write!(self.text, " {answer}").unwrap();
        self
    }
    // An output, with all its places.
    fn out<T: Display>(mut self, places: &[T]) -> Said {
        self.text.push_str(" |");
        places.iter().fold(self, |said, place| said.and(place))
    }
}

fn rust(answer: impl Display) -> Said {
    rusts([answer])
}

fn rusts<T: Display>(answers: impl IntoIterator<Item = T>) -> Said {
    answers.into_iter().fold(Said { by_rust: true, text: String::new() }, Said::and)
}

fn yes(answer: bool) -> Said {
    rust(u8::from(answer))
}

fn rule(answer: impl Display) -> Said {
    Said { by_rust: false, text: String::new() }.and(answer)
}

fn table(row: u8) -> Said {
    rule("refused").and(row)
}

// The first of rows 7 and 8 that is met, by the lengths of the arrays of each strand and record.
fn unfit(lengths: &[[usize; 2]]) -> Option<u8> {
    first(&[
        (7, lengths.iter().flatten().any(|&n| n > 1024)),
        (8, lengths.iter().any(|[m, n]| m != n)),
    ])
}

fn put<T: Copy>(out: &mut [T], written: &[T]) {
    out[..written.len()].copy_from_slice(written);
}

// The row for which the Rust's own message stands.
fn row_of(message: &str) -> u8 {
    let rows = [
        ("at least 1 value", 1),
        ("must have 1-3 values", 2),
        ("(total >= XY)", 3),
        ("(XY >= YX)", 4),
        ("is missing MI tag", 5),
        ("without /A or /B suffix", 6),
    ];
    rows.iter().find(|(words, _)| message.contains(words)).expect(message).1
}

fn thresholds(list: &[u32]) -> std::result::Result<[usize; 3], u8> {
    let list: Vec<usize> = list.iter().map(|&n| n as usize).collect();
    DuplexConsensusCaller::validate_min_reads(&list).map_err(|message| row_of(&message))?;
    Ok(DuplexConsensusCaller::padded_min_reads(list))
}

// Field 0: the score; 1: the ceiling. The Rust's is 93; for another one document 02's request 102 is the rule.
fn cap_quality(v: &Vector) -> Said {
    let (score, ceiling) = (v.u16s(0)[0], u16::from(v.u8s(1)[0]));
    match ceiling {
        93 => rust(DuplexConsensusCaller::cap_quality(score.into())),
        3..93 => rule(if score < 2 { 2 } else if score > ceiling { ceiling } else { score }),
        _ => table(14),
    }
}

fn read_name(v: &Vector) -> Said {
    let (prefix, umi, mut out) = (v.u8s(0), v.u8s(1), v.u8s(2));
    if out.len() < prefix.len() + 1 + umi.len() {
        return table(12).out(&out);
    }
    let mut name = Vec::new();
    let text = |bytes| std::str::from_utf8(bytes).unwrap();
    write_consensus_read_name(&mut name, text(&prefix), text(&umi));
    put(&mut out, &name);
    rust(name.len()).out(&out)
}

fn is_enabled(v: &Vector) -> Said {
    let modes = [MethylationMode::Disabled, MethylationMode::EmSeq, MethylationMode::Taps];
    yes(modes[v.u8s(0)[0] as usize].is_enabled())
}

const PATTERNS: [ConversionPattern; 2] = [ConversionPattern::CToT, ConversionPattern::GToA];

fn pattern_number(pattern: ConversionPattern) -> usize {
    PATTERNS.iter().position(|&p| p == pattern).unwrap()
}

fn bases(v: &Vector) -> Said {
    let (reference, unconverted, converted) = PATTERNS[v.u8s(0)[0] as usize].bases();
    rust(reference).and(unconverted).and(converted)
}

fn cpg(v: &Vector) -> Said {
    yes(is_cpg_context(&v.u8s(0), v.u64s(1)[0] as usize, v.u8s(2)[0] != 0))
}

fn validate(v: &Vector) -> Said {
    match thresholds(&v.u32s(0)) {
        Ok([total, xy, yx]) => rust(total).and(xy).and(yx),
        Err(row) => rust("refused").and(row),
    }
}

// The Rust does not look whether the thresholds are in order here: the table refuses first.
fn min_yx_reads(v: &Vector) -> Said {
    let list: Vec<usize> = v.u32s(0).iter().map(|&n| n as usize).collect();
    match thresholds(&v.u32s(0)) {
        Ok(_) => rust(DuplexConsensusCaller::min_yx_reads_for(&list).unwrap()),
        Err(row) => table(row),
    }
}

fn allows_single_strand(v: &Vector) -> Said {
    let list: Vec<usize> = v.u32s(0).iter().map(|&n| n as usize).collect();
    match thresholds(&v.u32s(0)) {
        Ok(_) => yes(DuplexConsensusCaller::allows_single_strand_consensus(&list)),
        Err(row) => table(row),
    }
}

fn flags_written(v: &Vector) -> Said {
    let types = [ReadType::Fragment, ReadType::R1, ReadType::R2];
    rust(DuplexConsensusCaller::written_flags(types[v.u8s(0)[0] as usize]))
}

fn read_gate(v: &Vector) -> Said {
    let (a, b) = (v.records(0), v.records(1));
    match thresholds(&v.u32s(2)) {
        Err(row) => table(row),
        Ok(_) if a.len() > 1024 || b.len() > 1024 => table(9),
        Ok([total, xy, yx]) => yes(DuplexConsensusCaller::has_minimum_number_of_reads(&a, &b, total, xy, yx)),
    }
}

fn same_strand(v: &Vector) -> Said {
    let reads = v.records(0);
    if reads.len() > 1024 {
        return table(9);
    }
    yes(DuplexConsensusCaller::are_all_same_strand(reads.iter()))
}

fn partition(v: &Vector) -> Said {
    let (reads, bytes, mut a, mut b) = (v.rows(0), v.u8s(1), v.u16s(2), v.u16s(3));
    let n = reads.len();
    let part = |row: &[u64; 3]| bytes.get(row[1] as usize..row[1].checked_add(row[2])? as usize);
    let refused = first(&[
        (9, n > 1024),
        (10, reads.iter().any(|row| row[0] != 0 && part(row).is_none())),
        (12, a.len() < n || b.len() < n),
    ]);
    if let Some(row) = refused {
        return table(row).out::<u8>(&[]).out(&a).out(&b);
    }
    let record = |(number, row): (usize, &[u64; 3])| {
        let mi = if row[0] == 0 { None } else { part(row).map(<[u8]>::to_vec) };
        assert!(mi.as_ref().is_none_or(|mi| std::str::from_utf8(mi).is_ok()), "an MI that is not UTF-8");
        RawRecord { number, flags: 0, mi }
    };
    let records = reads.iter().enumerate().map(record).collect();
    match DuplexConsensusCaller::partition_records_by_strand(records) {
        Err(message) => rust("refused").and(row_of(&message)).out::<u8>(&[]).out(&a).out(&b),
        Ok((base_mi, on_a, on_b)) => {
            let numbers = |records: &[RawRecord]| records.iter().map(|r| r.number as u16).collect::<Vec<_>>();
            put(&mut a, &numbers(&on_a));
            put(&mut b, &numbers(&on_b));
            let counts = rust(on_a.len()).and(on_b.len());
            let mi = base_mi.unwrap_or_default();
            let said = if n == 0 { counts.and(0) } else { counts.and(1).and(reads[0][1]).and(mi.len()) };
            said.out(mi.as_bytes()).out(&a).out(&b)
        }
    }
}

fn strand_of_mi(v: &Vector) -> Said {
    rust(match DuplexConsensusCaller::extract_strand_from_mi_bytes(&v.u8s(0)) {
        None => 0,
        Some('A') => 1,
        Some(_) => 2,
    })
}

fn molecule_call(v: &Vector) -> Said {
    let bases = v.u8s(0);
    match DuplexConsensusCaller::molecule_call(bases[0], bases[1]) {
        None => rust(0),
        Some(c) => rust(1).and(pattern_number(c.pattern)).and(c.call).and(c.confirmed),
    }
}

fn depth(v: &Vector, of: fn(&VanillaConsensusRead) -> u16) -> Said {
    let depths = v.u16s(0);
    if depths.len() > 1024 {
        return table(7);
    }
    rust(of(&strand(Vec::new(), Vec::new(), depths, Vec::new())))
}

fn strand(bases: Vec<u8>, quals: Vec<u8>, depths: Vec<u16>, errors: Vec<u16>) -> VanillaConsensusRead {
    VanillaConsensusRead { id: String::new(), bases, quals, depths, errors, source_reads: None, methylation: None }
}

// Fields 0 to 6: a strand; 7: annotation, left, base, quality; 8: the length; 9 to 15: the outputs.
fn padded(v: &Vector, default: bool) -> Said {
    let mut read = strand(v.u8s(0), v.u8s(1), v.u16s(2), v.u16s(3));
    let (marks, unconverted, converted) = (v.u8s(4), v.u32s(5), v.u32s(6));
    let [annotation, left, base, qual] = v.u8s(7)[..] else { panic!("four settings") };
    let new_length = v.u64s(8)[0] as usize;
    let (mut bases, mut quals, mut depths, mut errors) = (v.u8s(9), v.u8s(10), v.u16s(11), v.u16s(12));
    let (mut marks_out, mut unconverted_out, mut converted_out) = (v.u8s(13), v.u32s(14), v.u32s(15));

    let n = read.bases.len();
    let mut inputs = vec![n, read.quals.len(), read.depths.len(), read.errors.len()];
    let mut outputs = vec![bases.len(), quals.len(), depths.len(), errors.len()];
    if annotation != 0 {
        inputs.extend([marks.len(), unconverted.len(), converted.len()]);
        if new_length == n {
            outputs.extend([marks_out.len(), unconverted_out.len(), converted_out.len()]);
        }
    }
    let refused = first(&[
        (7, new_length > 1024 || inputs.iter().any(|&l| l > 1024)),
        (8, inputs.iter().any(|&l| l != n)),
        (11, new_length < n),
        (12, outputs.iter().any(|&l| l < new_length)),
    ]);
    let said = if let Some(row) = refused {
        table(row)
    } else {
        let evidence = |i: usize| MethylationEvidence {
            informative: marks[i] != 0,
            unconverted_count: unconverted[i],
            converted_count: converted[i],
        };
        if annotation != 0 {
            let pattern = PATTERNS[annotation as usize - 1];
            read.methylation = Some(MethylationAnnotation { evidence: (0..n).map(evidence).collect(), pattern });
        }
        let left = left != 0;
        let read = if default { read.padded_default(new_length, left) } else { read.padded(new_length, left, base, qual) };
        put(&mut bases, &read.bases);
        put(&mut quals, &read.quals);
        put(&mut depths, &read.depths);
        put(&mut errors, &read.errors);
        if let Some(kept) = &read.methylation {
            put(&mut marks_out, &kept.evidence.iter().map(|e| u8::from(e.informative)).collect::<Vec<_>>());
            put(&mut unconverted_out, &kept.evidence.iter().map(|e| e.unconverted_count).collect::<Vec<_>>());
            put(&mut converted_out, &kept.evidence.iter().map(|e| e.converted_count).collect::<Vec<_>>());
        }
        rust(read.methylation.map_or(0, |m| pattern_number(m.pattern) + 1))
    };
    let said = said.out(&bases).out(&quals).out(&depths).out(&errors);
    said.out(&marks_out).out(&unconverted_out).out(&converted_out)
}

fn error_rate(v: &Vector) -> Said {
    let (depths, errors) = (v.u16s(0), v.u16s(1));
    match unfit(&[[depths.len(), errors.len()]]) {
        Some(row) => table(row),
        None => rust(calculate_error_rate(&depths, &errors).to_bits()),
    }
}

fn rate_bits(v: &Vector) -> Said {
    let pairs = v.u32s(0).into_iter().zip(v.u32s(1));
    rusts(pairs.map(|(errors, depths)| DuplexConsensusCaller::rate(errors.into(), depths.into()).to_bits()))
}

fn strand_metrics(v: &Vector) -> Said {
    let (depths, errors) = (v.u16s(0), v.u16s(1));
    if let Some(row) = unfit(&[[depths.len(), errors.len()]]) {
        return table(row);
    }
    let (largest, smallest, depths, errors, _) =
        DuplexConsensusCaller::ab_metrics(&strand(Vec::new(), Vec::new(), depths, errors));
    rust(largest).and(smallest).and(depths).and(errors)
}

fn record(bases: Vec<u8>, errors: Vec<u16>, ab: VanillaConsensusRead, ba: Option<VanillaConsensusRead>) -> DuplexConsensusRead {
    let (id, quals) = (String::new(), Vec::new());
    DuplexConsensusRead { id, bases, quals, errors, ab_consensus: ab, ba_consensus: ba, is_ba_only: false }
}

// Fields 0 and 1: the first strand; 2: whether there is a second; 3 and 4: that one; 5 and 6: the record.
fn duplex_metrics(v: &Vector) -> Said {
    let (a_depths, a_errors, second) = (v.u16s(0), v.u16s(1), v.u8s(2)[0] != 0);
    let (b_depths, b_errors, bases, errors) = (v.u16s(3), v.u16s(4), v.u8s(5), v.u16s(6));
    let mut lengths = vec![[a_depths.len(), a_errors.len()], [bases.len(), errors.len()]];
    if second {
        lengths.push([b_depths.len(), b_errors.len()]);
    }
    if let Some(row) = unfit(&lengths) {
        return table(row);
    }
    let ab = strand(Vec::new(), Vec::new(), a_depths, a_errors);
    let ba = second.then(|| strand(Vec::new(), Vec::new(), b_depths, b_errors));
    let consensus = record(bases, errors, ab, ba);
    let (ab, ba) = (&consensus.ab_consensus, consensus.ba_consensus.as_ref());
    let (largest, smallest, _, _, rate) = DuplexConsensusCaller::ab_metrics(ab);
    let said = rust(largest).and(smallest).and(rate.to_bits());
    let (largest, smallest, rate) = DuplexConsensusCaller::ba_metrics(ba);
    let said = said.and(largest).and(smallest).and(rate.to_bits());
    let (largest, smallest, rate) = DuplexConsensusCaller::duplex_metrics(&consensus, ab, ba);
    said.and(largest).and(smallest).and(rate.to_bits()).and(no_calls(&consensus))
}

// Fields 0 to 2: the record's positions, and both strands' depths, none where a strand is absent; 3: the output.
fn depths_of_record(v: &Vector, range: bool) -> Said {
    let (positions, ab, ba) = (v.u64s(0)[0] as usize, v.u16s(1), v.u16s(2));
    let mut depths = if range { Vec::new() } else { v.u16s(3) };
    let refused = first(&[
        (7, positions > 1024 || ab.len() > 1024 || ba.len() > 1024),
        (12, !range && depths.len() < positions),
    ]);
    let said = if let Some(row) = refused {
        table(row)
    } else {
        let strand = |depths| strand(Vec::new(), Vec::new(), depths, Vec::new());
        let ba = if ba.is_empty() { None } else { Some(strand(ba)) };
        let consensus = record(vec![b'A'; positions], Vec::new(), strand(ab), ba);
        if range {
            let (min, max) = consensus.depth_range();
            rust(min).and(max)
        } else {
            let combined = consensus.combined_depths();
            put(&mut depths, &combined);
            rust(combined.len())
        }
    };
    if range { said } else { said.out(&depths) }
}

// The calls by number: the same as in tests/replay/src/main.rs and vectors.py.
// One position of two strands without annotation or list. Field 0: A's base and quality, and B's; 1: A's depth and errors, B's.
fn position(v: &Vector) -> Said {
    let (b, n) = (v.u8s(0), v.u16s(1));
    let a_strand = strand(vec![b[0]], vec![b[1]], vec![n[0]], vec![n[1]]);
    let b_strand = strand(vec![b[2]], vec![b[3]], vec![n[2]], vec![n[3]]);
    let (bases, quals, errors) =
        DuplexConsensusCaller::combine_strands::<false>(&a_strand, &b_strand, 1, None, &mut None, &mut None);
    rust(bases[0]).and(quals[0]).and(errors[0])
}

fn said(call: u8, v: &Vector) -> Said {
    match call {
        1 => cap_quality(v),
        2 => rust(clamp_per_base_to_fgbio_short(v.u16s(0)[0])),
        3 => rust(clamp_combined_error_to_fgbio_short((v.u32s(0)[0] as i32).into())),
        4 => read_name(v),
        5 => is_enabled(v),
        6 => rust(pattern_number(ConversionPattern::from_read_flags(v.u16s(0)[0]))),
        7 => bases(v),
        8 => cpg(v),
        9 => validate(v),
        10 => min_yx_reads(v),
        11 => allows_single_strand(v),
        12 => flags_written(v),
        13 => yes(DuplexConsensusCaller::is_paired(&v.record(0))),
        14 => yes(DuplexConsensusCaller::is_paired_r1(&v.record(0))),
        15 => yes(DuplexConsensusCaller::is_paired_r2(&v.record(0))),
        16 => read_gate(v),
        17 => same_strand(v),
        18 => partition(v),
        19 => yes(DuplexConsensusCaller::is_error(v.u8s(0)[0], v.u8s(0)[1])),
        20 => molecule_call(v),
        21 => depth(v, VanillaConsensusRead::max_depth),
        22 => depth(v, VanillaConsensusRead::min_depth),
        23 => padded(v, false),
        24 => padded(v, true),
        25 => strand_of_mi(v),
        26 => error_rate(v),
        27 => rate_bits(v),
        28 => strand_metrics(v),
        29 => duplex_metrics(v),
        30 => depths_of_record(v, false),
        31 => depths_of_record(v, true),
        32 => position(v),
        _ => panic!("no call {call}"),
    }
}

pub fn main() {
    let mut input = Vec::new();
    std::io::stdin().read_to_end(&mut input).unwrap();
    let mut out = std::io::BufWriter::new(std::io::stdout());
    let mut at = 0;
    while at < input.len() {
        let (call, size) = (input[at], number(&input[at + 2..at + 6]) as usize);
        let vector = Vector(&input[at + 6..at + 6 + size]);
        // What the Rust panics on, and no row refuses, shows as a difference.
        let said = catch_unwind(AssertUnwindSafe(|| said(call, &vector))).unwrap_or_else(|_| rust("panicked"));
        writeln!(out, "{} {call}{}", if said.by_rust { 'R' } else { 'T' }, said.text).unwrap();
        at += 6 + size;
    }
}
