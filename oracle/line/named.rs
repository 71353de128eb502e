// Inputs by name: the printed example and the positions of document 01, each kind of record, each refusal, faults together.
use super::case::Strand;
use super::encoding::*;
use super::reference::{HEADER, output};
use std::path::Path;

pub struct Named {
    pub name: &'static str,
    pub bytes: Vec<u8>,
    // The line that document 01 asks for, where it was worked out by hand.
    pub line: Option<&'static str>,
}

const CT: u8 = 1;
const GA: u8 = 2;

// A strand with the same depth and errors at each position.
pub fn plain(bases: &[u8], quals: &[u8], depth: u16, errors: u16) -> Strand {
    let n = bases.len();
    let (bases, quals) = (bases.to_vec(), quals.to_vec());
    Strand { present: true, bases, quals, depths: vec![depth; n], errors: vec![errors; n], ..Strand::default() }
}

// The same with an annotation.
pub fn annotated(mut s: Strand, pattern: u8, marks: &[u8]) -> Strand {
    let n = marks.len();
    (s.annotation, s.marks, s.unconverted, s.converted) = (pattern, marks.to_vec(), vec![3; n], vec![1; n]);
    s
}

fn with(list: &[u32], strands: &[(u8, &Strand)]) -> Vec<Field> {
    let mut fields = vec![thresholds(list)];
    strands.iter().for_each(|(of, s)| fields.extend(strand(*of, s)));
    fields
}

fn both(a: &Strand, b: &Strand) -> Vec<Field> {
    with(&[1], &[(0, a), (B, b)])
}

fn listed(mut fields: Vec<Field>, reads: &[(u16, &[u8])]) -> Vec<Field> {
    fields.push(field(LIST, []));
    fields.extend(reads.iter().map(|(flags, bases)| read(*flags, bases)));
    fields
}

fn without(mut fields: Vec<Field>, tag: u8) -> Vec<Field> {
    fields.retain(|f| f.tag != tag);
    fields
}

// The same fields, the value of one changed.
fn changed(mut fields: Vec<Field>, tag: u8, change: impl Fn(&mut Vec<u8>)) -> Vec<Field> {
    fields.iter_mut().filter(|f| f.tag == tag).for_each(|f| change(&mut f.value));
    fields
}

fn swapped(mut fields: Vec<Field>, one: usize, other: usize) -> Vec<Field> {
    fields.swap(one, other);
    fields
}

// A strand of so many positions, all alike.
fn long(n: usize, depth: u16, errors: u16) -> Strand {
    plain(&vec![b'C'; n], &vec![30; n], depth, errors)
}

// Strand A, and reads that fill the bytes up to so many.
pub fn filled(size: usize) -> Vec<u8> {
    let mut fields = listed(with(&[1], &[(0, &plain(b"ACGT", &[30; 4], 2, 0))]), &[]);
    let mut left = size - written(&fields).len();
    while left > 0 {
        let take = if left > 20_000 { 10_000 } else { left };
        fields.push(read(0x41, &b"ACGT".repeat(take / 4 + 1)[..take - 5]));
        left -= take;
    }
    written(&fields)
}

struct List(Vec<Named>);

impl List {
    fn bytes(&mut self, name: &'static str, bytes: Vec<u8>) {
        self.0.push(Named { name, bytes, line: None });
    }
    fn add(&mut self, name: &'static str, fields: Vec<Field>) {
        self.bytes(name, written(&fields));
    }
    fn says(&mut self, name: &'static str, fields: Vec<Field>, line: &'static str) {
        self.0.push(Named { name, bytes: written(&fields), line: Some(line) });
    }
}

// The printed example, and P1 to P10 and P12 as records.
fn of_the_paper(list: &mut List) {
    let one = |base: u8, qual: u8| plain(&[base], &[qual], 1, 0);
    let example = both(&plain(b"ACGT", &[30; 4], 2, 0), &plain(b"ACTN", &[20, 40, 30, 2], 1, 0));
    list.says("printed_example", example, "both kept ACNN 50,70,2,2 0,0,1,1 2 2 00000000 1 1 00000000 3 3 3e2aaaab 2");
    let rest = |list: &mut List, name, a: &Strand, b: &Strand, line| list.says(name, both(a, b), line);
    let p1 = "both kept A 50 0 1 1 00000000 1 1 00000000 2 2 00000000 0";
    rest(list, "p1_agreement", &one(b'A', 30), &one(b'A', 20), p1);
    let p2 = "both kept A 93 0 1 1 00000000 1 1 00000000 2 2 00000000 0";
    rest(list, "p2_sum_capped", &one(b'A', 60), &one(b'A', 60), p2);
    let p3 = "both kept A 3 1 1 1 00000000 1 1 00000000 2 2 3f000000 0";
    rest(list, "p3_difference_of_3", &one(b'A', 33), &one(b'C', 30), p3);
    let masked = "both kept N 2 1 1 1 00000000 1 1 00000000 2 2 3f000000 1";
    rest(list, "p4_difference_of_2", &one(b'A', 32), &one(b'C', 30), masked);
    rest(list, "p5_equal_qualities", &one(b'A', 30), &one(b'C', 30), masked);
    rest(list, "p6_one_is_n", &one(b'A', 30), &one(b'N', 2), masked);
    let p7 = "both kept NA 2,3 0,0 1 1 00000000 1 1 00000000 2 2 00000000 1";
    rest(list, "p7_lowest_sums", &plain(b"AA", &[1, 1], 1, 0), &plain(b"AA", &[1, 2], 1, 0), p7);
    let p8 = "both kept A 10 0 1 1 00000000 3 3 3fd55555 4 4 00000000 0";
    rest(list, "p8_estimate_below_zero", &one(b'A', 30), &plain(b"C", &[20], 3, 5), p8);
    let p9 = "both kept A 50 32767 1 1 469c4000 1 1 469c4000 2 2 467ffe00 0";
    rest(list, "p9_errors_capped", &plain(b"A", &[30], 1, 20_000), &plain(b"A", &[20], 1, 20_000), p9);
    let (ct, ga) = (one(b'T', 30), annotated(one(b'C', 40), GA, &[0]));
    let p10 = "both kept C 40 0 1 1 00000000 1 1 00000000 2 2 00000000 0";
    rest(list, "p10_not_informative", &annotated(ct.clone(), CT, &[0]), &ga, p10);
    let p10 = "both kept C 70 0 1 1 00000000 1 1 00000000 2 2 00000000 0";
    rest(list, "p10_informative", &annotated(ct, CT, &[1]), &ga, p10);
    let p12 = "ab kept A 30 2 12 12 3e2aaaab 0 0 00000000 12 12 3e2aaaab 0";
    list.says("p12_rate_of_a_sixth", with(&[1, 1, 0], &[(0, &plain(b"A", &[30], 12, 2))]), p12);
    let deep = plain(b"A", &[30], 40_000, 0);
    let reaches = "ab kept A 30 0 32767 32767 00000000 0 0 00000000 32767 32767 00000000 0";
    list.says("gate_is_uncapped", with(&[40_000, 40_000, 0], &[(0, &deep)]), reaches);
    let below = "ab below A 30 0 32767 32767 00000000 0 0 00000000 32767 32767 00000000 0";
    list.says("gate_is_above_its_depth", with(&[40_001, 1, 0], &[(0, &deep)]), below);
    let caps = "both kept A 50 0 32767 32767 00000000 32767 32767 00000000 65534 65534 00000000 0";
    rest(list, "depths_capped_then_added", &deep, &plain(b"A", &[20], 65_535, 0), caps);
    let unmasked = "both kept N 2 1 1 1 00000000 1 1 00000000 2 2 3f000000 1";
    let reads: [(u16, &[u8]); 2] = [(0x41, b"A"), (0x81, b"C")];
    list.says("errors_against_the_unmasked_base", listed(both(&one(b'A', 30), &one(b'C', 30)), &reads), unmasked);
    let padded = Strand { depths: vec![0, 0, 3, 3, 3, 0, 0], ..plain(b"NnANCnN", &[2, 2, 30, 2, 30, 2, 2], 0, 0) };
    let one_n = "ab kept NnANCnN 2,2,30,2,30,2,2 0,0,0,0,0,0,0 3 0 00000000 0 0 00000000 3 0 00000000 1";
    list.says("padded_ends_are_no_no_calls", with(&[1, 1, 0], &[(0, &padded)]), one_n);
    let a = Strand { depths: vec![0, 0, 2, 2], ..plain(b"NNAC", &[2, 2, 30, 30], 0, 0) };
    let b = Strand { depths: vec![0, 1, 1, 0], ..plain(b"NCAN", &[2, 20, 20, 2], 0, 0) };
    let two_n = "both kept NNAN 2,2,50,2 0,0,0,0 2 0 00000000 1 0 00000000 3 0 00000000 2";
    rest(list, "depth_of_either_strand", &a, &b, two_n);
    let no_errors = "both kept A 3 0 1 1 00000000 1 1 3f800000 2 2 00000000 0";
    list.says("list_empty", listed(both(&one(b'A', 33), &plain(b"C", &[30], 1, 1)), &[]), no_errors);
}

fn records(list: &mut List) {
    let a = plain(b"ACGTA", &[30, 31, 32, 33, 34], 3, 1);
    let b = plain(b"ACGCa", &[20, 21, 40, 33, 35], 2, 0);
    let uncovered = plain(b"ACG", &[30; 3], 0, 4);
    list.add("a_alone", with(&[3, 3, 0], &[(0, &a)]));
    list.add("a_alone_below", with(&[1], &[(0, &a)]));
    list.add("b_alone", with(&[2, 1, 0], &[(B, &b)]));
    list.add("b_alone_below", with(&[3, 0, 0], &[(B, &b)]));
    list.add("b_uncovered", with(&[3, 3, 0], &[(0, &a), (B, &uncovered)]));
    list.add("a_uncovered", with(&[3, 3, 0], &[(0, &uncovered), (B, &b)]));
    let mut past_the_end = b.clone();
    past_the_end.depths[..3].fill(0);
    list.add("a_shorter_b_covered_past_it", with(&[1, 1, 0], &[(0, &plain(b"ACG", &[30; 3], 1, 0)), (B, &past_the_end)]));
    list.add("a_longer", both(&a, &plain(b"ACT", &[20, 21, 22], 2, 1)));
    list.add("b_longer", both(&plain(b"ACT", &[20, 21, 22], 2, 1), &b));
    list.add("both_below_by_the_third", with(&[5, 3, 3], &[(0, &a), (B, &b)]));
    list.add("both_reach_three_thresholds", with(&[5, 3, 2], &[(0, &a), (B, &b)]));
    list.add("thresholds_at_the_most", with(&[u32::MAX, u32::MAX, u32::MAX], &[(0, &a), (B, &b)]));
    list.add("thresholds_of_zero", with(&[0, 0, 0], &[(0, &a)]));
    list.add("no_strands", with(&[1], &[]));
    list.add("neither_covered", both(&uncovered, &uncovered));
    list.add("strands_of_no_positions", both(&plain(b"", b"", 0, 0), &plain(b"", b"", 0, 0)));
    list.add("a_of_no_positions", both(&plain(b"", b"", 0, 0), &b));
    let bytes: Vec<u8> = (0..=255).collect();
    list.add("unprintable_bases", both(&plain(&bytes, &[30; 256], 1, 0), &plain(&bytes, &[20; 256], 1, 0)));
    let some = plain(b"\x00 !~\x7f\xffnN", &[0, 1, 2, 93, 94, 255, 9, 10], 7, 9);
    list.add("unprintable_bases_alone", with(&[1, 0], &[(B, &some)]));
    let reads: [(u16, &[u8]); 5] = [(0x41, b"ACGTAACGT"), (0x81, b"AGG"), (0, b""), (0xffff, b"NCTCA"), (0x80, b"acgtn")];
    list.add("reads", listed(both(&a, &b), &reads));
    list.add("reads_beside_a_alone", listed(with(&[1, 0], &[(0, &a)]), &reads));
    let ct = annotated(plain(b"CTTGCGaN", &[30, 30, 30, 30, 2, 40, 9, 9], 4, 1), CT, &[1, 1, 0, 0, 1, 0, 1, 0]);
    let ga = annotated(plain(b"CCcAGGAC", &[40, 41, 42, 30, 50, 1, 9, 9], 2, 1), GA, &[0, 0, 0, 1, 0, 1, 1, 1]);
    list.add("annotated", both(&ct, &ga));
    let reads: [(u16, &[u8]); 3] = [(0x41, b"CTTGCGAC"), (0x81, b"CTCATGGC"), (0x83, b"TCCGG")];
    list.add("annotated_reads", listed(both(&ct, &ga), &reads));
    list.add("annotated_the_other_way", listed(both(&ga, &ct), &reads));
    list.add("annotated_alike", listed(both(&ct, &annotated(ga.clone(), CT, &ga.marks)), &reads));
    list.add("annotated_a", both(&ct, &Strand { annotation: 0, ..ga.clone() }));
    list.add("annotated_b_alone", with(&[1, 1, 0], &[(B, &ga)]));
    let deep = long(1024, 32_767, 1);
    list.add("positions_1024_large_sums", both(&deep, &long(1024, 65_535, 40_000)));
    let marked = annotated(long(1024, 1, 0), CT, &[1; 1024]);
    list.add("positions_1024_annotated", listed(both(&marked, &annotated(long(1024, 1, 0), GA, &[0; 1024])), &[(0, b"G")]));
    list.add("reads_1024", listed(both(&plain(b"A", &[30], 1, 0), &plain(b"A", &[30], 1, 0)), &[(0x41, b"C" as &[u8]); 1024]));
}

fn refused(list: &mut List) {
    let a = plain(b"ACGT", &[30; 4], 2, 0);
    let b = plain(b"ACTN", &[20, 40, 30, 2], 1, 0);
    let ct = annotated(a.clone(), CT, &[1; 4]);
    let good = || listed(both(&ct, &annotated(b.clone(), GA, &[0; 4])), &[(0x41, b"ACGT"), (0x81, b"AC")]);
    let of = |n: usize| vec![(0x41, b"A" as &[u8]); n];
    list.add("refused_1_no_bytes", vec![]);
    list.add("refused_1_an_empty_field", with(&[], &[(0, &a)]));
    list.add("refused_1_no_field", without(both(&a, &b), THRESHOLDS));
    list.add("refused_2", with(&[4, 3, 2, 1], &[(0, &a)]));
    list.add("refused_2_before_3", with(&[1, 2, 3, 4], &[(0, &a)]));
    list.add("refused_3", with(&[1, 2], &[(0, &a)]));
    list.add("refused_3_before_4", with(&[1, 2, 3], &[(0, &a)]));
    list.add("refused_4", with(&[3, 1, 2], &[(0, &a)]));
    list.add("refused_7", with(&[1], &[(B, &long(1025, 1, 0))]));
    list.add("refused_7_annotation", both(&a, &annotated(b.clone(), GA, &[0; 1025])));
    list.add("refused_7_before_8", both(&Strand { quals: vec![30; 3], ..a.clone() }, &long(1025, 0, 0)));
    list.add("refused_8", both(&a, &Strand { errors: vec![0; 3], ..b.clone() }));
    list.add("refused_8_empty_annotation", both(&annotated(a.clone(), CT, &[]), &b));
    list.add("refused_8_uncovered", with(&[1], &[(0, &Strand { quals: vec![30; 5], depths: vec![0; 4], ..a.clone() })]));
    list.add("refused_8_before_9", listed(both(&a, &Strand { errors: vec![0; 5], ..b.clone() }), &of(1025)));
    list.add("refused_9", listed(both(&a, &b), &of(1025)));
    list.add("refused_9_no_strands", listed(with(&[1], &[]), &of(1025)));
    list.add("thresholds_before_7", with(&[1, 2], &[(0, &long(1025, 1, 0))]));
    list.add("thresholds_before_8_and_9", listed(with(&[3, 1, 2], &[(0, &Strand { quals: vec![], ..a.clone() })]), &of(1025)));
    let end = |cut: usize| { let bytes = written(&good()); bytes[..bytes.len() - cut].to_vec() };
    list.bytes("refused_13_cut_value", end(1));
    list.bytes("refused_13_cut_length", [end(0), vec![0x30, 2]].concat());
    list.bytes("refused_13_cut_tag", [end(0), vec![0x30]].concat());
    list.add("refused_13_tag", [good(), vec![field(0x31, [0, 0])]].concat());
    list.add("refused_13_order", swapped(good(), 1, 2));
    let mut turned = with(&[1], &[(0, &a)]);
    turned.rotate_left(1);
    list.add("refused_13_thresholds_last", turned);
    list.add("refused_13_strands_exchanged", [vec![thresholds(&[1])], strand(B, &b), strand(0, &a)].concat());
    list.add("refused_13_repeated", [vec![thresholds(&[1])], good()].concat());
    list.add("refused_13_list_repeated", listed(listed(both(&a, &b), &[]), &[]));
    list.add("refused_13_width_of_thresholds", changed(good(), THRESHOLDS, |v| v.push(0)));
    list.add("refused_13_width_of_depths", changed(good(), DEPTHS, |v| v.push(0)));
    list.add("refused_13_width_of_annotation", changed(good(), ANNOTATION + B, Vec::clear));
    list.add("refused_13_width_of_list", changed(good(), LIST, |v| v.push(0)));
    list.add("refused_13_width_of_read", changed(good(), READ, |v| v.truncate(1)));
    list.add("refused_13_pattern", changed(good(), ANNOTATION, |v| v[0] = 2));
    list.add("refused_13_mark", changed(good(), ANNOTATION + B, |v| v[28] = 2));
    list.add("refused_13_strand_without_errors", without(good(), ERRORS));
    list.add("refused_13_strand_without_bases", without(good(), BASES + B));
    list.add("refused_13_annotation_alone", [BASES, QUALS, DEPTHS, ERRORS].iter().fold(good(), |f, &tag| without(f, tag)));
    list.add("refused_13_read_without_list", without(good(), LIST));
    list.add("refused_13_before_thresholds", [with(&[1, 2], &[(0, &a)]), vec![field(0x40, [])]].concat());
    let broken = listed(both(&Strand { quals: vec![1], ..a }, &annotated(long(1025, 1, 0), GA, &[1])), &of(1025));
    list.add("refused_13_before_7_8_9", changed(broken, ANNOTATION + B, |v| v[1] = 2));
    list.bytes("refused_13_before_no_thresholds", vec![0]);
    list.bytes("bytes_65536", filled(65_536));
    list.bytes("refused_13_bytes_65537", filled(65_537));
}

pub fn all() -> Vec<Named> {
    let mut list = List(Vec::new());
    of_the_paper(&mut list);
    records(&mut list);
    refused(&mut list);
    list.0
}

// Where the reference says otherwise than document 01: the names.
pub fn unlike_the_paper() -> (usize, Vec<&'static str>) {
    let all = all();
    let by_hand: Vec<&Named> = all.iter().filter(|n| n.line.is_some()).collect();
    let says = |n: &Named| output(&n.bytes) == format!("{HEADER}{}\n", n.line.unwrap()).into_bytes();
    (by_hand.len(), by_hand.iter().filter(|n| !says(n)).map(|n| n.name).collect())
}

// Each as NAME.tray and NAME.expected; all one after another as `molecules`, each behind its length in four bytes, and `expected`; and
// their names in this order.
pub fn write(directory: &Path) -> std::io::Result<()> {
    std::fs::create_dir_all(directory)?;
    let (mut stdin, mut stdout, mut names) = (Vec::new(), Vec::new(), String::new());
    for Named { name, bytes, .. } in all() {
        let expected = output(&bytes);
        std::fs::write(directory.join(format!("{name}.tray")), &bytes)?;
        std::fs::write(directory.join(format!("{name}.expected")), &expected)?;
        stdin.extend((bytes.len() as u32).to_le_bytes());
        stdin.extend(bytes);
        stdout.extend(expected);
        names += &format!("{name}\n");
    }
    std::fs::write(directory.join("names"), names)?;
    std::fs::write(directory.join("molecules"), stdin)?;
    std::fs::write(directory.join("expected"), stdout)
}
