// The runs: inputs of many kinds, what each must give by the Rust or by the refusal table, and what ours gives.
use super::case::{Answer, Case, Outputs, Strand};
use super::draw::{Draw, LETTERS, MARKS, QUALITIES, ROWS};
use super::{ceiling, library, limit, rust, table};
use std::collections::BTreeMap;
use std::panic::{AssertUnwindSafe, catch_unwind};

// What a case must give; None where the Rust panics, writes more than the table says, or stores other strands than the given.
fn expected(case: &Case, out: &mut Outputs) -> Option<Answer> {
    out.fill(&case.room);
    if let Some(row) = table::duplex_consensus(case) {
        return Some(Answer::Refused(row));
    }
    let by_rust = AssertUnwindSafe(|| {
        let record = rust::duplex_consensus(case);
        let given = record.as_ref().is_none_or(|record| rust::stores_the_given(record, case));
        given.then(|| rust::told(&record, out))
    });
    catch_unwind(by_rust).ok()?
}

fn said(case: &Case, out: &mut Outputs) -> Answer {
    out.fill(&case.room);
    library::duplex_consensus(case, out)
}

fn differs(case: &Case) -> bool {
    let (mut must, mut is) = (Outputs::default(), Outputs::default());
    expected(case, &mut must) != Some(said(case, &mut is)) || must != is
}

// A smaller case that differs too: one position, then fewer reads.
fn shrunk(case: &Case) -> Case {
    let longest = case.a.bases.len().max(case.b.bases.len());
    let mut small = (0..longest).map(|i| case.only(i)).find(differs).unwrap_or_else(|| case.clone());
    let mut at = 0;
    while at < small.reads.len() {
        let mut fewer = small.clone();
        fewer.reads.remove(at);
        if differs(&fewer) { small = fewer } else { at += 1 }
    }
    small
}

fn tell(group: &str, case: &Case) {
    let small = shrunk(case);
    let (mut must, mut is) = (Outputs::default(), Outputs::default());
    let (answer, ours) = (expected(&small, &mut must), said(&small, &mut is));
    println!("DIFFERENT in {group}: {small:?}\n  must answer {answer:?}, answers {ours:?}");
    for ((name, must), (_, is)) in must.listed().into_iter().zip(is.listed()) {
        if let Some(at) = (0..must.len()).find(|&i| must[i] != is[i]) {
            println!("  {name}[{at}] must be {}, is {}", must[at], is[at]);
        }
    }
}

// What calls are counted as, and their positions: of strands with annotations, and of strands without.
pub type Names = [[&'static str; 2]; 2];

const AT_93: Names = [
    ["combined, with annotations", "positions combined, with annotations"],
    ["combined, without", "positions combined, without"],
];

#[derive(Default)]
pub struct Run {
    counts: BTreeMap<&'static str, u64>,
    differences: u64,
    told: u64,
    must: Outputs,
    is: Outputs,
}

impl Run {
    pub fn count(&mut self, name: &'static str, more: usize) {
        *self.counts.entry(name).or_default() += more as u64;
    }

    // A refusal by its row, or what else is answered.
    pub fn count_refusal(&mut self, answer: Answer, otherwise: &'static str) {
        let name = match answer {
            Answer::Refused(7) => "refused by row 7",
            Answer::Refused(8) => "refused by row 8",
            Answer::Refused(9) => "refused by row 9",
            Answer::Refused(10) => "refused by row 10",
            Answer::Refused(12) => "refused by row 12",
            Answer::Refused(13) => "refused by row 13",
            Answer::Refused(14) => "refused by row 14",
            Answer::Refused(19) => "refused by row 19",
            _ => otherwise,
        };
        self.count(name, 1);
    }

    fn count_answer(&mut self, case: &Case, answer: Answer) {
        match answer {
            Answer::Refused(_) => return self.count_refusal(answer, "refused by another row"),
            Answer::NoRecord => self.count("records: none", 1),
            Answer::Ab(_) => self.count("records: ab", 1),
            Answer::Ba(_) => self.count("records: ba", 1),
            Answer::Both(_) => self.count("records: both", 1),
        }
        let (Answer::Ab(n) | Answer::Ba(n) | Answer::Both(n)) = answer else { return };
        self.count("positions", n);
        let Answer::Both(n) = answer else { return };
        self.count("positions of two strands", n);
        match (case.listed, case.reads.len()) {
            (false, _) => self.count("positions of two strands: without a list", n),
            (true, 0) => self.count("positions of two strands: an empty list", n),
            (true, reads) => {
                self.count("positions of two strands: a list", n);
                self.count("positions of two strands: a list, times reads", n * reads);
            }
        }
        match (case.a.annotation, case.b.annotation) {
            (0, 0) => self.count("positions of two strands: not annotated", n),
            (0, _) | (_, 0) => self.count("positions of two strands: one annotated", n),
            (a, b) if a == b => self.count("positions of two strands: the same pattern", n),
            _ => {
                self.count("positions of two strands: different patterns", n);
                let calls = (0..n).filter(|&i| self.is.marks[0][i] == 1 || self.is.marks[1][i] == 1).count();
                self.count("positions of two strands: methylation calls", calls);
            }
        }
    }

    fn check(&mut self, group: &'static str, case: &Case) {
        let must = expected(case, &mut self.must);
        let answer = said(case, &mut self.is);
        self.count_answer(case, answer);
        if must != Some(answer) || self.must != self.is {
            self.differences += 1;
            self.told += 1;
            if self.told <= 5 {
                tell(group, case);
            }
        } else if let Answer::Both(n) = answer {
            let mut must = std::mem::take(&mut self.must);
            self.combined(AT_93, case, n, &mut must);
            self.must = must;
        }
    }

    // The calls below the record, on the strands of one that agrees: the outputs that it must have, but the errors of listed reads, which
    // the record counts and these calls leave 0.
    pub fn combined(&mut self, names: Names, case: &Case, n: usize, must: &mut Outputs) {
        if case.listed {
            must.errors[..n].fill(0);
        }
        let plain = case.a.annotation == 0 && case.b.annotation == 0;
        for (annotated, [calls, positions]) in [true, false].into_iter().zip(names) {
            if !annotated && !plain {
                continue;
            }
            self.is.fill(&case.room);
            let answer = library::combine_strands(case, annotated, &mut self.is);
            self.count(calls, 1);
            self.count(positions, n);
            if answer != Answer::Both(n) || *must != self.is {
                self.wrong(&format!("{calls}: {answer:?} of {case:?}"));
            }
        }
    }

    pub fn wrong(&mut self, what: &str) {
        self.differences += 1;
        self.told += 1;
        if self.told <= 5 {
            println!("DIFFERENT: {what}");
        }
    }

    // Every way of annotating two strands, with every pair of marks.
    fn annotations(mut each: impl FnMut([u8; 2], [u8; 2])) {
        for (a, b) in (0..3).flat_map(|a| (0..3).map(move |b| (a, b))) {
            for (&one, &other) in MARKS.iter().flat_map(|one| MARKS.iter().map(move |other| (one, other))) {
                each([a, b], [one, other]);
            }
        }
    }

    // These pairs of bases and qualities as the positions of records, without a list, with an empty one, and with reads.
    fn positions(&mut self, draw: &mut Draw, pairs: &[[u8; 4]], most: usize) {
        for part in pairs.chunks(most) {
            Run::annotations(|annotation, mark| {
                let n = part.len();
                let strand = |draw: &mut Draw, s: usize| Strand {
                    present: true,
                    bases: part.iter().map(|p| p[2 * s]).collect(),
                    quals: part.iter().map(|p| p[2 * s + 1]).collect(),
                    depths: draw.numbers(n).into_iter().map(|depth| depth.max(1)).collect(),
                    errors: draw.numbers(n),
                    annotation: annotation[s],
                    marks: vec![mark[s]; n],
                    unconverted: draw.counts(n),
                    converted: draw.counts(n),
                };
                let (a, b) = (strand(draw, 0), strand(draw, 1));
                let room = draw.room(n, annotation[0] != 0, annotation[1] != 0);
                let mut case = Case { a, b, listed: false, reads: Vec::new(), bytes: Vec::new(), ceiling: 93, limit: 1024, room };
                self.check("all pairs of bases, no list", &case);
                case.listed = true;
                self.check("all pairs of bases, an empty list", &case);
                for read in 0..6 {
                    let shown = |p: &[u8; 4]| [p[0], p[2], b'C', b'G', b'T', b'A', b'N', b'n'][draw.below(8)];
                    case.bytes.extend(part.iter().map(shown).collect::<Vec<_>>());
                    let flags = (draw.flags() & !0x80) | (read % 2 * 0x80);
                    case.reads.push(super::case::Read { flags, offset: usize::from(read) * n, length: n });
                }
                self.check("all pairs of bases, a list", &case);
            });
        }
    }

    fn all_positions(&mut self, draw: &mut Draw) {
        let bytes = |of: &[u8]| of.iter().flat_map(|&a| of.iter().map(move |&b| (a, b))).collect::<Vec<_>>();
        let all: Vec<u8> = (0..=255).collect();
        // All pairs of bytes, each with some pair of qualities.
        let pairs: Vec<_> = bytes(&all).iter().map(|&(a, b)| [a, draw.pick(QUALITIES), b, draw.pick(QUALITIES)]).collect();
        self.positions(draw, &pairs, 1024);
        // The letters in both cases and some other bytes, with all pairs of the qualities.
        let some = [LETTERS, b"RYUu-.*@\x00\xff".as_slice()].concat();
        let quals = bytes(QUALITIES);
        let of = |&(a, b): &(u8, u8)| quals.iter().map(|&(p, q)| [a, p, b, q]).collect::<Vec<_>>();
        let pairs: Vec<_> = bytes(&some).iter().flat_map(of).collect();
        self.positions(draw, &pairs, 1024);
        // The letters as records of one position.
        let few: &[u8] = &[0, 1, 2, 30, 31, 93, 255];
        let quals = bytes(few);
        let of = |&(a, b): &(u8, u8)| quals.iter().map(|&(p, q)| [a, p, b, q]).collect::<Vec<_>>();
        let pairs: Vec<_> = bytes(LETTERS).iter().flat_map(of).collect();
        self.positions(draw, &pairs, 1);
    }

    // Random records, and with each that is made the gate.
    fn records(&mut self, draw: &mut Draw, count: usize) {
        for _ in 0..count {
            let case = draw.case();
            self.check("random records", &case);
            self.gate(draw, &case);
        }
    }

    // The gate on a record that the Rust makes: its stored strands, and ours uncut.
    fn gate(&mut self, draw: &mut Draw, case: &Case) {
        let Ok(Some(record)) = catch_unwind(AssertUnwindSafe(|| rust::duplex_consensus(case))) else { return };
        let largest = |depths: &[u16]| u32::from(depths.iter().copied().max().unwrap_or(0));
        let first = if record.is_ba_only { &case.b } else { &case.a };
        let second: &[u16] = if record.ba_consensus.is_some() { &case.b.depths } else { &[] };
        let stored = record.ba_consensus.as_ref().map_or(0, |ba| largest(&ba.depths));
        for _ in 0..4 {
            let list = draw.thresholds([largest(&record.ab_consensus.depths), stored]);
            let must = table::has_minimum_reads(record.len(), &first.depths, second, &list).map_or_else(
                || {
                    let value = |i: usize| list[i.min(list.len() - 1)];
                    Ok(rust::has_minimum_reads(&record, [value(0), value(1), value(2)]))
                },
                Err,
            );
            let is = library::has_minimum_reads(record.len(), &first.depths, second, &list);
            self.count(if must.is_ok() { "gates" } else { "gates refused" }, 1);
            if must != is {
                self.wrong(&format!("gate of {list:?} over {:?} {second:?}: must be {must:?}, is {is:?}", first.depths));
            }
        }
    }

    // Row 7 of the gate, with thresholds that are refused and that are not.
    fn gate_refusals(&mut self, draw: &mut Draw, count: usize) {
        for _ in 0..count {
            let lengths: [usize; 3] = std::array::from_fn(|_| draw.pick(&[0, 1, 5, 1023, 1024, 1025, 1100]));
            let positions = draw.pick(&[lengths[0], lengths[0], lengths[0] + 1, 1025, 1 << 32, usize::MAX]);
            let (ab, ba) = (draw.numbers(lengths[1]), draw.numbers(lengths[2]));
            let cut = |depths: &[u16]| depths.iter().take(positions).map(|&d| u32::from(d)).max().unwrap_or(0);
            let (a, b) = (cut(&ab), cut(&ba));
            let list = draw.thresholds([a, b]);
            // Document 01: the largest depth within the record's length.
            let must = table::has_minimum_reads(positions, &ab, &ba, &list).map_or_else(
                || {
                    let value = |i: usize| list[i.min(list.len() - 1)];
                    Ok(value(0) <= a + b && value(1) <= a.max(b) && value(2) <= a.min(b))
                },
                Err,
            );
            let is = library::has_minimum_reads(positions, &ab, &ba, &list);
            self.count(if must.is_ok() { "gates of other lengths" } else { "gates refused" }, 1);
            if must != is {
                self.wrong(&format!("gate of {list:?} at {positions} over {ab:?} {ba:?}: must be {must:?}, is {is:?}"));
            }
        }
    }

    // A strand alone, some with faults.
    fn single_strands(&mut self, draw: &mut Draw, count: usize) {
        for _ in 0..count {
            let n = draw.positions();
            let style = draw.below(4);
            let a = draw.strand(n, style);
            let room = draw.room(n, a.annotation != 0, false);
            let mut case = Case { a, b: Strand::default(), listed: false, reads: Vec::new(), bytes: Vec::new(), ceiling: 93, limit: 1024, room };
            if draw.chance(4) {
                for row in [7, 8, 12] {
                    if draw.chance(2) {
                        draw.spoil(&mut case, row);
                    }
                }
            }
            self.must.fill(&case.room);
            self.is.fill(&case.room);
            let must = match table::gated_single_strand(&case.a, &case.room) {
                Some(row) => Answer::Refused(row),
                None => rust::gated_single_strand(&case.a, &mut self.must),
            };
            let is = library::gated_single_strand(&case.a, &mut self.is);
            self.count(if must == is && matches!(is, Answer::Refused(_)) { "single strands refused" } else { "single strands" }, 1);
            if must != is || self.must != self.is {
                self.wrong(&format!("single strand {:?}, outputs {:?}: must be {must:?}, is {is:?}", case.a, case.room));
            }
        }
    }

    // Inputs with one fault or several, in every combination.
    fn refusals(&mut self, draw: &mut Draw, count: usize) {
        for turn in 0..count {
            let mut case = draw.case();
            for (bit, row) in ROWS.into_iter().enumerate() {
                if turn >> bit & 1 == 1 {
                    draw.spoil(&mut case, row);
                }
            }
            self.check("faults", &case);
        }
    }

    // The comparison must be able to fail: in a record with all there is, each output in turn is changed at one place.
    fn self_test(&mut self, draw: &mut Draw) -> usize {
        let mut case = draw.case();
        while !(matches!(table::kind(&case.a, &case.b), Answer::Both(n) if n > 4) && case.a.annotation + case.b.annotation == 3) {
            case = draw.case();
        }
        let (mut must, mut is) = (Outputs::default(), Outputs::default());
        let same = expected(&case, &mut must) == Some(said(&case, &mut is)) && must == is;
        let changes: [fn(&mut Outputs); 9] = [
            |o| o.bases[3] ^= 1,
            |o| o.quals[3] ^= 1,
            |o| o.errors[3] ^= 1,
            |o| o.marks[0][3] ^= 1,
            |o| o.unconverted[0][3] ^= 1,
            |o| o.converted[0][3] ^= 1,
            |o| o.marks[1][3] ^= 1,
            |o| o.unconverted[1][3] ^= 1,
            |o| o.converted[1][3] ^= 1,
        ];
        let seen = |change: fn(&mut Outputs)| {
            let mut changed = must.clone();
            change(&mut changed);
            changed != is
        };
        if same { changes.into_iter().filter(|&change| seen(change)).count() } else { 0 }
    }
}

pub fn main(seed: u64, count: usize) -> bool {
    let mut run = Run::default();
    run.all_positions(&mut Draw::new(seed));
    run.records(&mut Draw::new(seed + 1), count);
    run.refusals(&mut Draw::new(seed + 2), count / 2);
    run.single_strands(&mut Draw::new(seed + 3), count / 10);
    run.gate_refusals(&mut Draw::new(seed + 4), count / 10);
    let seen = run.self_test(&mut Draw::new(seed + 5));
    ceiling::records(&mut run, &mut Draw::new(seed + 6), count / 100);
    ceiling::faults_of_bytes(&mut run, &mut Draw::new(seed + 7), count / 10);
    let other_ceilings = ceiling::self_test(&mut Draw::new(seed + 8));
    limit::records(&mut run, &mut Draw::new(seed + 9), count / 10);
    let other_limits = limit::self_test();
    for (name, count) in &run.counts {
        println!("{name:50} {count:>12}");
    }
    println!(
        "self-test: with one place changed in each of 9 outputs, {seen} differences; with each of 90 ceilings one higher, {other_ceilings}; \
         with each of 1024 limits one higher, {other_limits}"
    );
    let records = run.counts.iter().filter(|(name, _)| !name.starts_with("positions")).map(|(_, n)| n).sum::<u64>();
    println!("{records} comparisons, {} differences", run.differences);
    run.differences == 0 && records > 0 && seen == 9 && other_ceilings == 90 && other_limits == 1024
}
