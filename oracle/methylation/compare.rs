// The runs: inputs of many kinds, what each must give by the Rust or by the refusal table, and what ours gives.
use super::calls::{Answer, CALLS, Call, Left};
use super::draw::{Draw, MARKS};
use super::inputs::{COUNTS, Case, Evidence, Simplex};
use std::collections::BTreeMap;
use std::panic::{AssertUnwindSafe, catch_unwind};

// What a call must give where its outputs have room: by the Rust, or the row that refuses what is given. None: the Rust panics.
type Made = Option<Result<Left, u8>>;

fn made(rows: Option<u8>, by_rust: impl FnOnce() -> Left) -> Made {
    match rows {
        Some(row) => Some(Err(row)),
        None => catch_unwind(AssertUnwindSafe(by_rust)).ok().map(Ok),
    }
}

// The lengths of the outputs beside what goes there.
#[derive(Clone, Copy, Debug)]
enum Room {
    Exact,
    Ample,
    // One of those to which something goes is one too short.
    Short(usize),
}

fn room(room: Room, needed: &[usize]) -> Vec<usize> {
    let mut lengths: Vec<usize> = needed.to_vec();
    match room {
        Room::Exact => {}
        Room::Ample => lengths.iter_mut().enumerate().for_each(|(k, n)| *n += 1 + 3 * (k % 3)),
        Room::Short(choice) => {
            let some: Vec<usize> = (0..needed.len()).filter(|&k| needed[k] > 0).collect();
            if let Some(&k) = some.get(choice % some.len().max(1)) {
                lengths[k] -= 1;
            }
        }
    }
    lengths
}

// What must be left of these outputs.
fn must(made: &Result<Left, u8>, before: &Left) -> Left {
    let mut left = before.clone();
    match made {
        Err(row) => left.answer = Answer::Refused(*row),
        Ok(made) if made.lengths().iter().zip(before.lengths()).any(|(&needed, room)| room < needed) => {
            left.answer = Answer::Refused(12);
        }
        Ok(made) => left.put(made),
    }
    left
}

// The outputs before a call; where it is refused, of some length all the same.
fn before(made: &Result<Left, u8>, outputs: Left, kind: Room) -> Left {
    let needed = made.as_ref().map_or_else(|_| vec![3; outputs.lengths().len()], Left::lengths);
    outputs.filled(&room(kind, &needed))
}

// What must be left, and what ours leaves.
fn both(call: Call, case: &Case, kind: Room) -> Option<[Left; 2]> {
    let made = made(call.given_rows(case), || call.by_rust(case))?;
    Some(both_of(call, case, &made, kind))
}

fn both_of(call: Call, case: &Case, made: &Result<Left, u8>, kind: Room) -> [Left; 2] {
    let start = call.in_place(case).unwrap_or_else(|| before(made, call.outputs(), kind));
    let must = must(made, &start);
    let mut is = start;
    call.by_ours(case, &mut is);
    [must, is]
}

fn both_simplex(case: &Simplex, made: &Result<Left, u8>, kind: Room) -> [Left; 2] {
    let mut is = before(made, Simplex::outputs(), kind);
    let must = must(made, &is);
    case.by_ours(&mut is);
    [must, is]
}

#[derive(Default)]
struct Run {
    counts: BTreeMap<&'static str, u64>,
    calls: BTreeMap<&'static str, u64>,
    differences: u64,
}

impl Run {
    fn count(&mut self, name: &'static str, more: usize) {
        *self.counts.entry(name).or_default() += more as u64;
    }

    fn wrong(&mut self, what: impl FnOnce() -> String) {
        self.differences += 1;
        if self.differences <= 5 {
            println!("DIFFERENT: {}", what());
        }
    }

    fn count_answer(&mut self, name: &'static str, left: &Left) {
        *self.calls.entry(name).or_default() += 1;
        match left.answer {
            Answer::Refused(7) => self.count("refused by row 7", 1),
            Answer::Refused(8) => self.count("refused by row 8", 1),
            Answer::Refused(9) => self.count("refused by row 9", 1),
            Answer::Refused(10) => self.count("refused by row 10", 1),
            Answer::Refused(_) => self.count("refused by row 12", 1),
            Answer::NoTag => self.count("strands without a tag", 1),
            Answer::Written(lengths) if name == Call::DuplexTags.name() => {
                self.count("records", 1);
                self.count("records with an MM", usize::from(lengths[3] > 0));
                self.count("bytes of MM", lengths[1] + lengths[2] + lengths[3]);
                self.count("bytes of ML", lengths[4]);
            }
            Answer::Written(lengths) if name == Call::MmMl.name() || name == Call::Mm.name() => {
                self.count("strands with a tag", 1);
                self.count("bytes of MM", lengths[0]);
                self.count("bytes of ML", lengths[1]);
            }
            Answer::Written(_) => {}
        }
    }

    // One call of a case, with outputs of each kind.
    fn check(&mut self, call: Call, case: &Case, kinds: &[Room]) {
        let Some(made) = made(call.given_rows(case), || call.by_rust(case)) else {
            return self.wrong(|| format!("{}: the Rust panics on {case:?}", call.name()));
        };
        // What a call changes in place needs no room.
        let kinds = if call.in_place(case).is_some() { &kinds[..1] } else { kinds };
        for &kind in kinds {
            let [must, is] = both_of(call, case, &made, kind);
            self.count_answer(call.name(), &must);
            if !matches!(must.answer, Answer::Refused(_)) {
                self.count("positions", case.bases.len());
            }
            if must != is {
                self.wrong(|| tell(call, case, kind));
            }
        }
    }

    fn check_simplex(&mut self, case: &Simplex, kinds: &[Room]) {
        const NAME: &str = "annotate_simplex_methylation";
        let Some(made) = made(case.given_rows(), || case.by_rust()) else {
            return self.wrong(|| format!("{NAME}: the Rust panics on {case:?}"));
        };
        for &kind in kinds {
            let [must, is] = both_simplex(case, &made, kind);
            self.count_answer(NAME, &must);
            if !matches!(must.answer, Answer::Refused(_)) {
                self.count("positions annotated", case.len);
                self.count("positions annotated, times reads", case.len * case.reads.len());
            }
            if must != is {
                self.wrong(|| format!("{NAME} of {case:?}\n  {:?} must answer {:?}, answers {:?}", must.differences(&is), must.answer, is.answer));
            }
        }
    }

    // All bytes as bases, with all marks and some counts: alone, and with every way of annotating two strands.
    fn all_positions(&mut self, draw: &mut Draw) {
        let mut places = Vec::new();
        for base in 0..=255u8 {
            for (&a, &b) in MARKS.iter().flat_map(|a| MARKS.iter().map(move |b| (a, b))) {
                for (&u, &c) in COUNTS.iter().flat_map(|u| COUNTS.iter().map(move |c| (u, c))) {
                    places.push((base, [a, b], [u, c]));
                }
            }
        }
        // Not in order, so that letters are passed over.
        for i in 1..places.len() {
            let other = draw.below(i + 1);
            places.swap(i, other);
        }
        for part in places.chunks(1024) {
            for (a, b, mode) in (0..27u8).map(|k| (k / 9, k / 3 % 3, k % 3)) {
                let strand = |s: usize, annotation: u8| Evidence {
                    annotation,
                    marks: part.iter().map(|p| p.1[s]).collect(),
                    unconverted: part.iter().map(|p| p.2[s]).collect(),
                    converted: part.iter().map(|p| p.2[1 - s]).collect(),
                };
                let case = Case { bases: part.iter().map(|p| p.0).collect(), strands: [strand(0, a), strand(1, b)], mode, len: 700 };
                CALLS.iter().for_each(|&call| self.check(call, &case, &[Room::Exact]));
            }
        }
    }

    // Every skip count from 0 to 1,023: so many letters passed over, and then a called one.
    fn all_skips(&mut self, draw: &mut Draw) {
        for skip in 0..1024usize {
            for annotation in [1, 2] {
                let letters: &[u8] = if annotation == 1 { b"Cc" } else { b"Gg" };
                let n = skip + 1;
                let strand = Evidence {
                    annotation,
                    marks: (0..n).map(|i| u8::from(i == skip)).collect(),
                    unconverted: vec![3; n],
                    converted: vec![1; n],
                };
                let bases = draw.many(n, |draw| draw.pick(letters));
                let case = Case { bases, strands: [strand.clone(), strand], mode: 1 + draw.below(2) as u8, len: n };
                [Call::DuplexTags, Call::MmMl, Call::Mm].iter().for_each(|&call| self.check(call, &case, &[Room::Exact, Room::Short(1)]));
            }
        }
    }

    // The ML byte of all pairs of counts to 256, and of pairs about the larger limits.
    fn all_ml(&mut self) {
        let small = (0..257u32).flat_map(|u| (0..257u32).map(move |c| (u, c)));
        let near: Vec<u32> = [0, 1 << 8, 1 << 15, 1 << 16, 1 << 24, 1 << 31, u32::MAX]
            .iter()
            .flat_map(|&n: &u32| (0..5).map(move |k| n.saturating_sub(2).saturating_add(k)))
            .collect();
        let pairs: Vec<(u32, u32)> = small.chain(near.iter().flat_map(|&u| near.iter().map(move |&c| (u, c)))).collect();
        for part in pairs.chunks(1024) {
            for mode in [1, 2] {
                let strand = Evidence {
                    annotation: 1,
                    marks: vec![1; part.len()],
                    unconverted: part.iter().map(|p| p.0).collect(),
                    converted: part.iter().map(|p| p.1).collect(),
                };
                let case = Case { bases: vec![b'C'; part.len()], strands: [strand, Evidence::default()], mode, len: 0 };
                [Call::DuplexTags, Call::MmMl].iter().for_each(|&call| self.check(call, &case, &[Room::Exact]));
            }
        }
    }

    // Random sequences, each call with outputs of exact length, ample ones, and one that is too short.
    fn random(&mut self, draw: &mut Draw, count: usize) {
        for _ in 0..count {
            let mut case = draw.tag_case();
            let kinds = [Room::Exact, Room::Ample, Room::Short(draw.below(11))];
            self.check(Call::DuplexTags, &case, &kinds);
            // Calls of one strand take the first: mostly one with an annotation.
            if case.strands[0].annotation == 0 {
                case.strands.swap(0, 1);
            }
            CALLS[1..].iter().for_each(|&call| self.check(call, &case, &kinds));
        }
    }

    // Inputs with one fault or both, and with outputs that are too short or not.
    fn faults(&mut self, draw: &mut Draw, count: usize) {
        for turn in 0..count {
            let mut case = draw.tag_case();
            for (bit, row) in [7, 8].into_iter().enumerate() {
                if turn >> bit & 1 == 1 {
                    draw.spoil_tags(&mut case, row);
                }
            }
            let kinds = [Room::Ample, Room::Short(draw.below(11))];
            CALLS.iter().for_each(|&call| self.check(call, &case, &kinds));
        }
    }

    fn simplex(&mut self, draw: &mut Draw, count: usize) {
        for turn in 0..count {
            let mut case = draw.simplex();
            // Every other case has faults, in every combination.
            if turn % 2 == 1 {
                for (bit, row) in [7, 9, 10].into_iter().enumerate() {
                    if turn >> (bit + 1) & 1 == 1 {
                        draw.spoil_simplex(&mut case, row);
                    }
                }
            }
            self.check_simplex(&case, &[Room::Exact, Room::Ample, Room::Short(draw.below(3))]);
        }
    }
}

// A difference, in the shortest front part of the case that shows it.
fn tell(call: Call, case: &Case, kind: Room) -> String {
    let differs = |case: &Case| both(call, case, kind).is_none_or(|[must, is]| must != is);
    let small = (0..case.bases.len()).map(|n| case.cut(n)).find(differs).unwrap_or_else(|| case.clone());
    let told = both(call, &small, kind).map(|[must, is]| (must.differences(&is), must.answer, is.answer));
    format!("{} with {kind:?} outputs of {small:?}\n  differences, answer that must be, answer: {told:?}", call.name())
}

// The comparison must be able to fail: in each call that writes all there is, each output in turn is changed at one place.
fn self_test(draw: &mut Draw) -> [usize; 2] {
    let (mut outputs, mut seen) = (0, 0);
    let mut change = |[must, is]: [Left; 2]| {
        let lengths = must.lengths();
        outputs += lengths.len();
        if must != is || lengths.contains(&0) {
            return;
        }
        for k in 0..lengths.len() {
            let mut changed = must.clone();
            let (b, s) = (changed.bytes.len(), changed.shorts.len());
            match k {
                k if k < b => changed.bytes[k][0] ^= 1,
                k if k < b + s => changed.shorts[k - b][0] ^= 1,
                k => changed.words[k - b - s][0] ^= 1,
            }
            seen += usize::from(changed != is);
        }
    };
    let n = 60;
    let strands = [1, 2].map(|annotation| Evidence { marks: vec![1; n], unconverted: vec![2; n], converted: vec![1; n], annotation });
    let case = Case { bases: draw.many(n, |draw| draw.pick(b"CGcg")), strands, mode: 1, len: n };
    for call in CALLS {
        change(both(call, &case, Room::Exact).unwrap());
    }
    let case = Simplex { len: n, ..draw.simplex() };
    let made = made(case.given_rows(), || case.by_rust()).unwrap();
    change(both_simplex(&case, &made, Room::Exact));
    [outputs, seen]
}

pub fn main(seed: u64, count: usize) -> bool {
    let mut run = Run::default();
    run.all_positions(&mut Draw::new(seed));
    run.all_skips(&mut Draw::new(seed + 1));
    run.all_ml();
    run.random(&mut Draw::new(seed + 2), count);
    run.faults(&mut Draw::new(seed + 3), count / 4);
    run.simplex(&mut Draw::new(seed + 4), count);
    let [outputs, seen] = self_test(&mut Draw::new(seed + 5));
    for (name, count) in run.calls.iter().chain(&run.counts) {
        println!("{name:50} {count:>12}");
    }
    println!("self-test: with one place changed in each of {outputs} outputs, {seen} differences");
    let calls = run.calls.values().sum::<u64>();
    println!("{calls} comparisons, {} differences", run.differences);
    run.differences == 0 && calls > 0 && seen == outputs && seen == 28
}
