// The run: the inputs, what each must give by the reference, and what the program gives.
use super::draw::Draw;
use super::encoding::{CAUSES, Molecule, causes, fields, fields_of, molecule, written};
use super::listed::Input;
use super::reference::{ANSWERS, answer, output};
use super::{duplexline, listed, named, random};
use std::collections::BTreeMap;
use std::path::Path;
use std::sync::atomic::{AtomicUsize, Ordering};

struct Difference {
    input: Input,
    pieces: usize,
}

// How often there was what, and the differences.
#[derive(Default)]
struct Tally {
    counts: BTreeMap<(&'static str, String), usize>,
    differences: Vec<Difference>,
}

impl Tally {
    fn count(&mut self, table: &'static str, row: impl Into<String>) {
        *self.counts.entry((table, row.into())).or_default() += 1;
    }

    fn times(&self, table: &'static str, row: &str) -> usize {
        self.counts.get(&(table, row.to_string())).copied().unwrap_or(0)
    }

    fn add(&mut self, other: Tally) {
        other.counts.into_iter().for_each(|(row, n)| *self.counts.entry(row).or_default() += n);
        self.differences.extend(other.differences);
    }

    // What a record is made of.
    fn count_record(&mut self, Molecule { case, .. }: &Molecule, answer: &str) {
        let list = match (case.listed, case.reads.len()) {
            (false, _) => "without a list",
            (true, 0) => "an empty list",
            (true, 1024) => "a list of 1,024",
            (true, _) => "a list",
        };
        self.count("records", list);
        if case.a.bases.len().max(case.b.bases.len()) == 1024 {
            self.count("records", "1,024 positions");
        }
        if answer.starts_with("both") {
            self.count("records of two", match (case.a.annotation, case.b.annotation) {
                (0, 0) => "not annotated",
                (0, _) => "B annotated",
                (_, 0) => "A annotated",
                (1, 1) | (2, 2) => "the same pattern",
                (1, _) => "C to T and G to A",
                _ => "G to A and C to T",
            });
        }
    }

    fn check(&mut self, program: &Path, input: Input, pieces: usize) {
        let must = output(&input.bytes);
        let answer = answer(&must);
        if answer == "refused 13" {
            self.count("causes of 13", if let [cause] = causes(&input.bytes)[..] { cause } else { "several" });
        } else if !answer.starts_with("refused") {
            self.count_record(&molecule(&input.bytes), &answer);
        }
        self.count("inputs", input.group);
        self.count("answers", answer);
        if duplexline::output(program, &input.bytes, pieces) != Ok(must) {
            self.count("different", input.group);
            self.differences.push(Difference { input, pieces });
        }
    }

    fn show(&self) {
        let mut last = "";
        for ((table, row), n) in &self.counts {
            if *table != last {
                println!("{table}");
                last = table;
            }
            println!("    {row:40} {n:>9}");
        }
    }
}

// A smaller input that differs too: one position, then fewer fields.
fn shrunk(bytes: &[u8], differs: impl Fn(&[u8]) -> bool) -> Vec<u8> {
    let mut small = bytes.to_vec();
    if causes(&small).is_empty() {
        let Molecule { thresholds, case } = molecule(&small);
        let longest = case.a.bases.len().max(case.b.bases.len());
        let one = (0..longest).map(|i| written(&fields_of(&thresholds, &case.only(i)))).find(|one| differs(one));
        small = one.unwrap_or(small);
    }
    let mut at = 0;
    loop {
        let (mut fewer, cut) = fields(&small);
        if cut || at >= fewer.len() {
            return small;
        }
        fewer.remove(at);
        let fewer = written(&fewer);
        if differs(&fewer) { small = fewer } else { at += 1 }
    }
}

fn tell(program: &Path, Difference { input, pieces }: &Difference) {
    let ours = |bytes: &[u8]| duplexline::output(program, bytes, *pieces);
    let small = shrunk(&input.bytes, |bytes| ours(bytes) != Ok(output(bytes)));
    let hex: String = small.iter().map(|byte| format!("{byte:02x}")).collect();
    println!("DIFFERENT in {}, {} bytes handed over in {pieces} pieces: {hex}", input.group, small.len());
    println!("  must write {:?}", String::from_utf8_lossy(&output(&small)));
    println!("  writes     {:?}", ours(&small).map(|output| String::from_utf8_lossy(&output).into_owned()));
}

// The comparison must be able to fail: each named input with what it must give changed in three ways.
fn self_test(program: &Path) -> (usize, usize) {
    let changes: [fn(&mut Vec<u8>, usize); 3] = [|o, n| o[n / 2] ^= 1, |o, n| o.truncate(n - 1), |o, _| o.push(b'\n')];
    let (mut seen, mut changed) = (0, 0);
    for input in named::all() {
        let (must, is) = (output(&input.bytes), duplexline::output(program, &input.bytes, 1));
        for change in changes {
            let mut other = must.clone();
            change(&mut other, must.len());
            changed += 1;
            seen += usize::from(is != Ok(other));
        }
    }
    (seen, changed)
}

// Every input, on all processors: the named and the listed ones, then so many random ones.
fn run(seed: u64, count: usize, program: &Path) -> Tally {
    let named = named::all().into_iter().map(|n| Input { group: "named", bytes: n.bytes });
    let mut first: Vec<Option<Input>> = named.chain(listed::all(&mut Draw::new(seed))).map(Some).collect();
    let (all, next) = (first.len() + count, AtomicUsize::new(0));
    let first = std::sync::Mutex::new(&mut first);
    let work = || {
        let mut tally = Tally::default();
        loop {
            let at = next.fetch_add(1, Ordering::Relaxed);
            if at >= all {
                return tally;
            }
            let listed = first.lock().unwrap().get_mut(at).and_then(Option::take);
            let input = listed.unwrap_or_else(|| random::input(seed, at as u64));
            // Some are handed over in pieces.
            tally.check(program, input, if at % 64 == 0 { 3 } else { 1 });
        }
    };
    let mut tally = Tally::default();
    std::thread::scope(|scope| {
        let processors = std::thread::available_parallelism().map_or(1, usize::from);
        let workers: Vec<_> = (0..processors).map(|_| scope.spawn(work)).collect();
        workers.into_iter().for_each(|worker| tally.add(worker.join().unwrap()));
    });
    tally
}

pub fn main(seed: u64, count: usize, program: &Path) -> bool {
    let (lines, unlike) = named::unlike_the_paper();
    println!("{lines} lines worked out by hand, {} of them unlike the reference's {unlike:?}", unlike.len());
    let mut tally = run(seed, count, program);
    tally.show();
    tally.differences.sort_by_key(|d| d.input.bytes.len());
    tally.differences.iter().take(3).for_each(|d| tell(program, d));
    let missing: Vec<&str> = ANSWERS.into_iter().filter(|a| tally.times("answers", a) == 0).collect();
    let unseen: Vec<&str> = CAUSES.into_iter().filter(|c| tally.times("causes of 13", c) == 0).collect();
    println!("answers that did not occur: {missing:?}; causes of 13 that did not occur alone: {unseen:?}");
    let (seen, changed) = self_test(program);
    println!("self-test: with {changed} expected outputs changed, {seen} differences");
    let compared: usize = tally.counts.iter().filter(|((table, _), _)| *table == "inputs").map(|(_, n)| n).sum();
    println!("{compared} comparisons, {} differences", tally.differences.len());
    unlike.is_empty() && tally.differences.is_empty() && missing.is_empty() && unseen.is_empty() && seen == changed
}
