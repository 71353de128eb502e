// Every ceiling beside the written rule, over numbers and over bytes; the rule beside the Rust, at 93; and the faults of the call over bytes.
use super::case::{Answer, Case, Outputs};
use super::compare::{Names, Run};
use super::draw::{CEILINGS_OUTSIDE, Draw};
use super::encoded::{self, Encoded, EncodedStrand, OUTPUT_WIDTHS, WIDTHS};
use super::library::{PRODUCTS, Product};
use super::{library, rust, table, written};

const CEILINGS: std::ops::RangeInclusive<u8> = 3..=93;
const COMBINED: Names = [
    ["every ceiling, combined, with annotations", "positions of every ceiling, with annotations"],
    ["every ceiling, combined, without", "positions of every ceiling, without"],
];

// A case that bytes can say too: no read has more bases than the length of a field leaves.
pub fn case_of(draw: &mut Draw) -> Case {
    loop {
        let case = draw.case();
        if !case.listed || case.reads.iter().all(|read| read.length <= 65_533) {
            return case;
        }
    }
}

fn ruled(case: &Case) -> (Answer, Outputs) {
    let mut must = Outputs::filled(&case.room);
    (written::duplex_consensus(case, &mut must), must)
}

// Random records, each at every ceiling.
pub fn records(run: &mut Run, draw: &mut Draw, count: usize) {
    for _ in 0..count {
        let mut case = case_of(draw);
        let (answer, must) = ruled(&case);
        let mut by_rust = Outputs::filled(&case.room);
        if rust::told(&rust::duplex_consensus(&case), &mut by_rust) != answer || by_rust != must {
            run.wrong(&format!("the written rule at 93: {answer:?} of {case:?}"));
        }
        run.count("the written rule beside the Rust, at 93", 1);
        for ceiling in CEILINGS {
            case.ceiling = ceiling;
            record(run, &case);
        }
    }
}

// A record of numbers, the same as bytes, and where it is of two strands the calls below it.
fn record(run: &mut Run, case: &Case) {
    let (answer, mut must) = ruled(case);
    let mut is = Outputs::filled(&case.room);
    let ours = library::duplex_consensus(case, &mut is);
    run.count("every ceiling, over numbers", 1);
    if ours != answer || is != must {
        run.wrong(&format!("the ceiling {}, over numbers: {ours:?} of {case:?}", case.ceiling));
    }
    let bytes = encoded::encoded(case);
    let (mut must_bytes, mut is_bytes) = (encoded::filled(&bytes.room), encoded::filled(&bytes.room));
    encoded::put(&mut must_bytes, answer, case, &must);
    let ours = encoded::consensus(Product::Batch, &bytes, &mut is_bytes);
    run.count("every ceiling, over bytes", 1);
    if ours != answer || is_bytes != must_bytes {
        run.wrong(&format!("the ceiling {}, over bytes: {ours:?} of {case:?}", case.ceiling));
    }
    if let Answer::Both(n) = answer {
        run.count("positions of every ceiling, of two strands", n);
        run.combined(COMBINED, case, n, &mut must);
    }
}

// ---- faults over bytes: rows 13, 14, 7, 19, 8, 9 and 12

// How many reads a run has; None where it is broken.
fn reads_in(run: &[u8]) -> Option<usize> {
    let (mut rest, mut count) = (run, 0);
    while let [tag, low, high, behind @ ..] = rest {
        let n = usize::from(*low) + 256 * usize::from(*high);
        if *tag != 0x30 || n < 2 || behind.len() < n {
            return None;
        }
        (rest, count) = (&behind[n..], count + 1);
    }
    rest.is_empty().then_some(count)
}

// The arrays of a strand that are looked at, with their widths.
fn looked_at(s: &EncodedStrand) -> impl Iterator<Item = (&[u8], usize)> {
    let arrays = if !s.present { 0 } else if s.annotation == 0 { 4 } else { 5 };
    s.arrays.iter().map(Vec::as_slice).zip(WIDTHS).take(arrays)
}

// The row that refuses what is given by a limit, whatever the outputs.
fn input_refused(m: &Encoded, limit: u16) -> Option<u8> {
    let any = |met: &dyn Fn(&EncodedStrand, usize, usize) -> bool| {
        m.strands.iter().any(|s| looked_at(s).any(|(array, width)| met(s, array.len(), width)))
    };
    let reads = if m.listed { reads_in(&m.run) } else { Some(0) };
    table::first(&[
        (13, reads.is_none() || any(&|_, length, width| length % width != 0)),
        (14, !CEILINGS.contains(&m.ceiling)),
        (7, any(&|_, length, width| length / width > 1024)),
        (19, any(&|_, length, width| length / width > limit.into())),
        (8, any(&|s, length, width| length / width != s.arrays[0].len())),
        (9, reads.is_some_and(|reads| reads > 1024)),
    ])
}

// Whether the outputs are too short for the record of a case.
fn too_short(m: &Encoded, case: &Case) -> bool {
    let (a, b) = (case.a.annotation != 0, case.b.annotation != 0);
    let (n, evidence) = match table::kind(&case.a, &case.b) {
        Answer::Ab(n) => (n, [a, false]),
        Answer::Ba(n) => (n, [b, false]),
        Answer::Both(n) => (n, [a, b]),
        _ => return false,
    };
    (0..5).any(|k| (k < 3 || evidence[k - 3]) && m.room[k] < OUTPUT_WIDTHS[k] * n)
}

// Whether some bytes that are looked at are others.
fn differ(m: &Encoded, other: &Encoded) -> bool {
    let strands = m.strands.iter().zip(&other.strands);
    m.listed && m.run != other.run || strands.into_iter().any(|(s, t)| !looked_at(s).eq(looked_at(t)))
}

const ROWS: [u8; 7] = [9, 13, 7, 8, 12, 14, 19];

fn spoil(draw: &mut Draw, m: &mut Encoded, row: u8) {
    let (s, k, output) = (draw.below(2), draw.below(5), draw.below(5));
    let array = &mut m.strands[s].arrays[k];
    match row {
        // In an array of single bytes none can be cut; then the run is broken.
        13 if WIDTHS[k] > 1 => array.truncate(array.len().saturating_sub(1)),
        13 => m.run.push(0x30),
        14 => m.ceiling = draw.pick(&CEILINGS_OUTSIDE),
        19 => m.limit = draw.limit_below(m.strands[s].arrays[0].len()),
        7 => array.resize(WIDTHS[k] * draw.pick(&[1025, 1026, 1100]), b'A'),
        8 => array.resize(array.len() / WIDTHS[k] * WIDTHS[k] + WIDTHS[k], b'A'),
        9 => m.run = encoded::read(0x41, b"A").repeat(1025),
        _ => m.room[output] = m.room[output].saturating_sub(draw.pick(&[1, 2, 9])),
    }
}

// Inputs with one fault or several, in every combination. Where no row applies, the record is the written rule's.
pub fn faults_of_bytes(run: &mut Run, draw: &mut Draw, count: usize) {
    for turn in 0..count {
        let case = case_of(draw);
        let sound = encoded::encoded(&case);
        let mut m = sound.clone();
        for (bit, row) in ROWS.into_iter().enumerate() {
            if turn >> bit & 1 == 1 {
                spoil(draw, &mut m, row);
            }
        }
        for product in PRODUCTS {
            m.room = std::array::from_fn(|k| m.room[k].min(OUTPUT_WIDTHS[k] * product.places()));
            fault_of_bytes(run, product, &m, &case, &sound);
        }
    }
}

// `m` is the case as bytes, some of them spoiled; `sound` is as it was.
fn fault_of_bytes(run: &mut Run, product: Product, m: &Encoded, case: &Case, sound: &Encoded) {
    let (mut must, mut is) = (encoded::filled(&m.room), encoded::filled(&m.room));
    let answer = match input_refused(m, product.limit(m.limit)) {
        Some(row) => Answer::Refused(row),
        // A byte was cut and another one put in its place: a good input, and not the case's.
        None if differ(m, sound) => return,
        None if too_short(m, case) => Answer::Refused(12),
        None => {
            let (answer, record) = ruled(case);
            encoded::put(&mut must, answer, case, &record);
            answer
        }
    };
    let ours = encoded::consensus(product, m, &mut is);
    run.count_refusal(answer, "faults over bytes that are none");
    if ours != answer || is != must {
        run.wrong(&format!("faults over bytes, {product:?}: must be {answer:?}, is {ours:?} of {m:?}"));
    }
}

// The comparison must be able to fail: a rule whose ceiling is one higher gives other qualities, at each ceiling below 93.
pub fn self_test(draw: &mut Draw) -> usize {
    let mut case = draw.case();
    while ruled(&case).1.quals.iter().take(case.a.bases.len().min(case.b.bases.len())).all(|&qual| qual != 93)
        || !matches!(table::kind(&case.a, &case.b), Answer::Both(_))
    {
        case = draw.case();
    }
    let differs = |ceiling: u8| {
        let (_, must) = ruled(&Case { ceiling: ceiling + 1, ..case.clone() });
        let mut is = Outputs::filled(&case.room);
        library::duplex_consensus(&Case { ceiling, ..case.clone() }, &mut is);
        is != must
    };
    (3..93).filter(|&ceiling| differs(ceiling)).count()
}
