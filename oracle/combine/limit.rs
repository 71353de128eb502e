// Limits on positions, of the batch product's calls and of the preview's, over numbers and over bytes: beside the Rust, which knows none, where
// all strands are within; and beside the written rule for row 19.
use super::case::{Answer, Case, Outputs, Strand};
use super::ceiling::case_of;
use super::compare::{Names, Run};
use super::draw::{Draw, lengthen};
use super::encoded;
use super::library::Product;
use super::{library, rust, table, written};

const COMBINED: Names = [
    ["limits, combined, with annotations", "positions within limits, with annotations"],
    ["limits, combined, without", "positions within limits, without"],
];

// The counts of calls over numbers and over bytes: as the Rust, and refused as 19.
type Counted = [[&'static str; 2]; 2];

fn names(product: Product) -> Counted {
    match product {
        Product::Batch => [
            ["limits, over numbers, as the Rust", "limits, over numbers, refused by row 19"],
            ["limits, over bytes, as the Rust", "limits, over bytes, refused by row 19"],
        ],
        Product::Preview => [
            ["previews, over numbers, as the Rust", "previews, over numbers, refused by row 19"],
            ["previews, over bytes, as the Rust", "previews, over bytes, refused by row 19"],
        ],
    }
}

// Random records at the limits of both products and at another; now and then one array, or the evidence's, has other positions than the
// strand's others.
pub fn records(run: &mut Run, draw: &mut Draw, count: usize) {
    for _ in 0..count {
        let mut case = case_of(draw);
        let any = draw.limit(&case);
        if draw.chance(8) {
            uneven(draw, &mut case, any);
        }
        let previewed = case.room.map(|places| places.min(Product::Preview.places()));
        for limit in [256, 1024, any] {
            case.limit = limit;
            below_the_record(run, &case);
            record(run, Product::Batch, &case);
            record(run, Product::Preview, &Case { room: previewed, ..case.clone() });
        }
    }
}

// One array of about as many positions as the limit takes, 1,024 at most; of evidence all three, so that bytes can say it.
fn uneven(draw: &mut Draw, case: &mut Case, limit: u16) {
    let n = (usize::from(draw.pick(&[256, limit])) + draw.below(3)).saturating_sub(1).min(1024);
    let array = draw.below(5);
    let strand = if draw.chance(2) { &mut case.a } else { &mut case.b };
    match array {
        4 => (4..7).for_each(|array| lengthen(strand, array, n)),
        _ => lengthen(strand, array, n),
    }
}

// What a case must give by a limit: the table's row, or the Rust's record.
fn ruled(case: &Case, limit: u16) -> (Answer, Outputs) {
    let mut must = Outputs::filled(&case.room);
    let answer = match table::consensus(case, limit) {
        Some(row) => Answer::Refused(row),
        None => rust::told(&rust::duplex_consensus(case), &mut must),
    };
    (answer, must)
}

// A case by one product's calls, over numbers and over bytes. No other row comes before 19 here.
fn record(run: &mut Run, product: Product, case: &Case) {
    let (answer, must) = ruled(case, product.limit(case.limit));
    if written::over_limit(case, product == Product::Preview) != (answer == Answer::Refused(19)) {
        run.wrong(&format!("the written rule for 19, {product:?}: {answer:?} of {case:?}"));
    }
    let [numbers, bytes] = names(product);
    let mut is = Outputs::filled(&case.room);
    let ours = library::consensus(product, case, &mut is);
    count(run, numbers, answer);
    if ours != answer || is != must {
        run.wrong(&format!("the limit {}, over numbers, {product:?}: must be {answer:?}, is {ours:?} of {case:?}", case.limit));
    }
    let encoded = encoded::encoded(case);
    let (mut must_bytes, mut is_bytes) = (encoded::filled(&encoded.room), encoded::filled(&encoded.room));
    encoded::put(&mut must_bytes, answer, case, &must);
    let ours = encoded::consensus(product, &encoded, &mut is_bytes);
    count(run, bytes, answer);
    if ours != answer || is_bytes != must_bytes {
        run.wrong(&format!("the limit {}, over bytes, {product:?}: must be {answer:?}, is {ours:?} of {case:?}", case.limit));
    }
    if let Answer::Both(n) = answer {
        run.count(if product == Product::Preview { "positions previewed, of two strands" } else { "positions within limits, of two strands" }, n);
    }
}

fn count(run: &mut Run, names: [&'static str; 2], answer: Answer) {
    match answer {
        Answer::Refused(19) => run.count(names[1], 1),
        _ => run.count_refusal(answer, names[0]),
    }
}

// The calls that combine two strands which are there: as the record of two, or refused as it is.
fn below_the_record(run: &mut Run, case: &Case) {
    if !case.a.present || !case.b.present {
        return;
    }
    match ruled(case, case.limit) {
        (Answer::Both(n), mut must) => run.combined(COMBINED, case, n, &mut must),
        (Answer::Refused(19), must) => {
            for annotated in [true, false] {
                let mut is = Outputs::filled(&case.room);
                // Without annotations their evidence is not looked at.
                let plain = |s: &Strand| Strand { annotation: 0, ..s.clone() };
                let looked_at = if annotated { case.clone() } else { Case { a: plain(&case.a), b: plain(&case.b), ..case.clone() } };
                if !written::over_limit(&looked_at, false) {
                    continue;
                }
                run.count("limits, combined, refused by row 19", 1);
                let ours = library::combine_strands(case, annotated, &mut is);
                if ours != Answer::Refused(19) || is != must {
                    run.wrong(&format!("combined at the limit {}, annotated {annotated}: {ours:?} of {case:?}", case.limit));
                }
            }
        }
        _ => {}
    }
}

// The comparison must be able to fail: a rule whose limit is one higher has a record where ours has none, at each limit below 1,024.
pub fn self_test() -> usize {
    let differs = |limit: u16| {
        let n = usize::from(limit) + 1;
        let a = Strand {
            present: true,
            bases: vec![b'A'; n],
            quals: vec![30; n],
            depths: vec![1; n],
            errors: vec![0; n],
            ..Strand::default()
        };
        let case = Case { a, b: Strand::default(), listed: false, reads: vec![], bytes: vec![], ceiling: 93, limit, room: [n; 9] };
        let (answer, must) = ruled(&case, limit + 1);
        let mut is = Outputs::filled(&case.room);
        library::duplex_consensus(&case, &mut is) != answer && is != must
    };
    (0..1024).filter(|&limit| differs(limit)).count()
}
