//! Every position of two strands: bases, qualities from 0 to 6, annotations and marks. Neighbours in a strand differ in all of them, so
//! that an answer for another position shows. Nothing is allocated in the loops.
use crate::document::{CALLED, FIRST, Pattern, Shown, first_of, true_reasons};
use crate::{Ceilings, Run, told};
use gedrashiw::bytes::{CountBytes, EVIDENCE_BYTES, StrandBytes, no_call_reason};
use gedrashiw::methylation::{ConversionPattern, EvidenceArrays, EvidenceOut};
use gedrashiw::{ConsensusOut, DuplexConsensusCaller as Caller, Kind, Record, VanillaConsensusRead};

const QUALITIES: u8 = 7;
/// The positions of a strand. The bases of B are all bytes, in so many parts.
const N: usize = 64;
const PARTS: u8 = (256 / N) as u8;
/// By bytes every position of this number is asked too, which is prime to the others.
const BY_BYTES: u32 = 61;

/// An annotation and the mark of the first position: without an annotation there is one way, with one there are two of each pattern.
const WAYS: [Option<(Pattern, u8)>; 5] =
    [None, Some((Pattern::CToT, 0)), Some((Pattern::CToT, 1)), Some((Pattern::GToA, 0)), Some((Pattern::GToA, 1))];

/// Pairs of bytes, of qualities, of ways.
pub const COUNT: u64 = (256 * 256) * (QUALITIES as u64 * QUALITIES as u64) * (WAYS.len() * WAYS.len()) as u64;

/// One strand's arrays, as numbers and as bytes.
struct Arrays {
    bases: [u8; N],
    quals: [u8; N],
    depths: [u16; N],
    depth_bytes: [u8; 2 * N],
    marks: [u8; N],
    evidence: [u8; EVIDENCE_BYTES * N],
}

const ERRORS: [u16; N] = [0; N];
const ERROR_BYTES: [u8; 2 * N] = [0; 2 * N];
const COUNTS: [u32; N] = [0; N];

impl Arrays {
    const NEW: Arrays = Arrays {
        bases: [0; N],
        quals: [0; N],
        depths: [0; N],
        depth_bytes: [0; 2 * N],
        marks: [0; N],
        evidence: [0; EVIDENCE_BYTES * N],
    };

    /// One position has depth.
    fn cover(&mut self, position: usize) {
        self.depths.fill(0);
        self.depth_bytes.fill(0);
        self.depths[position] = 256;
        self.depth_bytes[2 * position + 1] = 1;
    }

    fn mark(&mut self, mark: impl Fn(usize) -> u8) {
        for i in 0..N {
            self.marks[i] = mark(i);
            self.evidence[EVIDENCE_BYTES * i] = mark(i);
        }
    }

    fn strand(&self, pattern: Option<Pattern>) -> VanillaConsensusRead<'_> {
        let strand = VanillaConsensusRead::new(&self.bases, &self.quals, &self.depths, &ERRORS);
        match pattern {
            None => strand,
            Some(pattern) => strand.annotated(ours(pattern), EvidenceArrays::new(&self.marks, &COUNTS, &COUNTS)),
        }
    }

    fn as_bytes(&self, pattern: Option<Pattern>) -> StrandBytes<'_> {
        StrandBytes {
            bases: &self.bases,
            quals: &self.quals,
            counts: CountBytes { depths: &self.depth_bytes, errors: &ERROR_BYTES },
            annotation: pattern.map(|pattern| (ours(pattern), &self.evidence[..])),
        }
    }

    fn shown(&self, pattern: Option<Pattern>, i: usize) -> Shown {
        let annotation = pattern.map(|pattern| (pattern, self.marks[i]));
        Shown { base: self.bases[i], qual: self.quals[i], annotation }
    }
}

pub fn ours(pattern: Pattern) -> ConversionPattern {
    match pattern {
        Pattern::CToT => ConversionPattern::CToT,
        Pattern::GToA => ConversionPattern::GToA,
    }
}

/// What a reason makes of a base: N, or another one.
fn shows_n(reason: u8) -> bool {
    reason >= FIRST
}

struct Every {
    run: Run,
    ceilings: Ceilings,
    until_bytes: u32,
    bases: [u8; N],
    evidence: [[u8; N]; 2],
    counts: [[u32; N]; 4],
}

impl Every {
    fn new() -> Self {
        Every {
            run: Run::default(),
            ceilings: Ceilings::default(),
            until_bytes: BY_BYTES,
            bases: [0; N],
            evidence: [[0; N]; 2],
            counts: [[0; N]; 4],
        }
    }

    /// The bases that the combination writes, at the next ceiling.
    fn combine(&mut self, a: &VanillaConsensusRead, b: &VanillaConsensusRead) {
        let (mut quals, mut errors) = ([0; N], [0; N]);
        let mut out = ConsensusOut { bases: &mut self.bases, quals: &mut quals, errors: &mut errors };
        let ([of_a, of_b], [au, at, bu, bt]) = (&mut self.evidence, &mut self.counts);
        let mut first = EvidenceOut { informative: of_a, unconverted_count: au, converted_count: at };
        let mut second = EvidenceOut { informative: of_b, unconverted_count: bu, converted_count: bt };
        let record =
            Caller::duplex_consensus_into(self.ceilings.next(), Some(a), Some(b), None, &mut out, &mut first, &mut second);
        assert_eq!(record, Ok(Some(Record { kind: Kind::Both, positions: N })));
    }

    /// All positions of two strands; where `changed` is a position, its expected base and reason are changed first.
    fn strands(&mut self, a: &Arrays, b: &Arrays, patterns: [Option<Pattern>; 2], changed: Option<usize>) {
        let (one, two) = (a.strand(patterns[0]), b.strand(patterns[1]));
        let (one_bytes, two_bytes) = (a.as_bytes(patterns[0]), b.as_bytes(patterns[1]));
        self.combine(&one, &two);
        for i in 0..N {
            let (shown_a, shown_b) = (a.shown(patterns[0], i), b.shown(patterns[1], i));
            let holds = true_reasons(shown_a, shown_b);
            let mut must = first_of(holds);
            let mut n = self.bases[i] == b'N';
            if changed == Some(i) {
                must = if must == CALLED { FIRST } else { CALLED };
                n = !n;
            }
            let answer = told(Caller::no_call_reason(Some(&one), Some(&two), i));
            let what = |beside: &str| {
                format!(
                    "{} {} and {} {}, {patterns:?}: {answer:?} {beside}",
                    shown_a.base, shown_a.qual, shown_b.base, shown_b.qual
                )
            };
            if answer.map(shows_n) != Ok(n) {
                self.run.differs(|| what(if n { "where the record shows N" } else { "where the record shows a base" }));
            }
            if answer != Ok(must) {
                self.run.differs(|| what(&format!("where document 02 says {must}")));
            }
            // Behind the N reasons no two hold.
            if holds[3..].iter().filter(|&&holds| holds).count() > 1 {
                self.run.differs(|| what("where two reasons fit"));
            }
            self.run.count(answer);
            self.until_bytes -= 1;
            if self.until_bytes == 0 {
                self.until_bytes = BY_BYTES;
                self.run.by_bytes += 1;
                let by_bytes = told(no_call_reason(Some(&one_bytes), Some(&two_bytes), i));
                if by_bytes != answer {
                    self.run.differs(|| what(&format!("and by bytes {by_bytes:?}")));
                }
            }
        }
    }
}

/// For each position of the strands every choice of the offsets gives another base of A, pair of qualities and pair of marks.
pub fn positions() -> Run {
    let mut every = Every::new();
    let (mut a, mut b) = (Arrays::NEW, Arrays::NEW);
    for (way_a, way_b) in WAYS.iter().flat_map(|a| WAYS.iter().map(move |b| (*a, *b))) {
        let patterns = [way_a.map(|way| way.0), way_b.map(|way| way.0)];
        let first = |way: Option<(Pattern, u8)>| way.map_or(0, |(_, mark)| mark);
        a.mark(|i| (first(way_a) + (i / 2) as u8) % 2);
        b.mark(|i| (first(way_b) + (i / 3) as u8) % 2);
        for (qual_a, qual_b) in (0..QUALITIES).flat_map(|a| (0..QUALITIES).map(move |b| (a, b))) {
            a.quals = std::array::from_fn(|i| (qual_a + i as u8 % QUALITIES) % QUALITIES);
            b.quals = std::array::from_fn(|i| (qual_b + i as u8 / QUALITIES) % QUALITIES);
            for part in 0..PARTS {
                b.bases = std::array::from_fn(|i| (i + usize::from(part) * N) as u8);
                for base in 0..=255_u8 {
                    a.bases = std::array::from_fn(|i| base.wrapping_add((5 * i) as u8));
                    a.cover(usize::from(base) % N);
                    b.cover(N - 1 - usize::from(base) % N);
                    every.strands(&a, &b, patterns, None);
                }
            }
        }
    }
    every.run
}

/// How many differences are seen where a base and a reason are changed.
pub fn changed() -> u64 {
    let mut every = Every::new();
    every.run.quiet = true;
    let (mut a, mut b) = (Arrays::NEW, Arrays::NEW);
    (a.bases, b.bases) = ([b'A'; N], [b'C'; N]);
    (a.quals, b.quals) = ([3; N], [3; N]);
    a.cover(0);
    b.cover(0);
    every.strands(&a, &b, [None, None], Some(N / 2));
    every.run.differences
}
