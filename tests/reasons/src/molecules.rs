//! Molecules by chance: strands of any and of differing lengths, absent, uncovered, covered past the record alone, ragged and overlong.
//! The refusals are held to those of the combination too, and every answer to that by bytes.
use crate::document::{CALLED, MOST_POSITIONS, OUTSIDE, Pattern, SINGLE_STRAND, Strand, reason};
use crate::every::ours;
use crate::{Ceilings, Run, told};
use gedrashiw::bytes::{CountBytes, EVIDENCE_BYTES, RecordBytesOut, StrandBytes};
use gedrashiw::methylation::{EvidenceArrays, EvidenceOut};
use gedrashiw::{ConsensusOut, DuplexConsensusCaller as Caller, Kind, Record, Refusal, VanillaConsensusRead, bytes};

/// Numbers by chance, the same for the same seed.
struct Draw(u64);

impl Draw {
    fn below(&mut self, most: usize) -> usize {
        self.0 = self.0.wrapping_mul(6_364_136_223_846_793_005).wrapping_add(1_442_695_040_888_963_407);
        (self.0 >> 33) as usize % most
    }

    fn once_in(&mut self, times: usize) -> bool {
        self.below(times) == 0
    }

    fn pick<T: Copy>(&mut self, of: &[T]) -> T {
        of[self.below(of.len())]
    }

    fn many<T>(&mut self, n: usize, mut each: impl FnMut(&mut Self) -> T) -> Vec<T> {
        (0..n).map(|_| each(self)).collect()
    }

    fn length(&mut self) -> usize {
        if self.once_in(40) { MOST_POSITIONS - 3 + self.below(6) } else { self.below(30) }
    }

    /// Now and then another length, or one that no array may have.
    fn about(&mut self, n: usize) -> usize {
        match self.below(120) {
            0 => n + 1,
            1 => n.saturating_sub(1),
            2 => MOST_POSITIONS + 1,
            _ => n,
        }
    }

    fn strand(&mut self, n: usize) -> Strand {
        let letters: &[u8] = self.pick(&[b"ACGT".as_slice(), b"CTGA", b"CCTTGGAAcctgaaNn", b"CTN", b"ACGTNacgtnRY*\0\xff"]);
        let most = self.pick(&[4, 7, 40, 256]);
        let lengths: [usize; 7] = std::array::from_fn(|_| self.about(n));
        let mut strand = Strand {
            bases: self.many(lengths[0], |draw| draw.pick(letters)),
            quals: self.many(lengths[1], |draw| draw.below(most) as u8),
            depths: self.many(lengths[2], |draw| draw.pick(&[0, 1, 2, 256, 65_535])),
            errors: self.many(lengths[3], |draw| draw.pick(&[0, 0, 1, 65_535])),
            pattern: self.pick(&[None, Some(Pattern::CToT), Some(Pattern::GToA)]),
            marks: self.many(lengths[4], |draw| draw.pick(&[0, 0, 1, 2, 255])),
            unconverted: self.many(lengths[5], |draw| draw.below(9) as u32),
            converted: self.many(lengths[6], |draw| draw.below(9) as u32),
        };
        if self.once_in(5) {
            strand.depths.fill(0);
            if let Some(last) = strand.depths.last_mut() {
                *last = u16::from(self.once_in(2));
            }
        }
        strand
    }
}

fn as_numbers(strand: &Strand) -> VanillaConsensusRead<'_> {
    let numbers = VanillaConsensusRead::new(&strand.bases, &strand.quals, &strand.depths, &strand.errors);
    let evidence = EvidenceArrays::new(&strand.marks, &strand.unconverted, &strand.converted);
    strand.pattern.map_or(numbers.clone(), |pattern| numbers.annotated(ours(pattern), evidence))
}

/// The depths, errors and evidence of a strand as bytes; none where the three arrays of its evidence differ in length, which bytes cannot.
fn encoded(strand: &Strand) -> Option<[Vec<u8>; 3]> {
    let words = |numbers: &[u16]| numbers.iter().flat_map(|n| n.to_le_bytes()).collect();
    let n = strand.marks.len();
    if strand.pattern.is_some() && (strand.unconverted.len() != n || strand.converted.len() != n) {
        return None;
    }
    let evidence =
        strand.marks.iter().zip(&strand.unconverted).zip(&strand.converted).flat_map(|((&mark, unconverted), converted)| {
            let mut position = [mark; EVIDENCE_BYTES];
            position[1..5].copy_from_slice(&unconverted.to_le_bytes());
            position[5..].copy_from_slice(&converted.to_le_bytes());
            position
        });
    Some([words(&strand.depths), words(&strand.errors), evidence.collect()])
}

fn as_bytes<'a>(strand: &'a Strand, [depths, errors, evidence]: &'a [Vec<u8>; 3]) -> StrandBytes<'a> {
    StrandBytes {
        bases: &strand.bases,
        quals: &strand.quals,
        counts: CountBytes { depths, errors },
        annotation: strand.pattern.map(|pattern| (ours(pattern), &evidence[..])),
    }
}

/// The outputs of the combination, of as many places as a record may have, and the ceilings of its calls.
struct Outputs {
    ceilings: Ceilings,
    bases: Vec<u8>,
    quals: Vec<u8>,
    errors: Vec<u16>,
    error_bytes: Vec<u8>,
    marks: [Vec<u8>; 2],
    counts: [Vec<u32>; 4],
    evidence: [Vec<u8>; 2],
}

impl Outputs {
    fn new() -> Self {
        let n = MOST_POSITIONS;
        Outputs {
            ceilings: Ceilings::default(),
            bases: vec![0; n],
            quals: vec![0; n],
            errors: vec![0; n],
            error_bytes: vec![0; 2 * n],
            marks: [vec![0; n], vec![0; n]],
            counts: std::array::from_fn(|_| vec![0; n]),
            evidence: [vec![0; EVIDENCE_BYTES * n], vec![0; EVIDENCE_BYTES * n]],
        }
    }

    fn combine(&mut self, a: Option<&VanillaConsensusRead>, b: Option<&VanillaConsensusRead>) -> Result<Option<Record>, u8> {
        let mut out = ConsensusOut { bases: &mut self.bases, quals: &mut self.quals, errors: &mut self.errors };
        let ([of_a, of_b], [au, at, bu, bt]) = (&mut self.marks, &mut self.counts);
        let mut first = EvidenceOut { informative: of_a, unconverted_count: au, converted_count: at };
        let mut second = EvidenceOut { informative: of_b, unconverted_count: bu, converted_count: bt };
        let settings = self.ceilings.next();
        Caller::duplex_consensus_into(settings, a, b, None, &mut out, &mut first, &mut second).map_err(Refusal::number)
    }

    /// What refuses the same strands as bytes, if anything does.
    fn refused_by_bytes(&mut self, a: Option<&StrandBytes>, b: Option<&StrandBytes>) -> Option<u8> {
        let [first_evidence, second_evidence] = &mut self.evidence;
        let (bases, quals, errors) = (&mut self.bases, &mut self.quals, &mut self.error_bytes);
        let mut out = RecordBytesOut { bases, quals, errors, first_evidence, second_evidence };
        bytes::duplex_consensus_into(self.ceilings.next(), a, b, None, &mut out).err().map(Refusal::number)
    }

    /// What the record says of a position: a refusal, a reason that is told by the record alone, or whether it shows N.
    fn says(&self, record: Result<Option<Record>, u8>, position: usize) -> Result<Said, u8> {
        Ok(match record? {
            Some(record) if position < record.positions && record.kind == Kind::Both => Said::N(self.bases[position] == b'N'),
            Some(record) if position < record.positions => Said::Reason(SINGLE_STRAND),
            _ => Said::Reason(OUTSIDE),
        })
    }
}

#[derive(Clone, Copy, PartialEq, Debug)]
enum Said {
    Reason(u8),
    N(bool),
}

fn said(reason: u8) -> Said {
    if reason < CALLED { Said::Reason(reason) } else { Said::N(reason > CALLED) }
}

/// The first positions, both sides of each strand's end and of the limit, and the last machine words.
fn asked(a: usize, b: usize) -> impl Iterator<Item = usize> {
    let ends = [a.wrapping_sub(1), a, b.wrapping_sub(1), b, MOST_POSITIONS - 1, MOST_POSITIONS, usize::MAX - 1, usize::MAX];
    (0..a.max(b).min(32)).chain(ends)
}

struct Chance {
    run: Run,
    out: Outputs,
}

impl Chance {
    /// All that is asked of a molecule; where `changed` is a position, its expected record and reason are changed first.
    fn molecule(&mut self, a: Option<&Strand>, b: Option<&Strand>, changed: Option<usize>) {
        let (one, two) = (a.map(as_numbers), b.map(as_numbers));
        let record = self.out.combine(one.as_ref(), two.as_ref());
        let length = |strand: Option<&Strand>| strand.map_or(0, |strand| strand.bases.len());
        for position in asked(length(a), length(b)) {
            let (mut must, mut shows) = (reason(a, b, position), self.out.says(record, position));
            if changed == Some(position) {
                (must, shows) = (Ok(OUTSIDE), Err(7));
            }
            let answer = told(Caller::no_call_reason(one.as_ref(), two.as_ref(), position));
            if answer.map(said) != shows {
                self.run.differs(|| format!("{a:?} {b:?} at {position}: {answer:?} where the record says {shows:?}"));
            }
            if answer != must {
                self.run.differs(|| format!("{a:?} {b:?} at {position}: {answer:?} where document 02 says {must:?}"));
            }
            self.run.count(answer);
        }
        self.by_bytes(a, b);
    }

    /// The same by bytes; and with a byte less in one array, which is refused as the combination refuses it.
    fn by_bytes(&mut self, a: Option<&Strand>, b: Option<&Strand>) {
        let mut parts = [a.and_then(encoded), b.and_then(encoded)];
        if a.is_some() != parts[0].is_some() || b.is_some() != parts[1].is_some() {
            return;
        }
        for cut in [None, Some(0), Some(1), Some(2)] {
            if let (Some(array), [Some(arrays), _] | [None, Some(arrays)]) = (cut, &mut parts) {
                arrays[array].pop();
            }
            let [one, two] = [(a, 0), (b, 1)].map(|(strand, k)| Some(as_bytes(strand?, parts[k].as_ref()?)));
            let refused = self.out.refused_by_bytes(one.as_ref(), two.as_ref());
            let length = |strand: Option<&Strand>| strand.map_or(0, |strand| strand.bases.len());
            for position in asked(length(a), length(b)) {
                let answer = told(bytes::no_call_reason(one.as_ref(), two.as_ref(), position));
                let must = refused.map_or_else(|| reason(a, b, position), Err);
                self.run.by_bytes += 1;
                if answer != must {
                    self.run
                        .differs(|| format!("{a:?} {b:?} at {position}, by bytes, cut {cut:?}: {answer:?}, must be {must:?}"));
                }
            }
        }
    }
}

fn chance() -> Chance {
    Chance { run: Run::default(), out: Outputs::new() }
}

pub fn by_chance(seed: u64, count: usize) -> Run {
    let (mut draw, mut chance) = (Draw(seed), chance());
    for _ in 0..count {
        let n = draw.length();
        let other = if draw.once_in(2) { n } else { draw.length() };
        let (a, b) = (draw.strand(n), draw.strand(other));
        let (there, here) = (!draw.once_in(8), !draw.once_in(8));
        chance.molecule(there.then_some(&a), here.then_some(&b), None);
    }
    chance.run
}

/// How many differences are seen where what the record says and the reason are changed.
pub fn changed() -> u64 {
    let mut chance = chance();
    chance.run.quiet = true;
    let strand = |base: u8| Strand {
        bases: vec![base; 3],
        quals: vec![30; 3],
        depths: vec![1; 3],
        errors: vec![0; 3],
        ..Strand::default()
    };
    chance.molecule(Some(&strand(b'A')), Some(&strand(b'C')), Some(1));
    chance.run.differences
}
