//! A lab's limit on positions, and the preview.
use super::*;

/// How many positions the arrays of a strand have: bases, qualities, depths, errors, marks, unconverted and converted.
type Lengths = [usize; 7];

/// As bytes a strand has the first five: its evidence is one array, with as many positions as there are marks.
const ENCODED: usize = 5;

const LIMITS: [u16; 9] = [0, 3, 4, 255, 256, 257, 1023, 1024, 65_535];
const SIZES: [usize; 6] = [255, 256, 257, 1023, 1024, 1025];

fn numbers_of(lengths: Lengths, pattern: Option<ConversionPattern>) -> Strand<'static> {
    let [bases, quals, depths, errors, marks, unconverted, converted] = lengths;
    let evidence = EvidenceArrays {
        informative: vec![1; marks].into(),
        unconverted_count: vec![3; unconverted].into(),
        converted_count: vec![4; converted].into(),
    };
    Strand {
        bases: (0..bases).map(|i| b"CTGAN"[i % 5]).collect(),
        quals: (0..quals).map(|i| 20 + (i % 7) as u8).collect(),
        depths: vec![2; depths].into(),
        errors: vec![1; errors].into(),
        methylation: pattern.map(|pattern| MethylationAnnotation { evidence, pattern }),
    }
}

/// The same strand's arrays as bytes.
struct Encoded {
    bases: Vec<u8>,
    quals: Vec<u8>,
    depths: Vec<u8>,
    errors: Vec<u8>,
    evidence: Option<(ConversionPattern, Vec<u8>)>,
}

impl Encoded {
    fn of(s: &Strand) -> Encoded {
        let wide = |numbers: &[u16]| numbers.iter().flat_map(|n| n.to_le_bytes()).collect();
        let evidence = |e: &EvidenceArrays| {
            let count = |counts: &[u32], i| u32::to_le_bytes(counts.get(i).copied().unwrap_or(0));
            let position = |(i, &mark)| [&[mark], &count(&e.unconverted_count, i)[..], &count(&e.converted_count, i)].concat();
            e.informative.iter().enumerate().flat_map(position).collect()
        };
        Encoded {
            bases: s.bases.to_vec(),
            quals: s.quals.to_vec(),
            depths: wide(&s.depths),
            errors: wide(&s.errors),
            evidence: s.methylation.as_ref().map(|m| (m.pattern, evidence(&m.evidence))),
        }
    }

    fn lent(&self) -> StrandBytes<'_> {
        StrandBytes {
            bases: &self.bases,
            quals: &self.quals,
            counts: CountBytes { depths: &self.depths, errors: &self.errors },
            annotation: self.evidence.as_ref().map(|(pattern, evidence)| (*pattern, &evidence[..])),
        }
    }
}

/// Row 7, 19 or 8 of two strands that are there, by the lengths of the arrays that are looked at.
fn row(limit: u16, strands: &[&[usize]]) -> Option<Refusal> {
    let over = |most: usize| strands.iter().any(|lengths| lengths.iter().any(|&n| n > most));
    let ragged = || strands.iter().any(|lengths| lengths.iter().any(|&n| n != lengths[0]));
    if over(1024) {
        Some(Refusal::TooLong)
    } else if over(usize::from(limit)) {
        Some(Refusal::OverLimit)
    } else {
        ragged().then_some(Refusal::Ragged)
    }
}

/// What refuses each call of two annotated strands whose arrays have these lengths, at this limit.
fn refused_alike(limit: u16, of_a: Lengths, of_b: Lengths) {
    let (a, b) = (numbers_of(of_a, Some(CToT)), numbers_of(of_b, Some(GToA)));
    let settings = Settings { limit, ..Settings::default() };
    let must = row(limit, &[&of_a, &of_b]);
    let said = format!("{of_a:?} and {of_b:?} at {limit}");
    let (x, y) = (Some(&a), Some(&b));
    assert_eq!(DuplexConsensusCaller::duplex_consensus(settings, x, y, None).err(), must, "{said}");
    assert_eq!(DuplexConsensusCaller::duplex_consensus(settings, y, x, None).err(), must, "{said}, exchanged");
    assert_eq!(DuplexConsensusCaller::combine_strands_annotated(settings, &a, &b, false).err(), must, "{said}");
    // Annotations are not looked at.
    let plain = row(limit, &[&of_a[..4], &of_b[..4]]);
    assert_eq!(DuplexConsensusCaller::combine_strands(settings, &a, &b, true).err(), plain, "{said}, unannotated");
    // A strand that is not there has no lengths.
    assert_eq!(DuplexConsensusCaller::duplex_consensus(settings, x, None, None).err(), row(limit, &[&of_a]), "{said}, A");
    assert_eq!(DuplexConsensusCaller::duplex_consensus(settings, None, y, None).err(), row(limit, &[&of_b]), "{said}, B");
    let shown = row(limit.min(256), &[&of_a, &of_b]);
    assert_eq!(DuplexConsensusCaller::preview_consensus(settings, x, y, None).err(), shown, "{said}, in a preview");
    let (of_a, of_b) = (&of_a[..ENCODED], &of_b[..ENCODED]);
    let (a, b) = (Encoded::of(&a), Encoded::of(&b));
    let (a, b) = (a.lent(), b.lent());
    let (must, shown) = (row(limit, &[of_a, of_b]), row(limit.min(256), &[of_a, of_b]));
    assert_eq!(bytes::duplex_consensus(settings, Some(&a), Some(&b), None).err(), must, "{said}, as bytes");
    assert_eq!(bytes::preview_consensus(settings, Some(&a), Some(&b), None).err(), shown, "{said}, as bytes in a preview");
    assert_eq!(
        bytes::preview_consensus(settings, Some(&b), None, None).err(),
        row(limit.min(256), &[of_b]),
        "{said}, as bytes, B"
    );
}

/// Strands of so many positions, and of four with so many in one array, A's or B's.
#[test]
fn each_array() {
    for limit in LIMITS {
        for n in SIZES {
            refused_alike(limit, [n; 7], [4; 7]);
            refused_alike(limit, [n; 7], [n; 7]);
            for array in 0..7 {
                let mut lengths = [4; 7];
                lengths[array] = n;
                refused_alike(limit, lengths, [4; 7]);
                refused_alike(limit, [4; 7], lengths);
            }
        }
    }
}

/// A limit of no positions takes strands of none, and a strand of over 1,024 is refused by 7 whatever the limit.
#[test]
fn at_the_ends() {
    let (none, one, long) = (numbers_of([0; 7], None), numbers_of([1; 7], None), numbers_of([1025; 7], None));
    let of = |limit, s| DuplexConsensusCaller::duplex_consensus(Settings { limit, ..Settings::default() }, s, None, None);
    assert_eq!((of(0, None), of(0, Some(&none))), (Ok(None), Ok(None)));
    assert_eq!(of(0, Some(&one)), Err(Refusal::OverLimit));
    assert_eq!(of(1, Some(&one)).unwrap().unwrap().len(), 1);
    for limit in LIMITS {
        assert_eq!(of(limit, Some(&long)), Err(Refusal::TooLong));
        // 7 of one strand before 19 of the other.
        let settings = Settings { limit, ..Settings::default() };
        assert_eq!(DuplexConsensusCaller::combine_strands(settings, &one, &long, false), Err(Refusal::TooLong));
        assert_eq!(DuplexConsensusCaller::combine_strands(settings, &long, &one, false), Err(Refusal::TooLong));
    }
}

/// Every choice of the faults 13, 14, 7, 19, 8, 9 and 12, of bytes: the first is answered, and no output is written to.
#[test]
fn several_faults_of_bytes() {
    let order = [13, 14, 7, 19, 8, 9, 12];
    let many = [0x30, 2, 0, 0, 0].repeat(1025);
    for faults in 0..1 << order.len() {
        let met = |row| faults >> order.iter().position(|&other| other == row).unwrap() & 1 == 1;
        let first = order.into_iter().find(|&row| met(row));
        let (mut a, mut b) = (Encoded::of(&numbers_of([4; 7], Some(CToT))), Encoded::of(&numbers_of([4; 7], None)));
        let settings = Settings { ceiling: if met(14) { 94 } else { 93 }, limit: if met(19) { 3 } else { 4 } };
        if met(7) {
            b.quals = vec![30; 1025];
        }
        if met(8) {
            a.errors = vec![0; 6];
        }
        if met(13) {
            a.depths.push(0);
        }
        let reads = met(9).then_some(&many[..]);
        for preview in [false, true] {
            let (mut bases, mut quals, mut errors, mut evidence) = ([9; 4], [9; 4], [9; 8], [9; 36]);
            let places = if met(12) { 3 } else { 4 };
            let mut out = RecordBytesOut {
                bases: &mut bases[..places],
                quals: &mut quals,
                errors: &mut errors,
                first_evidence: &mut evidence,
                second_evidence: &mut [],
            };
            let call = if preview { bytes::preview_consensus_into } else { bytes::duplex_consensus_into };
            let told = call(settings, Some(&a.lent()), Some(&b.lent()), reads, &mut out);
            assert_eq!(told.err().map(Refusal::number), first, "{faults:b}");
            assert_eq!((bases, quals, errors, evidence) == ([9; 4], [9; 4], [9; 8], [9; 36]), first.is_some(), "{faults:b}");
        }
    }
}

/// And of numbers, which 13 cannot refuse in Rust: 14, 7, 19, 8, 9, 10 and 12.
#[test]
fn several_faults_of_numbers() {
    let order = [14, 7, 19, 8, 9, 10, 12];
    let empty = SourceRead { flags: 0, offset: 0, length: 0 };
    for faults in 0..1 << order.len() {
        let met = |row| faults >> order.iter().position(|&other| other == row).unwrap() & 1 == 1;
        let first = order.into_iter().find(|&row| met(row));
        let settings = Settings { ceiling: if met(14) { 2 } else { 3 }, limit: if met(19) { 3 } else { 4 } };
        let mut a = numbers_of([4; 7], None);
        let mut b = numbers_of([4, 4, 4, 4, 4, 4, if met(7) { 1025 } else { 4 }], Some(GToA));
        if met(8) {
            a.quals.to_mut().pop();
            b.bases.to_mut().pop();
        }
        let mut reads = vec![empty; if met(9) { 1025 } else { 3 }];
        reads[2].length = usize::from(met(10));
        let list = Some(SourceReads { reads: &reads, bytes: &[] });
        for preview in [false, true] {
            let (mut bases, mut quals, mut errors, mut evidence) = ([9; 4], [9; 4], [9; 4], EvidenceArrays::clear(4));
            let places = if met(12) { 3 } else { 4 };
            let mut out = ConsensusOut { bases: &mut bases, quals: &mut quals, errors: &mut errors[..places] };
            let call = if preview {
                DuplexConsensusCaller::preview_consensus_into
            } else {
                DuplexConsensusCaller::duplex_consensus_into
            };
            let mut none = EvidenceArrays::clear(0);
            let told = call(settings, Some(&a), Some(&b), list, &mut out, &mut none.as_out(), &mut evidence.as_out());
            assert_eq!(told.err().map(Refusal::number), first, "{faults:b}");
            assert_eq!((bases, quals, errors) == ([9; 4], [9; 4], [9; 4]), first.is_some(), "{faults:b}");
        }
    }
}

/// Up to 256 positions a preview gives what the batch product gives, refusals included, with outputs of 256 places.
#[test]
fn as_the_batch() {
    let mut reads = SourceReadBuffer::default();
    reads.push(0x41, &b"CTGAC".repeat(60));
    reads.push(0x81, b"CCGGTN");
    let run = [&[0x30, 8, 0, 0x81, 0][..], b"CCGGTN"].concat();
    let mut given = 0;
    for limit in [0, 1, 255, 256, 257, 1024] {
        let settings = Settings { limit, ..Settings::default() };
        for (n, m) in [0, 1, 2, 255, 256].into_iter().flat_map(|n| [0, 1, 255, 256].map(|m| (n, m))) {
            for patterns in [[None, None], [Some(CToT), Some(GToA)], [None, Some(CToT)]] {
                let (a, b) = (numbers_of([n; 7], patterns[0]), numbers_of([m; 7], patterns[1]));
                let (x, y) = (Encoded::of(&a), Encoded::of(&b));
                let (x, y) = (x.lent(), y.lent());
                for listed in [false, true] {
                    for (a, b) in [(Some(&a), Some(&b)), (Some(&a), None), (None, Some(&b))] {
                        let list = || listed.then(|| reads.list());
                        let batch = DuplexConsensusCaller::duplex_consensus(settings, a, b, list());
                        assert_eq!(DuplexConsensusCaller::preview_consensus(settings, a, b, list()), batch);
                        given += usize::from(matches!(batch, Ok(Some(_))));
                        let (x, y) = (a.map(|_| &x), b.map(|_| &y));
                        let run = listed.then_some(&run[..]);
                        let batch = bytes::duplex_consensus(settings, x, y, run);
                        assert_eq!(bytes::preview_consensus(settings, x, y, run), batch);
                        let mut room = ([0; 256], [0; 256], [0; 512], [0; 9 * 256], [0; 9 * 256]);
                        let (bases, quals, errors, first, second) =
                            (&mut room.0, &mut room.1, &mut room.2, &mut room.3, &mut room.4);
                        let mut out = RecordBytesOut { bases, quals, errors, first_evidence: first, second_evidence: second };
                        let shown = bytes::preview_consensus_into(settings, x, y, run, &mut out);
                        let positions = batch.as_ref().map(|record| record.as_ref().map(|record| record.bases.len()));
                        assert_eq!(
                            shown.map(|record| record.map(|record| record.positions)),
                            positions.map_err(|&refusal| refusal)
                        );
                    }
                }
            }
        }
    }
    assert!(given > 1000);
}

/// Over 256 the preview refuses what the batch product takes, and a lab's own limit below 256 is the preview's too.
#[test]
fn over_the_preview() {
    for n in [257, 1024] {
        let s = numbers_of([n; 7], Some(CToT));
        let encoded = Encoded::of(&s);
        for settings in [1024, 1025, 65_535].map(|limit| Settings { limit, ..Settings::default() }) {
            assert_eq!(DuplexConsensusCaller::duplex_consensus(settings, Some(&s), None, None).unwrap().unwrap().len(), n);
            assert_eq!(DuplexConsensusCaller::preview_consensus(settings, Some(&s), None, None), Err(Refusal::OverLimit));
            assert_eq!(bytes::duplex_consensus(settings, None, Some(&encoded.lent()), None).unwrap().unwrap().bases.len(), n);
            assert_eq!(bytes::preview_consensus(settings, None, Some(&encoded.lent()), None), Err(Refusal::OverLimit));
        }
    }
    let s = numbers_of([101; 7], None);
    let encoded = Encoded::of(&s);
    let of = |limit| {
        let settings = Settings { limit, ..Settings::default() };
        let numbers = DuplexConsensusCaller::preview_consensus(settings, Some(&s), None, None).err();
        (numbers, bytes::preview_consensus(settings, Some(&encoded.lent()), None, None).err())
    };
    assert_eq!((of(100), of(101)), ((Some(Refusal::OverLimit), Some(Refusal::OverLimit)), (None, None)));
}
