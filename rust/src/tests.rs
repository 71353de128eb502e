mod limits;

use super::methylation::ConversionPattern::{CToT, GToA};
use super::methylation::{ConversionPattern, EvidenceArrays, MethylationEvidence, duplex_methylation_tags};
use super::*;
use crate::bytes::{CountBytes, CountBytesOut, EVIDENCE_BYTES, RecordBytes, RecordBytesOut, StrandBytes, TagBytesOut};
use crate::duplex_caller::{Counts, duplex_metrics};

type Strand<'a> = VanillaConsensusRead<'a>;

fn strand<'a>(bases: &'a [u8], quals: &'a [u8], depths: &'a [u16], errors: &'a [u16]) -> Strand<'a> {
    Strand::new(bases, quals, depths, errors)
}

fn annotated<'a>(s: Strand<'a>, pattern: ConversionPattern, evidence: &[MethylationEvidence]) -> Strand<'a> {
    s.annotated(pattern, evidence.iter().copied().collect())
}

fn evidence(informative: bool, unconverted_count: u32, converted_count: u32) -> MethylationEvidence {
    MethylationEvidence { informative, unconverted_count, converted_count }
}

/// The evidence that a strand of a record keeps.
fn kept(s: &Strand) -> Option<Vec<MethylationEvidence>> {
    s.methylation.as_ref().map(|m| m.evidence.iter().collect())
}

fn consensus<'a>(a: Option<&'a Strand>, b: Option<&'a Strand>) -> Result<Option<DuplexConsensusRead<'a>>, Refusal> {
    DuplexConsensusCaller::duplex_consensus(Settings::default(), a, b, None)
}

fn listed<'a>(a: Option<&'a Strand>, reads: &[(u16, &[u8])]) -> Result<Option<DuplexConsensusRead<'a>>, Refusal> {
    let mut list = SourceReadBuffer::default();
    reads.iter().for_each(|&(flags, bases)| list.push(flags, bases));
    DuplexConsensusCaller::duplex_consensus(Settings::default(), a, a, Some(list.list()))
}

/// The base, quality and errors of one position of two strands of depth 1.
fn position(a: (u8, u8), b: (u8, u8)) -> (char, u8, u16) {
    let (a_base, a_qual, b_base, b_qual) = ([a.0], [a.1], [b.0], [b.1]);
    let (a, b) = (strand(&a_base, &a_qual, &[1], &[0]), strand(&b_base, &b_qual, &[1], &[0]));
    let r = consensus(Some(&a), Some(&b)).unwrap().unwrap();
    assert_eq!((r.ba_consensus.is_some(), r.bases.len(), r.quals.len(), r.errors.len()), (true, 1, 1, 1));
    (char::from(r.bases[0]), r.quals[0], r.errors[0])
}

#[test]
fn positions_of_document_01() {
    assert_eq!(position((b'A', 30), (b'A', 20)), ('A', 50, 0)); // P1
    assert_eq!(position((b'A', 60), (b'A', 60)), ('A', 93, 0)); // P2
    assert_eq!(position((b'A', 33), (b'C', 30)), ('A', 3, 1)); // P3
    assert_eq!(position((b'A', 32), (b'C', 30)), ('N', 2, 1)); // P4
    assert_eq!(position((b'A', 30), (b'C', 30)), ('N', 2, 1)); // P5
    assert_eq!(position((b'A', 30), (b'N', 2)), ('N', 2, 1)); // P6
    assert_eq!(position((b'A', 1), (b'A', 1)), ('N', 2, 0)); // P7
    assert_eq!(position((b'A', 1), (b'A', 2)), ('A', 3, 0));
}

#[test]
fn estimated_errors() {
    let (a, b) = (strand(b"A", &[30], &[1], &[0]), strand(b"C", &[20], &[3], &[5]));
    assert_eq!(consensus(Some(&a), Some(&b)).unwrap().unwrap().errors, [0]); // P8
    let many = strand(b"A", &[30], &[1], &[20_000]);
    assert_eq!(consensus(Some(&many), Some(&many)).unwrap().unwrap().errors, [32_767]); // P9
}

/// P10: with an informative mark, and without one, the strands in either order.
#[test]
fn methylation_call() {
    for (informative, qual) in [(false, 40), (true, 70)] {
        let (own, other) = ([evidence(informative, 3, u32::MAX)], [evidence(true, 7, 9)]);
        let ct = annotated(strand(b"T", &[30], &[1], &[0]), CToT, &own);
        let ga = annotated(strand(b"C", &[40], &[1], &[0]), GToA, &other);
        let (call, clear) = (Some(vec![evidence(true, 3, u32::MAX)]), Some(vec![evidence(false, 0, 0)]));
        let r = consensus(Some(&ct), Some(&ga)).unwrap().unwrap();
        assert_eq!((&r.bases[..], &r.quals[..]), (&b"C"[..], &[qual][..]));
        assert_eq!((kept(&r.ab_consensus), kept(&r.ba_consensus.unwrap())), (call.clone(), clear.clone()));
        let r = consensus(Some(&ga), Some(&ct)).unwrap().unwrap();
        assert_eq!((&r.bases[..], &r.quals[..]), (&b"C"[..], &[qual][..]));
        assert_eq!((kept(&r.ab_consensus), kept(&r.ba_consensus.unwrap())), (clear, call));
    }
}

#[test]
fn printed_example() {
    let a = strand(b"ACGT", &[30; 4], &[2; 4], &[0; 4]);
    let b = strand(b"ACTN", &[20, 40, 30, 2], &[1; 4], &[0; 4]);
    let r = consensus(Some(&a), Some(&b)).unwrap().unwrap();
    let expected = DuplexConsensusRead {
        bases: b"ACNN".to_vec(),
        quals: vec![50, 70, 2, 2],
        errors: vec![0, 0, 1, 1],
        ab_consensus: a.clone(),
        ba_consensus: Some(b.clone()),
        is_ba_only: false,
    };
    assert_eq!(r, expected);
    let m = r.metrics().unwrap();
    assert_eq!((m.aD, m.aM, m.aE.to_bits(), m.bD, m.bM, m.bE.to_bits()), (2, 2, 0, 1, 1, 0));
    assert_eq!((m.cD, m.cM, m.cE.to_bits(), m.nc), (3, 3, 0x3e2a_aaab, 2));
}

#[test]
fn one_strand() {
    let marks = [evidence(true, 1, 0x0102_0304), evidence(false, 3, 4)];
    let s = annotated(strand(b"gN", &[0, 255], &[0, 1], &[65_535, 258]), GToA, &marks);
    let gated = Some(vec![marks[0], evidence(false, 0, 0)]);
    for (a, b, is_ba_only) in [(Some(&s), None, false), (None, Some(&s), true)] {
        let r = consensus(a, b).unwrap().unwrap();
        assert_eq!(
            (r.is_ba_only, &r.bases[..], &r.quals[..], &r.errors[..]),
            (is_ba_only, &s.bases[..], &s.quals[..], &s.errors[..])
        );
        assert_eq!((kept(&r.ab_consensus), &r.ba_consensus), (gated.clone(), &None));
        assert_eq!(r.ab_consensus, DuplexConsensusCaller::gated_single_strand(&s).unwrap());
        let m = r.metrics().unwrap();
        assert_eq!((m.aD, m.aM, m.bD, m.cD, m.nc), (1, 0, 0, 1, 1));
        assert_eq!((m.aE, m.cE), (33_025.0, 33_025.0)); // 32,767 + 258 over 1
    }
}

#[test]
fn no_record() {
    let uncovered = strand(b"ACG", &[30; 3], &[0; 3], &[4; 3]);
    assert_eq!(consensus(None, None), Ok(None));
    assert_eq!(consensus(Some(&uncovered), Some(&uncovered)), Ok(None));
    assert_eq!(listed(Some(&strand(b"", &[], &[], &[])), &[]), Ok(None));
}

/// The longer strand is cut; its evidence and its metrics too.
#[test]
fn shorter_strand() {
    let marks = [evidence(true, 1, 2); 3];
    let a = annotated(strand(b"CCC", &[30; 3], &[5, 6, 7], &[1, 1, 9]), CToT, &marks);
    let b = annotated(strand(b"CC", &[20; 2], &[2, 3], &[0, 0]), GToA, &marks[..2]);
    let r = consensus(Some(&a), Some(&b)).unwrap().unwrap();
    assert_eq!((&r.bases[..], &r.quals[..], &r.errors[..]), (&b"CC"[..], &[50, 50][..], &[1, 1][..]));
    assert_eq!(kept(&r.ab_consensus).as_deref(), Some(&marks[..2]));
    assert_eq!(kept(r.ba_consensus.as_ref().unwrap()).as_deref(), Some(&[evidence(false, 0, 0); 2][..]));
    let m = r.metrics().unwrap();
    assert_eq!((m.aD, m.aM, m.bD, m.bM, m.cD, m.cM), (6, 5, 3, 2, 9, 7));
    assert_eq!((r.combined_depths(), r.depth_range()), (Ok(vec![7, 9]), Ok((7, 9))));
}

#[test]
fn reads() {
    let a = strand(b"AC", &[30; 2], &[1; 2], &[7; 2]);
    let errors = |reads: &[(u16, &[u8])]| listed(Some(&a), reads).unwrap().unwrap().errors;
    assert_eq!(errors(&[]), [0, 0]);
    assert_eq!(errors(&[(0x41, b"AC"), (0x81, b"G"), (0, b"TNA"), (0xffff, b"")]), [2, 0]);
    assert_eq!(errors(&[(0x41, &[b'A'; 100_000])]), [0, 1]);
    assert_eq!(errors(&[(0x41, b"G" as &[u8]); 1024]), [1024, 0]);
    let estimated = consensus(Some(&a), Some(&a)).unwrap().unwrap().errors;
    assert_eq!(estimated, [14, 14]);
    let outside = [SourceRead { flags: 0, offset: 1, length: usize::MAX }];
    let list = Some(SourceReads { reads: &outside, bytes: b"AC" });
    let at = |ceiling| Settings { ceiling, ..Settings::default() };
    let refused = |ceiling| DuplexConsensusCaller::duplex_consensus(at(ceiling), Some(&a), None, list).err();
    assert_eq!([93, 3, 94].map(refused), [Refusal::PartOutside, Refusal::PartOutside, Refusal::CeilingOutside].map(Some));
}

#[test]
fn refusals() {
    let a = strand(b"AC", &[30; 2], &[1; 2], &[0; 2]);
    let refused = |s: &Strand| consensus(Some(&a), Some(s)).err();
    assert_eq!(refused(&Strand { quals: vec![30; 3].into(), ..a.clone() }), Some(Refusal::Ragged));
    assert_eq!(refused(&Strand { errors: vec![].into(), ..a.clone() }), Some(Refusal::Ragged));
    assert_eq!(refused(&annotated(a.clone(), CToT, &[])), Some(Refusal::Ragged));
    assert_eq!(refused(&annotated(a.clone(), CToT, &[evidence(true, 0, 0); 1025])), Some(Refusal::TooLong));
    let long = |n: usize| (vec![b'A'; n], vec![30; n], vec![1; n], vec![0; n]);
    let (bases, quals, depths, errors) = long(1024);
    assert_eq!(consensus(None, Some(&strand(&bases, &quals, &depths, &errors))).unwrap().unwrap().bases, bases);
    let (bases, quals, depths, errors) = long(1025);
    assert_eq!(refused(&strand(&bases, &quals, &depths, &errors)), Some(Refusal::TooLong));
    let many: [(u16, &[u8]); 1025] = [(0, b"A"); 1025];
    assert_eq!(listed(Some(&a), &many), Err(Refusal::TooManyReads));
    assert_eq!(listed(None, &many[..1024]), Ok(None));
}

/// A ceiling holds the qualities of two strands and nothing else; a strand alone keeps its own.
#[test]
fn ceilings() {
    let a = strand(b"ACGTTA", &[30, 60, 46, 33, 40, 1], &[2; 6], &[1, 0, 3, 0, 0, 0]);
    let b = strand(b"ACGANA", &[20, 60, 47, 30, 2, 1], &[3; 6], &[0, 5, 0, 1, 0, 0]);
    let at = |ceiling| Settings { ceiling, ..Settings::default() };
    let of = |ceiling, a, b| DuplexConsensusCaller::duplex_consensus(at(ceiling), a, b, None);
    let usual = of(93, Some(&a), Some(&b)).unwrap().unwrap();
    assert_eq!((&usual.bases[..], &usual.quals[..]), (&b"ACGTNN"[..], &[50, 93, 93, 3, 2, 2][..]));
    for ceiling in 3..=93 {
        let held = DuplexConsensusRead { quals: usual.quals.iter().map(|&qual| qual.min(ceiling)).collect(), ..usual.clone() };
        assert_eq!(of(ceiling, Some(&a), Some(&b)), Ok(Some(held)));
        assert_eq!(of(ceiling, None, Some(&b)), consensus(None, Some(&b)));
        assert_eq!(of(ceiling, None, None), Ok(None));
    }
}

/// A ceiling outside is refused before 7 and 19, whatever record there would be, by every call that takes one.
#[test]
fn ceilings_outside() {
    let a = strand(b"AC", &[30; 2], &[1; 2], &[0; 2]);
    let long = Strand { errors: vec![0; 1025].into(), ..a.clone() };
    let outside = Some(Refusal::CeilingOutside);
    let settings = |ceiling| [0, 1, 2, 1024].map(|limit| Settings { ceiling, limit });
    for settings in [0, 1, 2, 94, 255].into_iter().flat_map(settings) {
        assert_eq!(phred::cap_quality(30, settings.ceiling).err(), outside);
        for s in [None, Some(&a), Some(&long)] {
            assert_eq!(DuplexConsensusCaller::duplex_consensus(settings, s, None, None).err(), outside);
            assert_eq!(DuplexConsensusCaller::duplex_consensus(settings, Some(&a), s, None).err(), outside);
        }
        for s in [&a, &long] {
            assert_eq!(DuplexConsensusCaller::combine_strands(settings, &a, s, false).err(), outside);
            assert_eq!(DuplexConsensusCaller::combine_strands_annotated(settings, s, &a, true).err(), outside);
        }
        // As bytes 13 comes before it, also that of a broken run.
        let counts = CountBytes { depths: &[1, 0, 1, 0], errors: &[0; 4] };
        let sound = StrandBytes { bases: b"AC", quals: &[30; 2], counts, annotation: None };
        let long = StrandBytes { quals: &[30; 1025], ..sound };
        let odd = StrandBytes { counts: CountBytes { errors: &[0; 3], ..counts }, ..sound };
        let refused = |s, reads| bytes::duplex_consensus(settings, s, None, reads).err();
        assert_eq!([None, Some(&sound), Some(&long)].map(|s| refused(s, None)), [outside; 3]);
        assert_eq!(
            (refused(Some(&odd), None), refused(Some(&sound), Some(b"1"))),
            (Some(Refusal::Broken), Some(Refusal::Broken))
        );
    }
}

/// A refused call writes nothing, and places past what is written stay.
#[test]
fn outputs_of_the_caller() {
    let marks = [evidence(true, 1, 2); 2];
    let a = annotated(strand(b"CC", &[30; 2], &[5, 6], &[1, 1]), CToT, &marks);
    for (places, expected) in [(3, Ok(Some(Record { kind: Kind::Ab, positions: 2 }))), (1, Err(Refusal::OutputTooShort))] {
        let (mut bases, mut quals, mut errors) = ([9; 3], [9; 3], [9; 3]);
        let mut out = ConsensusOut { bases: &mut bases[..places], quals: &mut quals, errors: &mut errors };
        let (mut first, mut second) = (EvidenceArrays::clear(3), EvidenceArrays::clear(0));
        let told = DuplexConsensusCaller::duplex_consensus_into(
            Settings::default(),
            Some(&a),
            None,
            None,
            &mut out,
            &mut first.as_out(),
            &mut second.as_out(),
        );
        assert_eq!(told, expected);
        let written = [[b'C', b'C', 9], [9; 3]][usize::from(told.is_err())];
        assert_eq!((bases, quals[2], errors[2]), (written, 9, 9));
        assert_eq!(first.iter().nth(1) == Some(marks[1]), told.is_ok());
    }
}

#[test]
fn metrics_of_arrays() {
    let first = Counts { depths: &[40_000, 3], errors: &[1, 0] };
    let m = duplex_metrics(first, None, b"ANNn", &[0, 1, 65_535, 0]).unwrap();
    assert_eq!((m.aD, m.aM, m.bD, m.bM, m.cD, m.cM, m.nc), (32_767, 3, 0, 0, 32_767, 0, 1));
    assert_eq!((m.aE, m.bE, m.cE), (1.0 / 32_770.0, 0.0, 32_768.0 / 32_770.0));
    let second = Counts { depths: &[40_000], errors: &[0] };
    assert_eq!(duplex_metrics(first, Some(second), b"A", &[0]).unwrap().cD, 65_534);
    assert_eq!(duplex_metrics(first, None, b"A", &[]), Err(Refusal::Ragged));
    assert_eq!(duplex_metrics(Counts { depths: &[0; 1025], errors: &[0; 1025] }, None, b"", &[]), Err(Refusal::TooLong));
    // P12
    assert_eq!(duplex_metrics(Counts { depths: &[12], errors: &[2] }, None, b"A", &[2]).unwrap().cE.to_bits(), 0x3e2a_aaab);
}

fn no_calls(a: &[u16], b: Option<&[u16]>, bases: &[u8]) -> u32 {
    let a = Counts { depths: a, errors: &[0; 4][..a.len()] };
    let b = b.map(|b| Counts { depths: b, errors: &[0; 4][..b.len()] });
    duplex_metrics(a, b, bases, &[0; 4][..bases.len()]).unwrap().nc
}

/// Padded to its own length a strand is a copy with its annotation, to more it has none; refused, there is no vector.
#[test]
fn padded_vectors() {
    let s = annotated(strand(b"CG", &[30, 20], &[4, 5], &[0, 1]), CToT, &[evidence(true, 3, 1), evidence(false, 0, 2)]);
    assert_eq!(s.padded(2, true, b'N', 2).unwrap(), s);
    assert_eq!(s.padded_default(2, false).unwrap(), s);
    let longer = strand(b"CGn", &[30, 20, 2], &[4, 5, 0], &[0, 1, 0]);
    assert_eq!(s.padded_default(3, false).unwrap(), longer);
    assert_eq!(strand(b"", &[], &[], &[]).padded(0, true, b'N', 2).unwrap().len(), 0);
    for (length, refusal) in [(1, Refusal::BelowLength), (MAX_POSITIONS + 1, Refusal::TooLong), (usize::MAX, Refusal::TooLong)] {
        assert_eq!(s.padded(length, true, b'N', 2), Err(refusal));
        assert_eq!(s.padded_default(length, true), Err(refusal));
    }
    assert_eq!(strand(b"CG", &[30], &[4, 5], &[0, 1]).padded(4, true, b'N', 2), Err(Refusal::Ragged));
}

/// Padding is no no-call: N and n at either end, with the depth of either strand or none.
#[test]
fn padding_is_no_no_call() {
    let s = strand(b"ANC", &[30, 2, 30], &[1, 2, 0], &[0; 3]);
    for base in [b'N', b'n'] {
        for left in [true, false] {
            let padded = s.padded(7, left, base, 2).unwrap();
            assert_eq!(consensus(Some(&padded), None).unwrap().unwrap().metrics().unwrap().nc, 1);
        }
    }
    assert_eq!(no_calls(&[0, 1, 0, 0], Some(&[0, 0, 1, 0]), b"NNNN"), 2);
    assert_eq!(no_calls(&[1], Some(&[0, 0, 1]), b"NNNN"), 2);
    assert_eq!(no_calls(&[1, 1, 1, 1], None, b"NnN"), 2);
    assert_eq!(no_calls(&[], None, b"NNN"), 0);
}

/// The calls on bytes say the same as those on numbers.
#[test]
fn as_bytes() {
    let usual = Settings::default();
    let counts = CountBytes { depths: &[5, 0, 6, 0], errors: &[1, 0, 1, 0] };
    let marks = [1, 1, 0, 0, 0, 2, 0, 0, 0, 0, 7, 0, 0, 0, 7, 0, 0, 0];
    let a = StrandBytes { bases: b"CC", quals: &[30; 2], counts, annotation: Some((CToT, &marks)) };
    let (mut bases, mut quals, mut errors, mut first) = ([0; 2], [0; 2], [0; 4], [9; 2 * EVIDENCE_BYTES]);
    let mut out = RecordBytesOut {
        bases: &mut bases,
        quals: &mut quals,
        errors: &mut errors,
        first_evidence: &mut first,
        second_evidence: &mut [],
    };
    let record = bytes::duplex_consensus_into(usual, Some(&a), None, None, &mut out);
    assert_eq!(record, Ok(Some(Record { kind: Kind::Ab, positions: 2 })));
    assert_eq!((&bases, quals, errors), (b"CC", [30; 2], [1, 0, 1, 0]));
    assert_eq!((&first[..9], &first[9..]), (&marks[..9], &[0; 9][..]));
    let made = RecordBytes {
        kind: Kind::Ab,
        bases: bases.into(),
        quals: quals.into(),
        errors: errors.into(),
        first_evidence: Some(first.into()),
        second_evidence: None,
    };
    assert_eq!(bytes::duplex_consensus(usual, Some(&a), None, None), Ok(Some(made.clone())));
    assert_eq!(bytes::duplex_consensus(usual, None, Some(&a), None), Ok(Some(RecordBytes { kind: Kind::Ba, ..made })));
    assert_eq!(bytes::duplex_consensus(usual, None, None, None), Ok(None));
    let words = bytes::metrics(counts, None, &bases, &errors).unwrap();
    let m = duplex_metrics(Counts { depths: &[5, 6], errors: &[1, 1] }, None, b"CC", &[1, 1]).unwrap();
    let expected = [m.aD, m.aM, m.aE.to_bits(), m.bD, m.bM, m.bE.to_bits(), m.cD, m.cM, m.cE.to_bits(), m.nc];
    assert_eq!(words.as_slice(), expected.map(u32::to_le_bytes).as_flattened());
    assert_eq!(bytes::metrics(CountBytes { depths: &[5], ..counts }, None, &bases, &errors), Err(Refusal::Broken));
}

/// So do the tags.
#[test]
fn tags_as_bytes() {
    let of_a = [1, 3, 0, 0, 0, 1, 0, 0, 0, 0, 0, 0, 0, 0, 0, 0, 0, 0];
    let of_b = [0, 0, 0, 0, 0, 0, 0, 0, 0, 2, 0, 0, 1, 0, 2, 0, 0, 0];
    let first = MethylationAnnotation { evidence: EvidenceArrays::new(&[1, 0], &[3, 0], &[1, 0]), pattern: CToT };
    let second = MethylationAnnotation { evidence: EvidenceArrays::new(&[0, 1], &[0, 65_536], &[0, 2]), pattern: GToA };
    let tags = duplex_methylation_tags(b"TA", Some(&first), Some(&second), MethylationMode::EmSeq).unwrap();
    let (mut seq, mut a_mm, mut b_mm, mut mm, mut ml) = ([0; 2], [0; 15], [0; 15], [0; 30], [0; 4]);
    let mut counts = [[0; 4]; 6];
    let [au, at, bu, bt, cu, ct] = &mut counts;
    let mut out = TagBytesOut {
        seq: &mut seq,
        a_mm: &mut a_mm,
        b_mm: &mut b_mm,
        mm: &mut mm,
        ml: &mut ml,
        a: CountBytesOut { unconverted: au, converted: at },
        b: CountBytesOut { unconverted: bu, converted: bt },
        both: CountBytesOut { unconverted: cu, converted: ct },
    };
    let (a, b) = (Some((CToT, &of_a[..])), Some((GToA, &of_b[..])));
    let broken = bytes::methylation_tags_into(b"TA", Some((CToT, &of_a[1..])), b, MethylationMode::EmSeq, &mut out);
    assert_eq!(broken, Err(Refusal::Broken));
    assert_eq!(bytes::methylation_tags(b"TAT", a, b, MethylationMode::EmSeq), Err(Refusal::Ragged));
    let lengths = bytes::methylation_tags_into(b"TA", a, b, MethylationMode::EmSeq, &mut out).unwrap();
    let owned = bytes::methylation_tags(b"TA", a, b, MethylationMode::EmSeq).unwrap();
    assert_eq!((&owned.seq, &owned.mm_ml), (&tags.seq, &tags.mm_ml));
    let (both_mm, both_ml) = tags.mm_ml.unwrap();
    assert_eq!((lengths.positions, &seq[..]), (2, &tags.seq[..]));
    assert_eq!((&mm[..lengths.mm], &ml[..lengths.ml]), (both_mm.as_bytes(), &both_ml[..]));
    assert_eq!(&a_mm[..lengths.a_mm], tags.strands[0].mm.as_deref().unwrap().as_bytes());
    assert_eq!(&b_mm[..lengths.b_mm], tags.strands[1].mm.as_deref().unwrap().as_bytes());
    let [first, second] = &tags.strands[..] else { panic!("two strands") };
    let numbers =
        [&first.unconverted, &first.converted, &second.unconverted, &second.converted, &tags.unconverted, &tags.converted];
    let [a, b] = &owned.strands[..] else { panic!("two strands") };
    assert_eq!((&a.mm, &b.mm), (&first.mm, &second.mm));
    let owned = [&a.unconverted, &a.converted, &b.unconverted, &b.converted, &owned.unconverted, &owned.converted];
    for ((written, owned), numbers) in counts.iter().zip(owned).zip(numbers) {
        assert_eq!(written[..], numbers.iter().flat_map(|n| n.to_le_bytes()).collect::<Vec<u8>>()[..]);
        assert_eq!(owned[..], written[..]);
    }
}

fn reason(a: Option<&Strand>, b: Option<&Strand>, position: usize) -> Result<NoCallReason, Refusal> {
    DuplexConsensusCaller::no_call_reason(a, b, position)
}

/// A strand of one position of depth 1: its base and quality, and the pattern and the mark of its annotation.
type Shown = (u8, u8, Option<(ConversionPattern, bool)>);

fn plain((base, qual): (u8, u8)) -> Shown {
    (base, qual, None)
}

/// The reason, held to the base that the record shows.
fn why(a: Shown, b: Shown) -> NoCallReason {
    let of = |(base, qual, annotation): Shown| {
        let s = Strand {
            bases: vec![base].into(),
            quals: vec![qual].into(),
            depths: vec![1].into(),
            errors: vec![0].into(),
            methylation: None,
        };
        annotation.map_or_else(|| s.clone(), |(pattern, mark)| annotated(s.clone(), pattern, &[evidence(mark, 3, 4)]))
    };
    let (a, b) = (of(a), of(b));
    let told = reason(Some(&a), Some(&b), 0).unwrap();
    let base = consensus(Some(&a), Some(&b)).unwrap().unwrap().bases[0];
    assert_eq!((told.is_no_call(), told == NoCallReason::Called), (base == b'N', base != b'N'));
    told
}

/// Without annotation: document 01's positions, and each limit from both sides.
#[test]
fn reasons_without_a_call() {
    let why = |a, b| why(plain(a), plain(b));
    assert_eq!(why((b'A', 30), (b'A', 20)), NoCallReason::Called); // P1
    assert_eq!(why((b'A', 33), (b'C', 30)), NoCallReason::Called); // P3
    assert_eq!(why((b'A', 32), (b'C', 30)), NoCallReason::CloseQualities); // P4
    assert_eq!(why((b'A', 30), (b'C', 30)), NoCallReason::EqualQualities); // P5
    assert_eq!(why((b'A', 30), (b'N', 2)), NoCallReason::BNoCall); // P6
    assert_eq!(why((b'A', 1), (b'A', 1)), NoCallReason::LowSum); // P7
    assert_eq!(why((b'A', 1), (b'A', 2)), NoCallReason::Called);
    assert_eq!(why((b'A', 30), (b'C', 31)), NoCallReason::CloseQualities);
    assert_eq!(why((b'A', 30), (b'C', 33)), NoCallReason::Called);
    assert_eq!(why((b'A', 0), (b'A', 0)), NoCallReason::LowSum);
    assert_eq!(why((b'A', 0), (b'C', 0)), NoCallReason::EqualQualities);
    // The N reasons come first, and N is the capital alone.
    assert_eq!(why((b'N', 2), (b'A', 2)), NoCallReason::ANoCall);
    assert_eq!(why((b'N', 90), (b'A', 2)), NoCallReason::ANoCall);
    assert_eq!(why((b'N', 1), (b'N', 1)), NoCallReason::BothNoCall);
    assert_eq!(why((b'n', 1), (b'N', 1)), NoCallReason::BNoCall);
    assert_eq!(why((b'n', 1), (b'n', 1)), NoCallReason::LowSum);
    assert_eq!(why((b'n', 2), (b'n', 2)), NoCallReason::Called);
    assert_eq!(why((b'a', 30), (b'A', 30)), NoCallReason::EqualQualities); // case tells bases apart
}

/// P10 with low qualities, and its mirror; the strands in either order.
#[test]
fn reasons_at_a_call() {
    for (own, pattern, other, against) in [(b'T', CToT, b'C', GToA), (b'A', GToA, b'G', CToT), (b't', CToT, b'c', GToA)] {
        let both = |(qual, mark), (confirming, other_mark)| {
            let (one, two) = ((own, qual, Some((pattern, mark))), (other, confirming, Some((against, other_mark))));
            assert_eq!(why(one, two), why(two, one));
            why(one, two)
        };
        assert_eq!(both((30, false), (2, true)), NoCallReason::LowConfirming);
        assert_eq!(both((30, false), (0, false)), NoCallReason::LowConfirming);
        assert_eq!(both((0, false), (3, false)), NoCallReason::Called);
        // With a mark the sum counts.
        assert_eq!(both((30, true), (2, true)), NoCallReason::Called);
        assert_eq!(both((1, true), (1, false)), NoCallReason::LowSum);
        assert_eq!(both((2, true), (1, false)), NoCallReason::Called);
    }
    // The unconverted base is shown: the sum counts, marked or not.
    let (ct, ga) = (|base, qual| (base, qual, Some((CToT, false))), |base, qual| (base, qual, Some((GToA, false))));
    assert_eq!(why(ct(b'C', 1), ga(b'C', 1)), NoCallReason::LowSum);
    assert_eq!(why(ct(b'c', 1), ga(b'C', 2)), NoCallReason::Called);
    assert_eq!(why(ct(b'G', 0), ga(b'G', 2)), NoCallReason::LowSum);
    // Both annotated, and no call: the bases differ.
    assert_eq!(why(ct(b'G', 30), ga(b'C', 28)), NoCallReason::CloseQualities);
    assert_eq!(why(ct(b'T', 30), ga(b'N', 2)), NoCallReason::BNoCall);
    // Annotated alike, or one of them alone: no call.
    assert_eq!(why((b'T', 2, Some((CToT, false))), (b'C', 2, Some((CToT, false)))), NoCallReason::EqualQualities);
    assert_eq!(why((b'T', 4, Some((CToT, false))), (b'C', 2, None)), NoCallReason::CloseQualities);
}

/// Every position of a record of two strands, of one and of none, and past each.
#[test]
fn reasons_by_the_record() {
    let a = strand(b"NACGT", &[30; 5], &[1; 5], &[0; 5]);
    let b = strand(b"NAC", &[30, 30, 2], &[1; 3], &[0; 3]);
    let uncovered = strand(b"NAC", &[30; 3], &[0; 3], &[0; 3]);
    let all = |a, b| [0, 1, 2, 3, 4, 5, 1024, usize::MAX].map(|position| reason(a, b, position).unwrap());
    use NoCallReason::{BothNoCall, Called, Outside, SingleStrand};
    let [one, out] = [SingleStrand, Outside];
    // The shorter strand is the record's length.
    assert_eq!(all(Some(&a), Some(&b)), [BothNoCall, Called, Called, out, out, out, out, out]);
    assert_eq!(all(Some(&b), Some(&a)), [BothNoCall, Called, Called, out, out, out, out, out]);
    // A strand alone keeps its own length, beside a shorter one too, and shows its N without a reason.
    for alone in [all(Some(&a), None), all(None, Some(&a)), all(Some(&a), Some(&uncovered)), all(Some(&uncovered), Some(&a))] {
        assert_eq!(alone, [one, one, one, one, one, out, out, out]);
    }
    assert_eq!(all(None, None), [out; 8]);
    assert_eq!(all(Some(&uncovered), Some(&uncovered)), [out; 8]);
    // Depth past the record alone does not count.
    let late = strand(b"NACGT", &[30; 5], &[0, 0, 0, 1, 1], &[0; 5]);
    assert_eq!(all(Some(&late), Some(&b)), [one, one, one, out, out, out, out, out]);
    let long = strand(&[b'N'; 1024], &[2; 1024], &[1; 1024], &[0; 1024]);
    assert_eq!(reason(Some(&long), Some(&long), 1023), Ok(BothNoCall));
    assert_eq!(reason(Some(&long), Some(&long), 1024), Ok(Outside));
}

/// 13, then 7, then 8, each over both strands, wherever the position is and whether or not there is a record.
#[test]
fn reasons_refused() {
    let a = strand(b"AC", &[30; 2], &[1; 2], &[0; 2]);
    let ragged = Strand { quals: vec![30; 3].into(), ..a.clone() };
    let uncovered = Strand { depths: vec![0; 3].into(), ..a.clone() };
    let long = Strand { errors: vec![0; 1025].into(), ..a.clone() };
    let evidence_ragged = annotated(a.clone(), CToT, &[evidence(true, 0, 0)]);
    let evidence_long = annotated(a.clone(), GToA, &[evidence(true, 0, 0); 1025]);
    for position in [0, 1, 2, usize::MAX] {
        for other in [None, Some(&a), Some(&ragged)] {
            for s in [&ragged, &uncovered, &evidence_ragged] {
                assert_eq!(
                    (reason(Some(s), other, position), reason(other, Some(s), position)),
                    (Err(Refusal::Ragged), Err(Refusal::Ragged))
                );
            }
            for s in [&long, &evidence_long] {
                assert_eq!(
                    (reason(Some(s), other, position), reason(other, Some(s), position)),
                    (Err(Refusal::TooLong), Err(Refusal::TooLong))
                );
            }
        }
        assert_eq!(reason(Some(&long), None, position), consensus(Some(&long), None).map(|_| NoCallReason::Outside));
    }
    // As bytes 13 comes before all else.
    let counts = CountBytes { depths: &[1, 0, 1, 0], errors: &[0; 4] };
    let sound = StrandBytes { bases: b"AC", quals: &[30; 2], counts, annotation: None };
    let odd = StrandBytes { counts: CountBytes { errors: &[0; 3], ..counts }, quals: &[30; 1025], ..sound };
    let cut = StrandBytes { annotation: Some((CToT, &[0; 17])), ..sound };
    let long = StrandBytes { quals: &[30; 1025], ..sound };
    let ragged = StrandBytes { annotation: Some((CToT, &[0; 9])), ..sound };
    for position in [0, usize::MAX] {
        let refused = |a, b| bytes::no_call_reason(a, b, position).err();
        for other in [None, Some(&sound), Some(&long), Some(&ragged)] {
            assert_eq!((refused(Some(&odd), other), refused(other, Some(&cut))), (Some(Refusal::Broken), Some(Refusal::Broken)));
        }
        assert_eq!(refused(Some(&ragged), Some(&long)), Some(Refusal::TooLong));
        assert_eq!(refused(Some(&sound), Some(&ragged)), Some(Refusal::Ragged));
        assert_eq!(refused(Some(&sound), Some(&sound)), None);
    }
}

/// The call on bytes says the same as that on numbers.
#[test]
fn reasons_as_bytes() {
    let (of_a, of_b) = ([0, 200, 255, 0, 0], [1, 0, 0, 0, 0]);
    let marks = |marks: [u8; 5]| marks.map(|mark| [mark, 9, 0, 0, 0, 8, 0, 0, 0]).concat();
    let (a_evidence, b_evidence) = (marks(of_a), marks(of_b));
    let (a_quals, b_quals) = ([30, 1, 40, 30, 2], [2, 1, 40, 28, 30]);
    let counts = CountBytes { depths: &[1, 0, 0, 0, 0, 0, 0, 0, 0, 1], errors: &[0; 10] };
    let a = StrandBytes { bases: b"TTTGN", quals: &a_quals, counts, annotation: Some((CToT, &a_evidence)) };
    let b = StrandBytes { bases: b"CCCCC", quals: &b_quals, counts, annotation: Some((GToA, &b_evidence)) };
    let depths = [1, 0, 0, 0, 256];
    let numbers = |bases, quals, pattern, marks| {
        strand(bases, quals, &depths, &[0; 5]).annotated(pattern, EvidenceArrays::new(marks, &[9; 5], &[8; 5]))
    };
    let (x, y) = (numbers(b"TTTGN", &a_quals, CToT, &of_a), numbers(b"CCCCC", &b_quals, GToA, &of_b));
    use NoCallReason::{ANoCall, Called, CloseQualities, LowConfirming, LowSum, Outside};
    for (position, expected) in [LowConfirming, LowSum, Called, CloseQualities, ANoCall, Outside].into_iter().enumerate() {
        assert_eq!(bytes::no_call_reason(Some(&a), Some(&b), position), Ok(expected));
        assert_eq!(reason(Some(&x), Some(&y), position), Ok(expected));
    }
    assert_eq!(bytes::no_call_reason(None, Some(&b), 4), Ok(NoCallReason::SingleStrand));
}

/// Each case has a sentence of its own.
#[test]
fn reasons_as_numbers_and_text() {
    let sentences = NoCallReason::ALL.map(|reason| reason.to_string());
    assert!(sentences.iter().all(|s| s.ends_with('.') && s.matches('.').count() == 1));
    assert!(sentences.iter().enumerate().all(|(i, s)| !sentences[..i].contains(s)));
    assert!((1..).zip(NoCallReason::ALL).all(|(n, reason)| reason.number() == n));
    assert_eq!(NoCallReason::ALL.iter().filter(|reason| reason.is_no_call()).count(), 7);
}

#[test]
fn refusals_as_numbers_and_text() {
    assert_eq!(Refusal::TooManyReads.to_string(), "over 1,024 reads in one list");
    let numbers: Vec<u8> = (1..=14).chain([19]).collect();
    assert_eq!(Refusal::ALL.map(Refusal::number)[..], numbers[..]);
    assert_eq!(Refusal::ALL.map(|row| refusal::told(row.number(), ())), Refusal::ALL.map(Err));
}
