// A molecule as bytes, and the library's call on it.
use super::case::{Answer, Case, Outputs, Read, Strand};
use super::library::Product;
use gedrashiw::bytes::{CountBytes, RecordBytesOut, StrandBytes, duplex_consensus_into, preview_consensus_into};
use gedrashiw::methylation::ConversionPattern;
use gedrashiw::{Kind, Record, Settings};

// The bytes of a position in each array of a strand: bases, qualities, depths, errors, evidence; and in each output.
pub const WIDTHS: [usize; 5] = [1, 1, 2, 2, 9];
pub const OUTPUT_WIDTHS: [usize; 5] = [1, 1, 2, 9, 9];

#[derive(Clone, Debug)]
pub struct EncodedStrand {
    pub present: bool,
    // 0: none; 1: C to T; 2: G to A.
    pub annotation: u8,
    pub arrays: [Vec<u8>; 5],
}

#[derive(Clone, Debug)]
pub struct Encoded {
    pub strands: [EncodedStrand; 2],
    pub listed: bool,
    pub run: Vec<u8>,
    pub ceiling: u8,
    pub limit: u16,
    // The lengths of the outputs: bases, quals, errors, and the evidence of A and of B.
    pub room: [usize; 5],
}

pub type ByteOutputs = [Vec<u8>; 5];

fn strand(s: &Strand) -> EncodedStrand {
    let numbers = |numbers: &[u16]| numbers.iter().flat_map(|n| n.to_le_bytes()).collect();
    let at = |i: usize| [&[s.marks[i]][..], &s.unconverted[i].to_le_bytes(), &s.converted[i].to_le_bytes()].concat();
    let evidence = (0..s.marks.len()).flat_map(at).collect();
    let arrays = [s.bases.clone(), s.quals.clone(), numbers(&s.depths), numbers(&s.errors), evidence];
    EncodedStrand { present: s.present, annotation: s.annotation, arrays }
}

pub fn read(flags: u16, bases: &[u8]) -> Vec<u8> {
    [&[0x30][..], &(bases.len() as u16 + 2).to_le_bytes(), &flags.to_le_bytes(), bases].concat()
}

// Reads of no list are not looked at: the run is then any.
pub fn encoded(case: &Case) -> Encoded {
    let of = |r: &Read| read(r.flags, &case.bytes[r.offset..r.offset + r.length]);
    let [bases, quals, errors, first, .., second, _, _] = case.room;
    Encoded {
        strands: [&case.a, &case.b].map(strand),
        listed: case.listed,
        run: if case.listed { case.reads.iter().flat_map(of).collect() } else { vec![0x31; case.bytes.len()] },
        ceiling: case.ceiling,
        limit: case.limit,
        room: [bases, quals, 2 * errors, 9 * first, 9 * second],
    }
}

impl EncodedStrand {
    #[inline]
    pub fn lent(&self) -> Option<StrandBytes<'_>> {
        let [bases, quals, depths, errors, evidence] = &self.arrays;
        let annotation = match self.annotation {
            0 => None,
            1 => Some((ConversionPattern::CToT, &evidence[..])),
            _ => Some((ConversionPattern::GToA, &evidence[..])),
        };
        self.present.then_some(StrandBytes { bases, quals, counts: CountBytes { depths, errors }, annotation })
    }
}

// Before a call, each place holds a value of its own.
pub fn filled(room: &[usize; 5]) -> ByteOutputs {
    std::array::from_fn(|k| (0..room[k]).map(|i| (i * 7 + 31 * k + i / 256) as u8 | 2).collect())
}

// What a record of numbers is as bytes.
pub fn put(out: &mut ByteOutputs, answer: Answer, case: &Case, record: &Outputs) {
    let (n, annotated) = match answer {
        Answer::Ab(n) => (n, [case.a.annotation != 0, false]),
        Answer::Ba(n) => (n, [case.b.annotation != 0, false]),
        Answer::Both(n) => (n, [case.a.annotation != 0, case.b.annotation != 0]),
        _ => return,
    };
    let [bases, quals, errors, evidence @ ..] = out;
    bases[..n].copy_from_slice(&record.bases[..n]);
    quals[..n].copy_from_slice(&record.quals[..n]);
    for i in 0..n {
        errors[2 * i..2 * i + 2].copy_from_slice(&record.errors[i].to_le_bytes());
        for s in (0..2).filter(|&s| annotated[s]) {
            evidence[s][9 * i] = record.marks[s][i];
            evidence[s][9 * i + 1..9 * i + 5].copy_from_slice(&record.unconverted[s][i].to_le_bytes());
            evidence[s][9 * i + 5..9 * i + 9].copy_from_slice(&record.converted[s][i].to_le_bytes());
        }
    }
}

#[inline]
pub fn consensus(product: Product, m: &Encoded, out: &mut ByteOutputs) -> Answer {
    let [bases, quals, errors, first_evidence, second_evidence] = out;
    let mut lent = RecordBytesOut { bases, quals, errors, first_evidence, second_evidence };
    let [a, b] = m.strands.each_ref().map(EncodedStrand::lent);
    let list = m.listed.then_some(&m.run[..]);
    let settings = Settings { ceiling: m.ceiling, limit: m.limit };
    let made = match product {
        Product::Batch => duplex_consensus_into(settings, a.as_ref(), b.as_ref(), list, &mut lent),
        Product::Preview => preview_consensus_into(settings, a.as_ref(), b.as_ref(), list, &mut lent),
    };
    match made {
        Err(refusal) => Answer::Refused(refusal.number()),
        Ok(None) => Answer::NoRecord,
        Ok(Some(Record { kind: Kind::Ab, positions })) => Answer::Ab(positions),
        Ok(Some(Record { kind: Kind::Ba, positions })) => Answer::Ba(positions),
        Ok(Some(Record { kind: Kind::Both, positions })) => Answer::Both(positions),
    }
}
