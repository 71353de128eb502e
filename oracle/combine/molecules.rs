// The molecules that are measured.
use super::case::{Case, Read, Strand};
use super::draw::Draw;

#[derive(Clone, Copy)]
pub struct Kind {
    pub positions: usize,
    // None: no list.
    pub reads: Option<usize>,
    pub annotated: bool,
}

// A molecule as a sequencer gives it: strands that mostly agree, few N, shallow depths; where annotated, A shows most C as T and
// B most G as A; reads with some errors, half of them second of their pair.
pub fn molecule(draw: &mut Draw, kind: Kind) -> Case {
    let n = kind.positions;
    let truth: Vec<u8> = (0..n).map(|_| draw.pick(b"ACGT")).collect();
    let shown = |draw: &mut Draw, base: u8, from: u8, to: u8| match draw.below(100) {
        0 => b'N',
        1 => draw.pick(b"ACGT"),
        _ if kind.annotated && base == from && !draw.chance(5) => to,
        _ => base,
    };
    let strand = |draw: &mut Draw, annotation: u8, from: u8, to: u8| Strand {
        present: true,
        bases: truth.iter().map(|&base| shown(draw, base, from, to)).collect(),
        quals: (0..n).map(|_| 20 + draw.below(60) as u8).collect(),
        depths: (0..n).map(|_| 3 + draw.below(8) as u16).collect(),
        errors: (0..n).map(|_| u16::from(draw.chance(20))).collect(),
        annotation: if kind.annotated { annotation } else { 0 },
        marks: truth.iter().map(|&base| u8::from(base == from)).collect(),
        unconverted: (0..n).map(|_| draw.below(9) as u32).collect(),
        converted: (0..n).map(|_| draw.below(9) as u32).collect(),
    };
    let (a, b) = (strand(draw, 1, b'C', b'T'), strand(draw, 2, b'G', b'A'));
    let (mut reads, mut bytes) = (Vec::new(), Vec::new());
    for read in 0..kind.reads.unwrap_or(0) {
        let last = read % 2 == 1;
        reads.push(Read { flags: if last { 0x91 } else { 0x41 }, offset: bytes.len(), length: n });
        let own = if last { &b.bases } else { &a.bases };
        bytes.extend(own.iter().map(|&base| if draw.chance(100) { draw.pick(b"ACGTN") } else { base }));
    }
    Case { a, b, listed: kind.reads.is_some(), reads, bytes, ceiling: 93, limit: 1024, room: [n; 9] }
}
