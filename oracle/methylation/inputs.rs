// What the methylation calls are given, and random choices of it.
use super::case::Read;
use super::draw::{Draw, LETTERS, MARKS};

// A strand's annotation with its evidence. Without an annotation the arrays are not looked at.
#[derive(Clone, Debug, Default)]
pub struct Evidence {
    // 0: none; 1: C to T; 2: G to A.
    pub annotation: u8,
    pub marks: Vec<u8>,
    pub unconverted: Vec<u32>,
    pub converted: Vec<u32>,
}

// A sequence and the evidence of two strands. Calls of one strand take the first.
#[derive(Clone, Debug, Default)]
pub struct Case {
    pub bases: Vec<u8>,
    pub strands: [Evidence; 2],
    // 0: Disabled; 1: EM-Seq; 2: TAPs.
    pub mode: u8,
    // A length to truncate to.
    pub len: usize,
}

// Of annotate_simplex_methylation.
#[derive(Clone, Debug, Default)]
pub struct Simplex {
    pub len: usize,
    pub reads: Vec<Read>,
    pub bytes: Vec<u8>,
    pub reference: Vec<u8>,
    pub pattern: u8,
    pub aligned: Vec<u8>,
    pub everywhere: bool,
}

pub const COUNTS: &[u32] = &[0, 1, 32_767, 32_768, u32::MAX];
const NEAR: &[u32] = &[0, 0, 1, 2, 3, 255, 256, 257, 32_766, 32_767, 32_768, 65_535, 1 << 31, u32::MAX - 1, u32::MAX];
const OTHERS: &[u8] = b"RYSWKMBDHVNUryswkmbdhvnu-.*=@\x00\xff";

impl Evidence {
    pub fn lengths(&self) -> [usize; 3] {
        [self.marks.len(), self.unconverted.len(), self.converted.len()]
    }

    fn resize(&mut self, array: usize, n: usize) {
        match array {
            0 => self.marks.resize(n, 1),
            1 => self.unconverted.resize(n, 1),
            _ => self.converted.resize(n, 1),
        }
    }
}

impl Case {
    // The first positions alone.
    pub fn cut(&self, n: usize) -> Case {
        let mut case = self.clone();
        case.bases.truncate(n);
        for strand in &mut case.strands {
            strand.marks.truncate(n);
            strand.unconverted.truncate(n);
            strand.converted.truncate(n);
        }
        case
    }
}

impl Draw {
    fn tag_counts(&mut self, n: usize) -> Vec<u32> {
        let style = self.below(12);
        self.many(n, |draw| match style {
            0..5 => draw.below(12) as u32,
            5..7 => draw.pick(COUNTS),
            7..9 => draw.pick(NEAR),
            9..11 => draw.next() as u32,
            _ => 0,
        })
    }

    // Bases of one of the styles: the letters in both cases, few letters so that many are tracked, other codes, any byte.
    pub fn tag_bases(&mut self, n: usize) -> Vec<u8> {
        match self.below(8) {
            0 => self.bases(n, 0),
            1 => self.bases(n, 3),
            2 => self.many(n, |draw| draw.pick(b"Cc")),
            3 => self.many(n, |draw| draw.pick(b"CGcg")),
            4 => self.many(n, |draw| draw.pick(b"TAta")),
            5 => self.many(n, |draw| draw.pick(OTHERS)),
            _ => self.many(n, |draw| if draw.chance(12) { draw.pick(OTHERS) } else { draw.pick(LETTERS) }),
        }
    }

    // Marks: of any style, or few, so that many letters are passed over.
    fn tag_marks(&mut self, n: usize) -> Vec<u8> {
        if self.chance(3) {
            let one_in = self.pick(&[4, 20, 150, 600]);
            return self.many(n, |draw| if draw.chance(one_in) { draw.pick(&MARKS[1..]) } else { 0 });
        }
        self.marks(n)
    }

    pub fn evidence(&mut self, n: usize, annotation: u8) -> Evidence {
        // Evidence that belongs to no annotation is not looked at.
        let of = if annotation != 0 { n } else { self.pick(&[0, 0, n, 1030]) };
        let (mut unconverted, mut converted) = (self.tag_counts(of), self.tag_counts(of));
        if self.chance(3) {
            // Positions that no read covers.
            for i in 0..of {
                if self.chance(3) {
                    (unconverted[i], converted[i]) = (0, 0);
                }
            }
        }
        Evidence { annotation, marks: self.tag_marks(of), unconverted, converted }
    }

    // An input that no row refuses.
    pub fn tag_case(&mut self) -> Case {
        let n = self.positions();
        let annotation = |draw: &mut Draw| draw.below(3) as u8;
        let (one, other) = (annotation(self), annotation(self));
        let len = self.pick(&[0, 1, n / 2, n.saturating_sub(1), n, n + 1, 1024, 1025, usize::MAX]);
        let strands = [self.evidence(n, one), self.evidence(n, other)];
        let mode = if self.chance(8) { 0 } else { 1 + self.below(2) as u8 };
        Case { bases: self.tag_bases(n), strands, mode, len }
    }

    // A fault of row 7 or 8, mostly in an array that is looked at.
    pub fn spoil_tags(&mut self, case: &mut Case, row: u8) {
        let near = case.bases.len();
        let n = if row == 7 { self.pick(&[1025, 1026, 1100]) } else { self.pick(&[0, 1, near.saturating_sub(1), near + 1, 1024]).min(1024) };
        let all = self.chance(4);
        for array in 0..7 {
            if all || self.chance(4) {
                match array {
                    6 => case.bases.resize(n, b'C'),
                    _ => case.strands[array / 3].resize(array % 3, n),
                }
            }
        }
    }

    // Reads with their marks, over one buffer, in which parts may lie apart or overlap; a base's mark lies where the base does.
    pub fn simplex(&mut self) -> Simplex {
        let len = self.positions();
        let count = match self.below(40) {
            0 if len < 40 => self.pick(&[1023, 1024]),
            0..3 => 0,
            3..8 => self.below(60),
            _ => 1 + self.below(12),
        };
        let (mut reads, mut bytes): (Vec<Read>, Vec<u8>) = (Vec::new(), Vec::new());
        for _ in 0..count {
            let flags = self.flags();
            if !bytes.is_empty() && self.chance(10) {
                let offset = self.below(bytes.len());
                reads.push(Read { flags, offset, length: self.below(bytes.len() - offset + 1) });
                continue;
            }
            let gap = self.below(3);
            bytes.extend(self.many(gap, Draw::byte));
            let reach = match self.below(12) {
                0 => self.below(1300),
                1 => len + 1 + self.below(9),
                2 => 0,
                3..6 => self.below(len + 1),
                _ => len,
            };
            reads.push(Read { flags, offset: bytes.len(), length: reach });
            let read = self.tag_bases(reach);
            bytes.extend(read);
        }
        // Listed in another order than they lie in.
        if self.chance(4) {
            for i in 1..reads.len() {
                let other = self.below(i + 1);
                reads.swap(i, other);
            }
        }
        let known = self.pick(&[len, len, len, len / 2, len + 3, 0]);
        let mut reference = self.tag_bases(known);
        let one_in = self.pick(&[1000, 5]);
        reference.iter_mut().for_each(|base| {
            if self.chance(one_in) {
                *base = 0;
            }
        });
        let reach = self.pick(&[bytes.len(), bytes.len(), bytes.len(), bytes.len() / 2, bytes.len() + 5, 0]);
        let marks = self.below(3);
        let aligned = self.many(reach, |draw| match marks {
            0 => 1,
            1 => draw.below(2) as u8,
            _ => draw.pick(MARKS),
        });
        Simplex { len, reads, bytes, reference, pattern: 1 + self.below(2) as u8, aligned, everywhere: self.chance(2) }
    }

    pub fn spoil_simplex(&mut self, case: &mut Simplex, row: u8) {
        match row {
            7 => case.len = self.pick(&[1025, 1026, 1 << 32, usize::MAX]),
            9 => {
                let read = Read { flags: 0, offset: 0, length: 0 };
                case.reads.resize(self.pick(&[1025, 1026, 1100]), read);
            }
            _ => {
                let (n, most) = (case.bytes.len(), usize::MAX);
                let (offset, length) = self.pick(&[(n, 1), (n + 1, 0), (0, n + 1), (most, 0), (most, 1), (1, most), (most, most), (most - 1, 2)]);
                let read = Read { flags: 0, offset, length };
                let place = self.below(case.reads.len() + 1);
                if place < case.reads.len() { case.reads[place] = read } else { case.reads.push(read) }
            }
        }
    }
}
