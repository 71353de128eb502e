// What a call of duplex_consensus is given, what it answers, and what its outputs hold.

#[derive(Clone, Debug, Default)]
pub struct Strand {
    pub present: bool,
    pub bases: Vec<u8>,
    pub quals: Vec<u8>,
    pub depths: Vec<u16>,
    pub errors: Vec<u16>,
    // 0: none; 1: C to T; 2: G to A.
    pub annotation: u8,
    pub marks: Vec<u8>,
    pub unconverted: Vec<u32>,
    pub converted: Vec<u32>,
}

// A source read: its flags, and which bytes its bases are.
#[derive(Clone, Copy, Debug)]
pub struct Read {
    pub flags: u16,
    pub offset: usize,
    pub length: usize,
}

// The lengths of the outputs: bases, quals, errors; marks, unconverted and converted of A, and of B.
pub type Room = [usize; 9];

#[derive(Clone, Debug)]
pub struct Case {
    pub a: Strand,
    pub b: Strand,
    pub listed: bool,
    pub reads: Vec<Read>,
    pub bytes: Vec<u8>,
    // 93 where it is held to the Rust, which has no other.
    pub ceiling: u8,
    // The Rust has none: it is held to the Rust where all strands are within.
    pub limit: u16,
    pub room: Room,
}

#[derive(Clone, Copy, Debug, PartialEq)]
pub enum Answer {
    Refused(u8),
    NoRecord,
    Ab(usize),
    Ba(usize),
    Both(usize),
}

#[derive(Clone, Debug, Default)]
pub struct Outputs {
    pub bases: Vec<u8>,
    pub quals: Vec<u8>,
    pub errors: Vec<u16>,
    pub marks: [Vec<u8>; 2],
    pub unconverted: [Vec<u32>; 2],
    pub converted: [Vec<u32>; 2],
}

fn fill<T>(out: &mut Vec<T>, n: usize, value: impl Fn(usize) -> T) {
    out.clear();
    out.extend((0..n).map(value));
}

impl Outputs {
    // Before a call, each place holds a value of its own.
    pub fn fill(&mut self, room: &Room) {
        fill(&mut self.bases, room[0], |i| (i * 7 + 129) as u8);
        fill(&mut self.quals, room[1], |i| (i * 11 + 151) as u8);
        fill(&mut self.errors, room[2], |i| (i * 13 + 40_000) as u16);
        for strand in 0..2 {
            let of = |array: usize| room[3 + 3 * strand + array];
            fill(&mut self.marks[strand], of(0), |i| (i * 3 + 17 * strand) as u8 | 2);
            fill(&mut self.unconverted[strand], of(1), |i| (i * 17 + 100_000 + strand) as u32);
            fill(&mut self.converted[strand], of(2), |i| (i * 19 + 200_000 + strand) as u32);
        }
    }

    pub fn filled(room: &Room) -> Outputs {
        let mut outputs = Outputs::default();
        outputs.fill(room);
        outputs
    }

    // All outputs by name, as numbers: for messages, and to find the first difference.
    pub fn listed(&self) -> Vec<(&'static str, Vec<u64>)> {
        fn wide<T: Copy + Into<u64>>(places: &[T]) -> Vec<u64> {
            places.iter().map(|&place| place.into()).collect()
        }
        vec![
            ("bases", wide(&self.bases)),
            ("quals", wide(&self.quals)),
            ("errors", wide(&self.errors)),
            ("a_marks", wide(&self.marks[0])),
            ("a_unconverted", wide(&self.unconverted[0])),
            ("a_converted", wide(&self.converted[0])),
            ("b_marks", wide(&self.marks[1])),
            ("b_unconverted", wide(&self.unconverted[1])),
            ("b_converted", wide(&self.converted[1])),
        ]
    }
}

impl PartialEq for Outputs {
    fn eq(&self, other: &Outputs) -> bool {
        self.bases == other.bases
            && self.quals == other.quals
            && self.errors == other.errors
            && self.marks == other.marks
            && self.unconverted == other.unconverted
            && self.converted == other.converted
    }
}

impl Strand {
    // The lengths of the arrays that are looked at.
    pub fn lengths(&self) -> Vec<usize> {
        let mut lengths = vec![self.bases.len(), self.quals.len(), self.depths.len(), self.errors.len()];
        if self.annotation != 0 {
            lengths.extend([self.marks.len(), self.unconverted.len(), self.converted.len()]);
        }
        lengths
    }
}

impl Case {
    // The same with one position alone, which every strand and read loses or keeps.
    pub fn only(&self, i: usize) -> Case {
        fn cut<T: Clone>(array: &[T], i: usize) -> Vec<T> {
            array.get(i..i + 1).unwrap_or_default().to_vec()
        }
        let strand = |s: &Strand| Strand {
            present: s.present,
            bases: cut(&s.bases, i),
            quals: cut(&s.quals, i),
            depths: cut(&s.depths, i),
            errors: cut(&s.errors, i),
            annotation: s.annotation,
            marks: cut(&s.marks, i),
            unconverted: cut(&s.unconverted, i),
            converted: cut(&s.converted, i),
        };
        let mut bytes = Vec::new();
        let mut reads = Vec::new();
        for read in &self.reads {
            let base = if i < read.length { self.bytes.get(read.offset.wrapping_add(i)) } else { None };
            reads.push(Read { flags: read.flags, offset: bytes.len(), length: usize::from(base.is_some()) });
            bytes.extend(base);
        }
        Case { a: strand(&self.a), b: strand(&self.b), listed: self.listed, reads, bytes, ceiling: self.ceiling, limit: self.limit, room: [2; 9] }
    }
}
