// Random inputs, mostly near the boundaries.
use super::case::{Answer, Case, Read, Room, Strand};
use super::table;

pub struct Draw(u64);

pub const LETTERS: &[u8] = b"ACGTNacgtn";
pub const QUALITIES: &[u8] = &[0, 1, 2, 3, 4, 29, 30, 31, 46, 47, 62, 91, 92, 93, 94, 255];
pub const MARKS: &[u8] = &[0, 1, 200];
const EXTREMES: &[u16] = &[0, 1, 2, 20_000, 32_766, 32_767, 32_768, 65_534, 65_535];
const COUNTS: &[u32] = &[0, 1, 2, 32_767, 65_536, u32::MAX - 1, u32::MAX];
const FLAGS: &[u16] = &[0, 1, 0x40, 0x41, 0x51, 0x7f, 0x80, 0x81, 0x91, 0xc1, 0x180, 0xff7f, 0xffff];

impl Draw {
    pub fn new(seed: u64) -> Draw {
        Draw(seed)
    }

    pub fn next(&mut self) -> u64 {
        self.0 = self.0.wrapping_add(0x9e37_79b9_7f4a_7c15);
        let mut n = self.0;
        n = (n ^ (n >> 30)).wrapping_mul(0xbf58_476d_1ce4_e5b9);
        n = (n ^ (n >> 27)).wrapping_mul(0x94d0_49bb_1331_11eb);
        n ^ (n >> 31)
    }

    pub fn below(&mut self, n: usize) -> usize {
        ((u128::from(self.next()) * n as u128) >> 64) as usize
    }

    pub fn chance(&mut self, one_in: usize) -> bool {
        self.below(one_in) == 0
    }

    pub fn pick<T: Copy>(&mut self, from: &[T]) -> T {
        from[self.below(from.len())]
    }

    pub fn many<T>(&mut self, n: usize, mut one: impl FnMut(&mut Draw) -> T) -> Vec<T> {
        (0..n).map(|_| one(self)).collect()
    }

    pub fn byte(&mut self) -> u8 {
        self.next() as u8
    }

    // How many positions a strand has.
    pub fn positions(&mut self) -> usize {
        match self.below(32) {
            0..8 => self.below(6),
            8..16 => self.below(40),
            16..30 => self.below(301),
            30 => self.below(1025),
            _ => self.pick(&[1023, 1024]),
        }
    }

    pub fn quals(&mut self, n: usize) -> Vec<u8> {
        let style = self.below(5);
        self.many(n, |draw| match style {
            0 => 2 + draw.below(92) as u8,
            1 => draw.pick(QUALITIES),
            2 => draw.byte(),
            3 => 30 + draw.below(3) as u8,
            _ => 37,
        })
    }

    pub fn numbers(&mut self, n: usize) -> Vec<u16> {
        let style = self.below(4);
        self.many(n, |draw| match style {
            0 => draw.below(6) as u16,
            1 => draw.pick(EXTREMES),
            2 => draw.next() as u16,
            _ => 1 + draw.below(3) as u16,
        })
    }

    pub fn counts(&mut self, n: usize) -> Vec<u32> {
        let style = self.below(3);
        self.many(n, |draw| match style {
            0 => draw.below(40) as u32,
            1 => draw.pick(COUNTS),
            _ => draw.next() as u32,
        })
    }

    pub fn marks(&mut self, n: usize) -> Vec<u8> {
        let style = self.below(4);
        self.many(n, |draw| match style {
            0 => draw.below(2) as u8,
            1 => draw.pick(MARKS),
            2 => 0,
            _ => draw.byte(),
        })
    }

    // Bases of one of the styles: the four letters, with N, both cases, any byte.
    pub fn bases(&mut self, n: usize, style: usize) -> Vec<u8> {
        self.many(n, |draw| match style {
            0 => draw.pick(b"ACGT"),
            1 => draw.pick(b"ACGTN"),
            2 => draw.pick(LETTERS),
            _ => draw.byte(),
        })
    }

    pub fn strand(&mut self, n: usize, style: usize) -> Strand {
        let annotation = self.below(3) as u8;
        // Evidence that belongs to no annotation is not looked at.
        let of = if annotation != 0 { n } else { self.pick(&[0, 0, n, 1030]) };
        Strand {
            present: true,
            bases: self.bases(n, style),
            quals: self.quals(n),
            depths: self.numbers(n),
            errors: self.numbers(n),
            annotation,
            marks: self.marks(of),
            unconverted: self.counts(of),
            converted: self.counts(of),
        }
    }

    // A strand that is not there: whatever its arrays are, they are not looked at.
    fn absent(&mut self) -> Strand {
        let n = self.pick(&[0, 0, 3, 1030]);
        let mut strand = self.strand(n, 3);
        strand.present = false;
        strand.quals.truncate(self.pick(&[0, 2, 1030]));
        strand
    }

    // A read's bases: those of a strand, the other letters, or any.
    fn read(&mut self, a: &Strand, b: &Strand, n: usize) -> Vec<u8> {
        let reach = match self.below(12) {
            0 => self.below(1600),
            1 => n + 1 + self.below(9),
            2 => 0,
            3..6 => self.below(n + 1),
            _ => n,
        };
        let own = if self.chance(2) { &a.bases } else { &b.bases };
        let differs = self.pick(&[2, 5, 20, 1000]);
        (0..reach).map(|i| match own.get(i) {
            Some(&base) if !self.chance(differs) => base,
            _ if self.chance(8) => self.byte(),
            _ => self.pick(LETTERS),
        }).collect()
    }

    pub fn flags(&mut self) -> u16 {
        if self.chance(6) { self.next() as u16 } else { self.pick(FLAGS) }
    }

    // A list of reads over one buffer, in which parts may lie apart or overlap.
    fn reads(&mut self, a: &Strand, b: &Strand, n: usize) -> (Vec<Read>, Vec<u8>) {
        let count = match self.below(40) {
            0 if n < 40 => self.pick(&[1023, 1024]),
            0..4 => 0,
            4..10 => self.below(60),
            _ => 1 + self.below(12),
        };
        let (mut reads, mut bytes): (Vec<Read>, Vec<u8>) = (Vec::new(), Vec::new());
        for _ in 0..count {
            let flags = self.flags();
            if !bytes.is_empty() && self.chance(10) {
                let offset = self.below(bytes.len());
                reads.push(Read { flags, offset, length: self.below(bytes.len() - offset + 1) });
                continue;
            }
            let gap = self.below(3);
            bytes.extend(self.many(gap, Draw::byte));
            let read = self.read(a, b, n);
            reads.push(Read { flags, offset: bytes.len(), length: read.len() });
            bytes.extend(read);
        }
        (reads, bytes)
    }

    // The outputs' lengths for so many positions: ample where something is written, anything elsewhere.
    pub fn room(&mut self, n: usize, a_annotated: bool, b_annotated: bool) -> Room {
        std::array::from_fn(|output| {
            let written = output < 3 || output < 6 && a_annotated || output >= 6 && b_annotated;
            if written { n + self.pick(&[0, 0, 1, 5]) } else { self.pick(&[0, 1, n]) }
        })
    }

    pub fn room_of(&mut self, a: &Strand, b: &Strand) -> Room {
        match table::kind(a, b) {
            Answer::Ab(n) => self.room(n, a.annotation != 0, false),
            Answer::Ba(n) => self.room(n, b.annotation != 0, false),
            Answer::Both(n) => self.room(n, a.annotation != 0, b.annotation != 0),
            _ => std::array::from_fn(|_| self.below(3)),
        }
    }

    // An input that no row refuses, at 93 and 1,024.
    pub fn case(&mut self) -> Case {
        let style = self.below(4);
        let n = self.positions();
        let m = match self.below(8) {
            0 => self.positions(),
            1 => n + 1,
            2 => n.saturating_sub(1),
            _ => n,
        };
        let mut a = self.strand(n, style);
        let mut b = self.strand(m.min(1024), style);
        // Mostly the strands agree, and often their qualities tie.
        let differs = self.pick(&[1, 2, 8, 100]);
        for (base, other) in b.bases.iter_mut().zip(&a.bases) {
            if !self.chance(differs) {
                *base = *other;
            }
        }
        if self.chance(4) {
            for (qual, other) in b.quals.iter_mut().zip(&a.quals) {
                *qual = *other;
            }
        }
        for strand in [&mut a, &mut b] {
            match self.below(12) {
                0 => strand.depths.fill(0),
                // Covered at the end alone, which may lie past the other strand.
                1 => strand.depths.iter_mut().rev().skip(1).for_each(|depth| *depth = 0),
                _ => {}
            }
        }
        match self.below(24) {
            0 => a = self.absent(),
            1 => b = self.absent(),
            2 => (a, b) = (self.absent(), self.absent()),
            _ => {}
        }
        let listed = self.chance(2);
        let (mut reads, bytes) = self.reads(&a, &b, n.min(m));
        if !listed && self.chance(2) {
            // Reads of no list are not looked at.
            let flags = self.flags();
            reads.extend(vec![Read { flags, offset: usize::MAX, length: 2 }; self.pick(&[1, 1030])]);
        }
        let room = self.room_of(&a, &b);
        Case { a, b, listed, reads, bytes, ceiling: 93, limit: 1024, room }
    }

    // Thresholds near the two strands' largest depths.
    pub fn thresholds(&mut self, depths: [u32; 2]) -> Vec<u32> {
        let [one, other] = depths;
        let near = [0, 1, one, one + 1, other, other + 1, one + other, one + other + 1, 32_767, 40_000, 65_536, 70_000, u32::MAX];
        let count = if self.chance(30) { self.below(6) } else { 1 + self.below(3) };
        let mut list = self.many(count, |draw| draw.pick(&near));
        if !self.chance(12) {
            list.sort_by(|a, b| b.cmp(a));
        }
        list
    }
}

// The rows that an input can be made to break, and one way to break each.
pub const ROWS: [u8; 7] = [7, 8, 9, 10, 12, 14, 19];

pub const CEILINGS_OUTSIDE: [u8; 5] = [0, 1, 2, 94, 255];

pub fn lengthen(strand: &mut Strand, array: usize, n: usize) {
    match array {
        0 => strand.bases.resize(n, b'A'),
        1 => strand.quals.resize(n, 30),
        2 => strand.depths.resize(n, 1),
        3 => strand.errors.resize(n, 0),
        4 => strand.marks.resize(n, 1),
        5 => strand.unconverted.resize(n, 1),
        _ => strand.converted.resize(n, 1),
    }
}

impl Draw {
    // A limit below so many positions, where there are any.
    pub fn limit_below(&mut self, positions: usize) -> u16 {
        let any = self.below(positions.max(1));
        self.pick(&[positions.saturating_sub(1), positions.saturating_sub(1), any, 0]) as u16
    }

    // A limit near the strands' lengths, or any.
    pub fn limit(&mut self, case: &Case) -> u16 {
        let near = if self.chance(2) { &case.a } else { &case.b }.bases.len();
        match self.below(6) {
            0 => self.next() as u16,
            1 => self.below(1030) as u16,
            2 => self.pick(&[0, 1, 255, 256, 257, 1023, 1024, 1025]),
            _ => (near + self.below(3)).saturating_sub(1) as u16,
        }
    }

    // Mostly an array that is looked at; otherwise any.
    fn some_array(&mut self, case: &mut Case, n: usize) {
        let strand = if self.chance(2) { &mut case.a } else { &mut case.b };
        let array = self.below(7);
        lengthen(strand, array, n);
    }

    pub fn spoil(&mut self, case: &mut Case, row: u8) {
        let near = case.a.bases.len();
        match row {
            7 if self.chance(4) => {
                let n = self.pick(&[1025, 1026, 1100]);
                let strand = if self.chance(2) { &mut case.a } else { &mut case.b };
                (0..7).for_each(|array| lengthen(strand, array, n));
            }
            7 => {
                let n = self.pick(&[1025, 1026, 1100]);
                self.some_array(case, n);
            }
            8 => {
                let n = self.pick(&[0, 1, near.saturating_sub(1), near + 1, 1024]);
                self.some_array(case, n.min(1024));
            }
            14 => case.ceiling = self.pick(&CEILINGS_OUTSIDE),
            19 => case.limit = self.limit_below(near),
            9 => {
                let read = Read { flags: 0, offset: 0, length: 0 };
                case.reads.resize(self.pick(&[1025, 1026, 1100]), read);
            }
            10 => {
                let n = case.bytes.len();
                let most = usize::MAX;
                let (offset, length) = self.pick(&[
                    (n, 1),
                    (n + 1, 0),
                    (0, n + 1),
                    (most, 0),
                    (most, 1),
                    (1, most),
                    (0, most),
                    (most, most),
                    (most - 1, 2),
                    (most / 2 + 1, most / 2 + 1),
                    (n, (most - n).saturating_add(1)),
                ]);
                let read = Read { flags: 0, offset, length };
                let place = self.below(case.reads.len() + 1);
                if place < case.reads.len() { case.reads[place] = read } else { case.reads.push(read) }
            }
            _ => {
                let output = self.below(9);
                let n = case.room[output];
                case.room[output] = self.pick(&[0, n.saturating_sub(1), n.saturating_sub(6)]);
            }
        }
    }
}
