// The written rule of a record: document 01's, with a lab's ceiling in the place of 93 (document 02, request 102), and over which limit there is
// none (request 106). From their words, short and slow: neither the Rust's code nor ours.
use super::case::{Answer, Case, Outputs, Strand};
use super::table;

// A methylation call: its pattern, 1 C to T and 2 G to A; the strand that carries it, the called base, and what that is converted to.
struct Call {
    pattern: u8,
    informative: usize,
    base: u8,
    converted: u8,
}

// A position of two strands.
struct Position<'a> {
    strands: [&'a Strand; 2],
    i: usize,
}

impl Position<'_> {
    fn base(&self, s: usize) -> u8 {
        self.strands[s].bases[self.i]
    }

    fn qual(&self, s: usize) -> u32 {
        self.strands[s].quals[self.i].into()
    }

    fn call(&self) -> Option<Call> {
        let annotated = |pattern| self.strands.iter().position(|s| s.annotation == pattern);
        let (ct, ga) = (annotated(1)?, annotated(2)?);
        match [ct, ga].map(|s| self.base(s).to_ascii_uppercase()) {
            [b'C' | b'T', b'C'] => Some(Call { pattern: 1, informative: ct, base: b'C', converted: b'T' }),
            [b'G', b'G' | b'A'] => Some(Call { pattern: 2, informative: ga, base: b'G', converted: b'A' }),
            _ => None,
        }
    }

    // The base before it is masked, and the quality before it is held. The strands' patterns differ at a call, so that one annotation alone
    // is of the call's.
    fn unmasked(&self, call: Option<&Call>) -> (u8, u32) {
        let (p, q) = (self.qual(0), self.qual(1));
        match (call, self.base(0), self.base(1)) {
            (Some(call), ..) => {
                let shows = self.base(call.informative).to_ascii_uppercase();
                let alone = shows == call.converted && self.strands[call.informative].marks[self.i] == 0;
                (call.base, if alone { self.qual(1 - call.informative) } else { p + q })
            }
            (None, a, b) if a == b => (a, p + q),
            (None, a, _) if p > q => (a, p - q),
            (None, _, b) if p < q => (b, q - p),
            (None, a, _) => (a, 2),
        }
    }

    // The base and quality that the record shows.
    fn shown(&self, call: Option<&Call>, ceiling: u8) -> (u8, u8) {
        let (base, qual) = self.unmasked(call);
        let held = if qual < 2 { 2 } else if qual > u32::from(ceiling) { ceiling } else { qual as u8 };
        if self.base(0) == b'N' || self.base(1) == b'N' || held == 2 { (b'N', 2) } else { (base, held) }
    }

    fn errors_counted(&self, call: Option<&Call>, case: &Case) -> i64 {
        let compared_with = |flags: u16| match call {
            Some(call) if (flags & 0x80 == 0) == (call.pattern == 1) => self.base(call.informative),
            _ => self.unmasked(call).0,
        };
        let reaching = case.reads.iter().filter(|read| self.i < read.length);
        let wrong = |flags: u16, base: u8| base != b'N' && compared_with(flags) != b'N' && base != compared_with(flags);
        reaching.filter(|read| wrong(read.flags, case.bytes[read.offset + self.i])).count() as i64
    }

    fn errors_estimated(&self, call: Option<&Call>) -> i64 {
        let errors = |s: usize| i64::from(self.strands[s].errors[self.i]);
        if call.is_some() || self.base(0) == self.base(1) {
            return errors(0) + errors(1);
        }
        let (winner, loser) = if self.qual(0) >= self.qual(1) { (0, 1) } else { (1, 0) };
        errors(winner) + i64::from(self.strands[loser].depths[self.i]) - errors(loser)
    }
}

// A strand's evidence at a position, or clear.
fn put_evidence(out: &mut Outputs, place: usize, s: &Strand, i: usize, kept: bool) {
    out.marks[place][i] = u8::from(kept);
    out.unconverted[place][i] = if kept { s.unconverted[i] } else { 0 };
    out.converted[place][i] = if kept { s.converted[i] } else { 0 };
}

fn both(case: &Case, n: usize, out: &mut Outputs) {
    let strands = [&case.a, &case.b];
    for i in 0..n {
        let position = Position { strands, i };
        let call = position.call();
        let call = call.as_ref();
        let errors = if case.listed { position.errors_counted(call, case) } else { position.errors_estimated(call) };
        (out.bases[i], out.quals[i]) = position.shown(call, case.ceiling);
        out.errors[i] = errors.clamp(0, 32_767) as u16;
        for (place, s) in strands.into_iter().enumerate().filter(|(_, s)| s.annotation != 0) {
            put_evidence(out, place, s, i, call.is_some_and(|call| call.informative == place));
        }
    }
}

fn alone(s: &Strand, n: usize, out: &mut Outputs) {
    out.bases[..n].copy_from_slice(&s.bases);
    out.quals[..n].copy_from_slice(&s.quals);
    out.errors[..n].copy_from_slice(&s.errors);
    for i in (0..n).filter(|_| s.annotation != 0) {
        put_evidence(out, 0, s, i, s.marks[i] != 0);
    }
}

// Whether row 19 is met: a strand that is there has an array of more positions than the limit. Evidence is one only with an annotation. A
// preview's limit is at most 256.
pub fn over_limit(case: &Case, preview: bool) -> bool {
    let limit = if preview && case.limit > 256 { 256 } else { case.limit };
    let over = |length: usize| length > limit.into();
    let strand_over = |s: &Strand| {
        let evidence = over(s.marks.len()) || over(s.unconverted.len()) || over(s.converted.len());
        over(s.bases.len()) || over(s.quals.len()) || over(s.depths.len()) || over(s.errors.len()) || s.annotation != 0 && evidence
    };
    case.a.present && strand_over(&case.a) || case.b.present && strand_over(&case.b)
}

// The record of a case that no row refuses, put into its outputs.
pub fn duplex_consensus(case: &Case, out: &mut Outputs) -> Answer {
    let answer = table::kind(&case.a, &case.b);
    match answer {
        Answer::Both(n) => both(case, n, out),
        Answer::Ab(n) => alone(&case.a, n, out),
        Answer::Ba(n) => alone(&case.b, n, out),
        _ => {}
    }
    answer
}
