"""The calls, and the test vectors of each. README.md has the form of a vector."""

import itertools
import struct

PLACES = 1100  # the most elements of a field
MANY = 2**64 - 1


def u8(values):
    return 1, len(values), bytes(values)


def u16(values):
    return 2, len(values), struct.pack(f"<{len(values)}H", *values)


def u32(values):
    return 4, len(values), struct.pack(f"<{len(values)}I", *values)


def u64(values):
    return 8, len(values), struct.pack(f"<{len(values)}Q", *values)


def rows(values):
    return 24, len(values), b"".join(struct.pack("<3Q", *row) for row in values)


def vector(call, *fields):
    offset, directory = 8 * len(fields), b""
    for width, count, data in fields:
        assert count <= PLACES
        directory += struct.pack("<IHH", offset, count, width)
        offset += len(data)
    return struct.pack("<BBI", call, len(fields), offset) + directory + b"".join(data for _, _, data in fields)


class Draw:
    """Random values, mostly near the boundaries."""

    EDGES = [0, 1, 2, 1023, 1024, 1025]

    def __init__(self, rng):
        self.rng = rng
        self.pick = rng.choice
        self.lengths = list(self.EDGES)

    def chance(self, one_in):
        return self.rng.randrange(one_in) == 0

    def length(self):
        """Each edge once, and then mostly a few."""
        if self.lengths:
            return self.lengths.pop()
        return self.pick(self.EDGES) if self.chance(25) else self.rng.randrange(12)

    def bytes(self, count):
        return self.rng.randbytes(count)

    def u16s(self, count):
        edges = [0, 1, 2, 32766, 32767, 32768, 65534, 65535, self.rng.randrange(65536)]
        return self.rng.choices(edges, k=count)

    def u32s(self, count):
        edges = [0, 1, 32767, 65536, 2**31, 2**32 - 1, self.rng.randrange(2**32)]
        return self.rng.choices(edges, k=count)

    # Around what is said of rates, and where a conversion to a float starts to round.
    SUMS = [n + near for n in [2896, 2948, 2**24, 2**25] for near in [-1, 0, 1]]

    def with_sum(self, count, total, most):
        """So many numbers up to the most, with that sum or the largest that they have."""
        each, more = divmod(min(total, most * count), count)
        values = [each + (i < more) for i in range(count)]
        for i in range(0, count - 1, 2):
            shift = self.rng.randrange(min(values[i], most - values[i + 1]) + 1)
            values[i], values[i + 1] = values[i] - shift, values[i + 1] + shift
        return values

    def counts(self, count):
        """Depths or errors."""
        kind = self.rng.randrange(4)
        if kind == 0 and count:
            return self.with_sum(count, self.pick(self.SUMS), self.pick([32767, 65535]))
        if kind == 1:
            return self.rng.choices(range(65536), k=count)
        return self.rng.choices(range(6), k=count) if kind == 2 else self.u16s(count)

    def sum(self):
        """A number of 32 bits: any, of any size, or at a tie of its conversion to a float or next to one."""
        kind = self.rng.getrandbits(2)
        if kind == 0:
            return self.rng.getrandbits(32)
        if kind == 1:
            return self.rng.getrandbits(32) >> self.rng.getrandbits(5)
        tie = (2**24 + 1 + 2 * self.rng.getrandbits(23)) << self.rng.getrandbits(3)
        return tie + self.pick((-1, 0, 0, 1))

    def positions(self):
        return self.rng.randrange(900, 1025) if self.chance(25) else self.length()

    def faulty(self, lengths, beside):
        """The lengths, some of them changed."""
        for _ in range(self.pick([0, 0, 0, 0, 1, 2])):
            lengths[self.rng.randrange(len(lengths))] = self.pick([max(beside - 1, 0), beside + 1, 0, 1024, 1025])
        return lengths

    def flags(self, count):
        edges = [0, 1, 0x10, 0x40, 0x41, 0x51, 0x80, 0x81, 0x91, 0xC1, self.rng.randrange(65536)]
        return self.rng.choices(edges, k=count)

    def thresholds(self, reads=3):
        top = self.pick([1, 2, 3, reads, reads + 1, 2**32 - 1])
        near = [0, 1, reads, max(top, 1) - 1, top, self.rng.randrange(2**32)]
        count = self.pick([1, 2, 2, 3, 3, 3, self.rng.randrange(6)])
        values = self.rng.choices(near, k=count)
        return values if self.chance(4) else sorted(values, reverse=True)

    def room(self, needed):
        """The length of an output for so many places: ample, or rarely one short."""
        if self.chance(20):
            return min(max(needed - 1, 0), PLACES)
        return min(needed + self.pick([0, 0, 1, 3]), PLACES)

    def text(self, count):
        return "".join(self.rng.choices("ACGTN-+:/AB01é…", k=count)).encode()


def one_u16(call):
    """Every number of 16 bits."""
    head = vector(call, u16([0]))[:-2]
    return [head + struct.pack("<H", n) for n in range(65536)]


def ceilings(call):
    """Every number of 16 bits with the ceiling 93; every byte as a ceiling, with the numbers about it and some others."""
    pairs = [(n, 93) for n in range(65536)]
    for ceiling in range(256):
        near = [0, 1, 2, 3, 4, ceiling - 1, ceiling, ceiling + 1, 93, 94, 255, 256, 256 + ceiling, 510, 65535]
        pairs += [(n, ceiling) for n in sorted(set(near)) if n >= 0]
    return [vector(call, u16([n]), u8([ceiling])) for n, ceiling in pairs]


def byte_pairs(call):
    head = vector(call, u8([0, 0]))[:-2]
    return [head + bytes(pair) for pair in itertools.product(range(256), repeat=2)]


def one_u8(call, values):
    return [vector(call, u8([n])) for n in values]


def combined_errors(call, draw, count):
    edges = [0, 1, 2, 32766, 32767, 32768, 65535, 65536, 2**31 - 1, 2**31, 2**31 + 1, 2**32 - 32768, 2**32 - 1]
    return [vector(call, u32([n])) for n in edges + [draw.rng.getrandbits(32) for _ in range(count)]]


def read_names(call, draw, count):
    for _ in range(count):
        prefix, umi = draw.text(draw.length() // 3), draw.text(draw.length() // 3)
        out = draw.pick([0, draw.length(), draw.room(len(prefix) + 1 + len(umi)), len(prefix) + len(umi)])
        yield vector(call, u8(prefix), u8(umi), u8(draw.bytes(out)))


def contexts(call, draw, count):
    for pair in itertools.product(range(256), repeat=2):
        yield vector(call, u8(pair), u64([0]), u8([1]))
        yield vector(call, u8(pair), u64([1]), u8([0]))
    for _ in range(count):
        sequence = draw.rng.choices(b"CGcgTAN", k=draw.length())
        n = len(sequence)
        at = draw.pick([0, 1, max(n - 2, 0), max(n - 1, 0), n, n + 1, MANY, 2**63, draw.rng.randrange(n + 1)])
        yield vector(call, u8(sequence), u64([at]), u8([draw.pick([0, 1, 255])]))


def thresholds(call, draw, count):
    for length in range(5):
        for values in itertools.product(range(4), repeat=length):
            yield vector(call, u32(values))
    for _ in range(count):
        yield vector(call, u32(draw.thresholds()))


def gates(call, draw, count):
    for _ in range(count):
        a, b = draw.flags(draw.length()), draw.flags(draw.length())
        reads = sum(flags & 0x41 == 0x41 for flags in a + b)
        yield vector(call, u16(a), u16(b), u32(draw.thresholds(reads)))


def orientations(call, draw, count):
    for _ in range(count):
        reverse = draw.pick([0, 0x10])
        reads = [flags & ~0x10 | reverse for flags in draw.flags(draw.length())]
        for _ in range(draw.pick([0, 0, 1, 2])):
            if reads:
                reads[draw.pick([0, -1, draw.rng.randrange(len(reads))])] ^= 0x10
        yield vector(call, u16(reads))


def suffixes(call, draw, count):
    for pair in itertools.product(range(256), repeat=2):
        yield vector(call, u8(pair))
    for _ in range(count):
        yield vector(call, u8(draw.text(draw.length() // 3) + draw.pick([b"", b"/", b"/A", b"/B", b"A", b"/a"])))


def partitions(call, draw, count):
    good = ["1/A", "1/B", "/A", "/B", "12345/A", "é/B", "a/b/A", "//B", "A/A"]
    bad = ["", "A", "/", "B", "1/C", "1/a", "1A", "/A ", "A/", "é"]
    for _ in range(count):
        texts = [draw.pick(bad if draw.chance(30) else good).encode() for _ in range(4)]
        data, parts = b"", []
        for text in texts:
            parts.append((draw.pick([1, 1, 1, 2, MANY]), len(data), len(text)))
            data += text + b"/AB"[: draw.rng.randrange(4)]
        reads = [draw.pick(parts) for _ in range(draw.length())]
        if reads and draw.chance(8):
            reads[draw.rng.randrange(len(reads))] = (0, draw.pick([0, MANY]), draw.pick([0, 3, MANY]))
        if reads and draw.chance(8):
            n = len(data)
            part = draw.pick([(n, 1), (n, 0), (n + 1, 0), (0, n + 1), (MANY, 1), (MANY, MANY), (1, MANY), (MANY - 1, 2)])
            reads[draw.rng.randrange(len(reads))] = (1, *part)
        a, b = (draw.u16s(draw.room(len(reads))) for _ in range(2))
        yield vector(call, rows(reads), u8(data), u16(a), u16(b))


def depths(call, draw, count):
    for _ in range(count):
        yield vector(call, u16(draw.u16s(draw.length())))


def paddings(call, draw, count):
    """A strand of seven arrays, [annotation, left, base, quality], the new length, and seven outputs."""
    kinds = "bbhhbww"
    make = {"b": lambda n: u8(draw.bytes(n)), "h": lambda n: u16(draw.u16s(n)), "w": lambda n: u32(draw.u32s(n))}
    for _ in range(count):
        n = draw.length()
        lengths = draw.faulty([n] * 7, n)
        new_length = draw.pick([n, n, n + 1, n + draw.rng.randrange(9)])
        if draw.chance(8):
            new_length = draw.pick([max(n - 1, 0), 0, 1023, 1024, 1025, 2**32, MANY])
        settings = [draw.rng.randrange(3), draw.pick([0, 1, 2]), draw.rng.randrange(256), draw.rng.randrange(256)]
        strand = [make[kind](length) for kind, length in zip(kinds, lengths)]
        outputs = [make[kind](draw.room(new_length)) for kind in kinds[:4]]
        outputs += [make[kind](draw.pick([draw.room(new_length), draw.length()])) for kind in kinds[4:]]
        yield vector(call, *strand, u8(settings), u64([new_length]), *outputs)


def strands(call, draw, count):
    """A strand's depths and errors."""
    for _ in range(count):
        n = draw.positions()
        depths, errors = draw.faulty([n, n], n)
        yield vector(call, u16(draw.counts(depths)), u16(draw.counts(errors)))


def rates(call, draw, count):
    """Pairs of sums: around SUMS, all up to 300, and 400 times as many others as there are vectors of another call."""
    around = draw.SUMS + [2947, 2**26 - 1, 2**26 + 1, 2**26 + 2, 2**26 + 4, 2**31, 2**32 - 129, 2**32 - 128, 2**32 - 1, 0, 1, 2, 3]
    yield vector(call, u32([2948, 2949, 2**24 + 1, 2**25 + 2]), u32([2947, 2948, 2**24 + 3, 2**25 + 6]))
    few = itertools.chain(itertools.product(around, repeat=2), itertools.product(range(301), repeat=2))
    pairs = itertools.chain(few, ((draw.sum(), draw.sum()) for _ in range(400 * count)))
    while block := list(itertools.islice(pairs, draw.pick([30, 30, 30, PLACES]))):
        yield vector(call, *(u32(sums) for sums in zip(*block)))


def records(call, draw, count):
    """Two strands' depths and errors, each strand perhaps of another length than the record, and its bases and errors.

    Among them every record of two bases out of A, N and n with strands of up to three positions, each with depth or without.
    """
    covered = [depths for n in range(4) for depths in itertools.product([0, 1], repeat=n)]
    for a, b, second, bases in itertools.product(covered, covered, [0, 1], itertools.product(b"ANn", repeat=2)):
        yield vector(call, u16(a), u16([0] * len(a)), u8([second]), u16(b), u16([0] * len(b)), u8(bases), u16([0, 0]))
    for (n, half), near in itertools.product([(8, 1448), (1024, 2**23), (1024, 2**24)], itertools.product([-1, 0, 1], repeat=3)):
        a, b, errors = (u16(draw.with_sum(n, half + more, 32767)) for more in near)
        yield vector(call, a, errors, u8([1]), b, errors, u8(draw.bytes(n)), errors)
    for _ in range(count):
        n = draw.positions()
        a, b = (draw.pick([n, n, n, max(n - 1, 0), n + 1, draw.length()]) for _ in range(2))
        a, a_errors, b, b_errors, bases, errors = draw.faulty([a, a, b, b, n, n], n)
        first, second = ([u16(draw.counts(m)) for m in lengths] for lengths in [(a, a_errors), (b, b_errors)])
        bases = draw.rng.choices(b"ACGTNn", k=bases)
        yield vector(call, *first, u8([draw.pick([0, 1, 1, 255])]), *second, u8(bases), u16(draw.counts(errors)))


def depth_pairs(call, draw, count, with_output):
    """A record's positions, both strands' depths, and perhaps an output."""
    for _ in range(count):
        n = draw.pick([2**32, MANY]) if draw.chance(50) else draw.length()
        near = min(n, 1024)
        lengths = [draw.pick([near, near, max(near - 1, 0), near + 1, 0, draw.length()]) for _ in range(2)]
        output = [u16(draw.u16s(draw.room(n)))] if with_output else []
        yield vector(call, u64([n]), *(u16(draw.counts(m)) for m in lengths), *output)


# The calls by number, the same as in calls.rs and tests/replay/src/main.rs: the name, and what makes the vectors.
def positions(call, draw, count):
    """All pairs of these bases and qualities, with depths and errors at the extremes."""
    qualities = [0, 1, 2, 3, 30, 31, 46, 47, 62, 92, 93, 94, 255]
    edges = [0, 1, 5, 20000, 32766, 32767, 32768, 65535]
    for bases in itertools.product(b"ACGTNacgtn\x00\xff", repeat=2):
        for a, b in itertools.product(qualities, repeat=2):
            yield vector(call, u8([bases[0], a, bases[1], b]), u16([draw.pick(edges) for _ in range(4)]))
    for _ in range(count):
        yield vector(call, u8(draw.bytes(4)), u16([draw.rng.randrange(65536) for _ in range(4)]))


CALLS = {
    1: ("phred::cap_quality", lambda call, draw, count: ceilings(call)),
    2: ("caller::clamp_per_base_to_fgbio_short", lambda call, draw, count: one_u16(call)),
    3: ("caller::clamp_combined_error_to_fgbio_short", combined_errors),
    4: ("caller::write_consensus_read_name", read_names),
    5: ("MethylationMode::is_enabled", lambda call, draw, count: one_u8(call, range(3))),
    6: ("ConversionPattern::from_read_flags", lambda call, draw, count: one_u16(call)),
    7: ("ConversionPattern::bases", lambda call, draw, count: one_u8(call, range(2))),
    8: ("methylation::is_cpg_context", contexts),
    9: ("duplex_min_reads::validate_min_reads", thresholds),
    10: ("duplex_min_reads::min_yx_reads_for", thresholds),
    11: ("duplex_min_reads::allows_single_strand_consensus", thresholds),
    12: ("duplex_reads::written_flags", lambda call, draw, count: one_u8(call, range(3))),
    13: ("duplex_reads::is_paired", lambda call, draw, count: one_u16(call)),
    14: ("duplex_reads::is_paired_r1", lambda call, draw, count: one_u16(call)),
    15: ("duplex_reads::is_paired_r2", lambda call, draw, count: one_u16(call)),
    16: ("duplex_reads::has_minimum_number_of_reads", gates),
    17: ("duplex_reads::are_all_same_strand", orientations),
    18: ("duplex_partition::partition_records_by_strand", partitions),
    19: ("duplex_molecule::is_error", lambda call, draw, count: byte_pairs(call)),
    20: ("duplex_molecule::molecule_call", lambda call, draw, count: byte_pairs(call)),
    21: ("vanilla_caller::max_depth", depths),
    22: ("vanilla_caller::min_depth", depths),
    23: ("vanilla_padded::padded", paddings),
    24: ("vanilla_padded::padded_default", paddings),
    25: ("duplex_partition::extract_strand_from_mi_bytes", suffixes),
    26: ("caller::calculate_error_rate", strands),
    27: ("rates::rate_bits, up to 1,100 to a line", rates),
    28: ("duplex_metrics::strand_metrics", strands),
    29: ("duplex_metrics::duplex_metrics", records),
    30: ("duplex_depths::combined_depths", lambda call, draw, count: depth_pairs(call, draw, count, True)),
    31: ("duplex_depths::depth_range", lambda call, draw, count: depth_pairs(call, draw, count, False)),
    32: ("duplex_position::combine_bases and duplex_errors", positions),
}
