"""Encoded molecules for the tests that run duplexline: their fields, as bytes."""


def field(tag, value):
    return bytes([tag]) + len(value).to_bytes(2, "little") + value


def words(numbers):
    return b"".join(n.to_bytes(2, "little") for n in numbers)


def strand(first, bases, quals, depths, errors):
    """A strand's first four fields; the first tag is 0x10 of A, 0x20 of B."""
    return field(first, bases) + field(first + 1, bytes(quals)) + field(first + 2, words(depths)) + field(first + 3, words(errors))


def molecule(a, b):
    """The strands A and B without annotation, at a threshold of 1, and no list of reads."""
    return field(0x01, (1).to_bytes(4, "little")) + strand(0x10, *a) + strand(0x20, *b)
