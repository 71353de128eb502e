"""The fixed list: the file molecules has encoded molecules, each behind its length (four bytes, low byte first); the file expected has what
duplexline prints for them, one text after the other. oracle/line/run makes both."""
import pathlib

HERE = pathlib.Path(__file__).resolve().parent


def molecules():
    listed = (HERE / "molecules").read_bytes()
    while listed:
        size = 4 + int.from_bytes(listed[:4], "little")
        yield listed[4:size]
        listed = listed[size:]


def texts():
    """What is expected: a refusal is one line, anything else two."""
    lines = iter((HERE / "expected").read_text().splitlines(keepends=True))
    for line in lines:
        yield line if line.startswith("refused ") else line + next(lines)
