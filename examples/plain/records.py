"""The records of a trace, as docs/SPECIFICATION.md has them in section 1, and what of them is
simulated."""

from fault import Fault

FLUSH = 4
BLANKS = b" \t\r"
DIGITS = b"0123456789abcdefABCDEF"


def record_of(line):
    """The label and the address of a line, or None, or the name of its fault."""
    rest = line.lstrip(BLANKS)
    if not rest:
        return None
    if rest[0] not in b"01234":
        return "label"
    label, rest = rest[0] - ord("0"), rest[1:]
    bare = rest.lstrip(BLANKS)
    if bare == rest or not rest:
        return "gap"
    if bare[:2] in (b"0x", b"0X"):
        bare = bare[2:]
    count = next((at for at, byte in enumerate(bare) if byte not in DIGITS), len(bare))
    if count == 0:
        return "address"
    address = int(bare[:count], 16)
    if address >= 2**64:
        return "range"
    if bare[count:] and bare[count] not in BLANKS:
        return "tail"
    return label, address


def records_of(trace):
    lines = trace.split(b"\n")
    if not lines[-1]:
        lines.pop()
    records = []
    for number, line in enumerate(lines, 1):
        found = record_of(line)
        if isinstance(found, str):
            raise Fault(f"line {number}: {found}", 1)
        if found:
            records.append(found)
    return records


def selected(records, skip, most, every):
    """What is simulated: the references from skip on, at most so many, the flushes among them, and a
    flush behind every so many."""
    number = taken = 0
    for label, address in records:
        if label == FLUSH:
            if number >= skip and (most == 0 or number < skip + most):
                yield FLUSH, 0
            continue
        number += 1
        if number > skip and (most == 0 or number <= skip + most):
            yield label, address
            taken += 1
            if every and taken % every == 0:
                yield FLUSH, 0
