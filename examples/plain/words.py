"""The options, as docs/SPECIFICATION.md has them in section 6, and the rules of a configuration."""

from dataclasses import dataclass

from fault import Fault

OPTIONS = [
    *(f"l1-i{it}" for it in ("size", "bsize", "assoc", "repl")),
    *(f"l1-d{it}" for it in ("size", "bsize", "assoc", "repl", "wback", "walloc")),
    *(f"l2-u{it}" for it in ("size", "bsize", "assoc", "repl", "wback", "walloc")),
    "ring",
    "skipcount",
    "maxcount",
    "flushcount",
]
LETTERS = {"repl": "lf", "wback": "an", "walloc": "an"}
CACHES = (("l1-i", "l1-icache"), ("l1-d", "l1-dcache"), ("l2-u", "l2-ucache"))


def default_of(option):
    """The text of an option that is not given. Sizes and blocks have to be."""
    defaults = {"assoc": "1", "repl": "l", "wback": "a", "walloc": "a"}
    return "64" if option == "ring" else defaults.get(option[4:], "0")


def number_of(text, units):
    unit = units.get(text[-1:].lower(), 1)
    digits = text[:-1] if text[-1:].lower() in units else text
    if not (1 <= len(digits) <= 12 and digits.isascii() and digits.isdigit()):
        raise ValueError
    return int(digits) * unit


def value_of(option, text):
    """A number, or a letter."""
    kind = option[4:]
    if kind in LETTERS:
        if text not in tuple(LETTERS[kind]):
            raise Fault(f"--{option}: not a lawful letter", 2)
        return text
    try:
        return number_of(text, {"k": 2**10, "m": 2**20} if option.endswith("size") else {})
    except ValueError:
        raise Fault(f"--{option}: not a number", 2) from None


def is_power_of_two(number):
    return number > 0 and number & (number - 1) == 0


@dataclass
class Settings:
    """The value of each option."""

    values: dict

    def of(self, cache):
        return [self.values[cache + it] for it in ("size", "bsize", "assoc", "repl")]

    def writes(self, cache):
        return [self.values[cache + it] for it in ("wback", "walloc")]

    def selection(self):
        return [self.values[it] for it in ("skipcount", "maxcount", "flushcount")]

    def broken(self):
        """The first rule that the configuration breaks, or None."""
        for cache, name in CACHES:
            size, block, ways, _ = self.of(cache)
            rules = (
                ("size is not a power of two", is_power_of_two(size)),
                ("size is out of range", 4 <= size <= 2**24),
                ("block is not a power of two", is_power_of_two(block)),
                ("block is out of range", 4 <= block <= min(4096, size)),
                ("associativity is not a power of two", is_power_of_two(ways)),
                ("associativity is too large", block and ways <= size // block),
            )
            for text, is_kept in rules:
                if not is_kept:
                    return f"{name}: {text}"
        blocks = [self.of(cache)[1] for cache, _ in CACHES]
        if blocks[2] < max(blocks):
            return "l2 block is shorter than an l1 block"
        if not 1 <= self.values["ring"] <= 65536:
            return "ring is not from 1 to 65536"
        return None
