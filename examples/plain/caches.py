"""Caches that take no care of speed: what they hold are lists of blocks, the one that was used last
first, which are searched from the front."""

from dataclasses import dataclass, field

from records import FLUSH, selected

INSTR, READ, WRITE, MISC = range(4)


def none_by_class():
    """Counts of the four classes."""
    return [0, 0, 0, 0]


@dataclass
class Cache:
    """A cache, what it has counted, and the blocks of each set, of the shadow, and of all time."""

    size: int
    block: int
    ways: int
    replacement: str
    write_back: str
    allocate: str
    sets: dict = field(default_factory=dict)
    shadow: list = field(default_factory=list)
    dirty: set = field(default_factory=set)
    known: set = field(default_factory=set)
    fetches: list = field(default_factory=none_by_class)
    misses: list = field(default_factory=none_by_class)
    compulsory: list = field(default_factory=none_by_class)
    capacity: list = field(default_factory=none_by_class)
    conflict: list = field(default_factory=none_by_class)
    fully_associative: list = field(default_factory=none_by_class)
    fetched: int = 0
    written_back: int = 0
    sent_on: int = 0
    flushes: int = 0

    def access(self, kind, address):
        """Serves an access, and answers what it sends to the next level, in order."""
        block = address // self.block
        held = self.sets.setdefault(block % (self.size // (self.block * self.ways)), [])
        is_write, hit = kind == WRITE, block in held
        self.fetches[kind] += 1
        hit_in_shadow = self.use_shadow(kind, block)
        if not hit:
            self.misses[kind] += 1
            self.count_kind(kind, block, hit_in_shadow)
        self.known.add(block)
        sent = []
        uses = hit or not is_write or self.allocate == "a"
        if hit and self.replacement == "l":
            held.remove(block)
            held.insert(0, block)
        elif uses and not hit:
            sent = self.load(held, block)
        if is_write and uses and self.write_back == "a":
            self.dirty.add(block)
        elif is_write:
            self.sent_on += 1
            sent.append((WRITE, address))
        return sent

    def use_shadow(self, kind, block):
        hit = block in self.shadow
        if hit:
            self.shadow.remove(block)
        else:
            self.fully_associative[kind] += 1
        if hit or kind != WRITE or self.allocate == "a":
            self.shadow.insert(0, block)
            del self.shadow[self.size // self.block :]
        return hit

    def count_kind(self, kind, block, hit_in_shadow):
        if block not in self.known:
            self.compulsory[kind] += 1
        elif hit_in_shadow:
            self.conflict[kind] += 1
        else:
            self.capacity[kind] += 1

    def load(self, held, block):
        sent = []
        held.insert(0, block)
        if len(held) > self.ways:
            sent = self.write_out({held.pop()} & self.dirty)
        self.fetched += 1
        return [*sent, (None, block * self.block)]

    def write_out(self, blocks):
        """Blocks that are written back, by rising address."""
        self.dirty -= blocks
        self.written_back += len(blocks)
        return [(WRITE, block * self.block) for block in sorted(blocks)]

    def flush(self):
        self.flushes += 1
        self.sets, self.shadow = {}, []
        return self.write_out(set(self.dirty))


def simulate(settings, records):
    """The three caches, after all that is selected. What the second level is asked to fetch is of
    class instr for the instruction cache, and of class read for the data cache."""
    first_i = Cache(*settings.of("l1-i"), "a", "a")
    first_d = Cache(*settings.of("l1-d"), *settings.writes("l1-d"))
    second = Cache(*settings.of("l2-u"), *settings.writes("l2-u"))
    for label, address in selected(records, *settings.selection()):
        if label == FLUSH:
            parts = first_i.flush() + first_d.flush()
        elif label == 2:
            parts = first_i.access(INSTR, address)
        else:
            parts = first_d.access({0: READ, 1: WRITE, 3: MISC}[label], address)
        for kind, at in parts:
            fetch = INSTR if label == 2 else READ
            second.access(fetch if kind is None else kind, at)
        if label == FLUSH:
            second.flush()
    return first_i, first_d, second
