"""What `measure cache` has to print: the counts of plain caches over the references that it makes."""

from caches import READ, WRITE, Cache

SIZE, BLOCK = 65536, 16


def references(count):
    """The class and the address of each: one in four is a write, and three in four go to a sixteenth
    of all blocks."""
    state = 1
    for _ in range(count):
        state = (state * 6364136223846793005 + 1442695040888963407) % 2**64
        bits = state >> 32
        blocks = 16384 if bits // 4 % 4 == 0 else 1024
        yield (WRITE if bits % 4 == 0 else READ), bits // 16 % blocks * BLOCK


def lines(count):
    """The line of each number of ways."""
    for ways in (1, 8, 256, 4096):
        cache = Cache(SIZE, BLOCK, ways, "l", "a", "a")
        for kind, address in references(count):
            cache.access(kind, address)
        yield (
            f"{ways} ways: {sum(cache.misses)} misses, {sum(cache.compulsory)} compulsory, "
            f"{sum(cache.capacity)} capacity, {sum(cache.conflict)} conflict, "
            f"{cache.written_back} written back"
        )
