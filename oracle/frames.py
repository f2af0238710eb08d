"""A second reading of the ACK frame, from RFC 9000, sections 16 and 19.3, written apart from the proved one and in
another language. answer(event) gives the line that the replayer has to print for an af event.

python3 oracle/frames.py LENGTH: every buffer of up to LENGTH bytes over a small alphabet, as af.read events."""
import itertools, sys

TOP = 2**62


class Fault(Exception):
    pass


class Cursor:
    def __init__(self, data):
        self.data, self.at = data, 0

    def number(self):
        if self.at == len(self.data):
            raise Fault("1 SHORT")
        size = 2 ** (self.data[self.at] // 64)
        field = self.data[self.at : self.at + size]
        if len(field) < size:
            raise Fault("1 SHORT")
        self.at += size
        return int.from_bytes(bytes([field[0] % 64]) + field[1:], "big")


def shortest(v):
    size = 1
    while v >= 2 ** (8 * size - 2):
        size *= 2
    return (v + {1: 0, 2: 1, 4: 2, 8: 3}[size] * 2 ** (8 * size - 2)).to_bytes(size, "big")


def below(a, b):
    """a - b, where a packet number is never below 0"""
    if a < b:
        raise Fault("3 MALFORMED")
    return a - b


def read(data, places):
    c = Cursor(data)
    kind = c.number()
    if shortest(kind) != data[: c.at]:
        raise Fault("3 MALFORMED")
    if kind != 2:
        raise Fault("4 KIND")
    largest, delay, more = c.number(), c.number(), c.number()
    smallest = below(largest, c.number())
    found = [(smallest, largest + 1)]
    for left in range(more, -1, -1):
        if len(found) > places:
            raise Fault("5 FULL")
        if left == 0:
            break
        top = below(smallest, c.number() + 2)
        smallest = below(top, c.number())
        found.append((smallest, top + 1))
    return c.at, delay, found[::-1]


def write(space, delay, pairs):
    flat = [x for p in pairs for x in p]
    if not pairs or flat != sorted(set(flat)) or flat[-1] > TOP or delay >= TOP:
        raise Fault("2 RANGE")
    down = pairs[::-1]
    out = shortest(2) + shortest(down[0][1] - 1) + shortest(delay) + shortest(len(down) - 1) + shortest(down[0][1] - 1 - down[0][0])
    for (above, _), (s, e) in zip(down, down[1:]):
        out += shortest(above - (e - 1) - 2) + shortest(e - 1 - s)
    if len(out) > space:
        raise Fault("11 ROOM")
    return out


def answer(event):
    words = event.split()
    try:
        if words[0] == "af.read":
            taken, delay, found = read(b"" if words[1] == "-" else bytes.fromhex(words[1]), int(words[2]))
            return "0 OK %d %d %s" % (taken, delay, " ".join("%d..%d" % p for p in found))
        numbers = [int(w) for w in words[1:]]
        return "0 OK " + write(numbers[0], numbers[1], list(zip(numbers[2::2], numbers[3::2]))).hex()
    except Fault as f:
        return str(f)


if __name__ == "__main__":
    alphabet = (0x00, 0x01, 0x02, 0x03, 0x05, 0x3F, 0x40, 0x42, 0x80, 0xC0)
    for n in range(int(sys.argv[1]) + 1):
        for b in itertools.product(alphabet, repeat=n):
            for places in (0, 1, 64):
                print("af.read %s %d" % (bytes(b).hex() or "-", places))
