#!/usr/bin/env python3
# Stored inputs for the program `listings`, and what it must print for them, by a model of document 01 that shares nothing
# with the port. Run from the root: writes stdin and stdout of crates/listings and of crates/arq_show, and the listings among the
# samples of ./arq-show, samples/arq-show/NAME/stdin and stdout.
import pathlib
import random

WIDTH = [20, 24, 34, 50]


def bits(width, value):
    return [value >> (width - 1 - i) & 1 for i in range(width)]


def number(bs):
    return int("".join(map(str, bs)), 2) if bs else 0


def pack(bs):
    assert len(bs) == 109
    bs = bs + [0, 0, 0]
    return bytes(number(bs[i:i + 8]) for i in range(0, 112, 8))


def octet_bits(octets):
    return [b for x in octets for b in bits(8, x)]


# ---- frames, by the table of module 3

def head(usage, kind, kind_type, bit, flags=0, zero=0, response=0):
    return bits(3, usage) + bits(3, flags) + [zero] + bits(3, kind) + bits(2, kind_type) + [bit, response]


def begin(t, value, message, echo=5, usage=3, bit=0, encrypted=0, reserved=0, polling=0, mode=0, count=None, data=None, **rest):
    room = 75 - WIDTH[t]
    count = len(message) if count is None else count
    own = (octet_bits(message) + [0] * room)[:room] if data is None else data
    return pack(head(usage, 5, t, bit, **rest) + [encrypted] + bits(WIDTH[t], value) + bits(7, echo) + bits(2, reserved)
                + [polling, mode] + bits(8, count) + own)


def cont(t, k, data, echo=5, usage=3, bit=0, reserved=0, polling=0, mode=0, **rest):
    return pack(head(usage, 6, t, bit, **rest) + bits(7, echo) + bits(2, reserved) + [polling, mode] + bits(5, k) + data)


def pieces(t, message):
    late = octet_bits(message)[75 - WIDTH[t]:]
    late += [0] * (-len(late) % 79)
    return [late[i:i + 79] for i in range(0, len(late), 79)]


def cut(t, value, message, **rest):
    return [begin(t, value, message, **rest)] + [cont(t, k, d, **rest) for k, d in enumerate(pieces(t, message))]


# ---- the receiver, by module 4 and the refusals in their order

def decode(octets):
    bs = octet_bits(octets)
    at = [0]

    def take(width):
        at[0] += width
        return number(bs[at[0] - width:at[0]])

    if number(bs[109:]):
        return 15
    usage = take(3)
    if usage not in (3, 4, 7):
        return 3
    take(3)
    if take(1):
        return 6
    if usage == 7:
        return 3
    kind, t, bit, _ = take(3), take(2), take(1), take(1)
    if kind not in (5, 6):
        return 4
    if kind == 6:
        echo, reserved, _, _, k = take(7), take(2), take(1), take(1), take(5)
        return 6 if reserved else 12 if k > 25 else ("continue", usage, t, echo, k, bs[at[0]:109])
    if bit:
        return 4
    if take(1):
        return 5
    value = take(WIDTH[t])
    if not value:
        return 2
    echo, reserved, _, _, count = take(7), take(2), take(1), take(1), take(8)
    if reserved:
        return 6
    data = bs[at[0]:109]
    return 7 if any(data[8 * count:]) else ("begin", usage, t, echo, value, count, data)


class Receiver:
    def __init__(self, t, value):
        self.t, self.value, self.held = t, value, None

    def push(self, octets):
        f = decode(octets)
        if isinstance(f, int):
            return "refused-%d" % f, None
        if f[0] == "begin":
            if (f[2], f[4]) != (self.t, self.value):
                return "ignored", None
            self.held, self.slots, self.done = f, {}, False
        else:
            _, usage, t, echo, k, data = f
            if not self.held or (usage, t, echo) != (self.held[1], self.t, self.held[3]):
                return "ignored", None
            if k >= self.needed():
                return "refused-12", None
            if any(data[max(0, 8 * self.held[5] - (75 - WIDTH[self.t]) - 79 * k):]):
                return "refused-7", None
            if self.slots.get(k, data) != data:
                return "refused-14", None
            self.slots[k] = data
        if self.done or len(self.slots) != self.needed():
            return "heard", None
        self.done = True
        text = self.held[6] + [b for k in range(self.needed()) for b in self.slots[k]]
        return "message", bytes(number(text[i:i + 8]) for i in range(0, 8 * self.held[5], 8))

    def needed(self):
        return max(0, -(-(8 * self.held[5] - (75 - WIDTH[self.t])) // 79))

    def status(self):
        if not self.held:
            return "- 00000000"
        return "%d %08x" % (self.held[3], sum(1 << k for k in self.slots))


# ---- the listing

def listing(octets):
    t, value = octets[0] if octets else 4, int.from_bytes(octets[1:9], "big")
    if len(octets) < 9 or t > 3 or not 0 < value < 1 << WIDTH[t]:
        return "identity\n"
    receiver, frames, messages = Receiver(t, value), octets[9:], 0
    out = "frame answer echo map text\n"
    for n in range(len(frames) // 14):
        answer, message = receiver.push(frames[14 * n:14 * n + 14])
        text = "-" if message is None else message.hex() or "empty"
        messages += message is not None
        out += "%d %s %s %s\n" % (n + 1, answer, receiver.status(), text)
    if len(frames) % 14:
        out += "cut %d\n" % (len(frames) % 14)
    return out + "messages %d\n" % messages


def identity(t, value):
    return bytes([t]) + value.to_bytes(8, "big")


def inputs():
    one = begin(0, 1, b"A", polling=1)
    own = identity(0, 1)
    yield b""
    yield bytes(8)
    yield own[:8]
    yield identity(4, 1) + one
    yield identity(255, 1)
    yield identity(0, 0) + one
    yield identity(0, 1 << 20)
    yield identity(0, (1 << 32) + 1) + one
    yield identity(3, 1 << 63)
    yield identity(0, 0) + b"\1\2\3"
    for t in range(4):
        top = (1 << WIDTH[t]) - 1
        yield identity(t, top) + begin(t, top, b"B", echo=127) + begin(t, 1, b"C")
        yield identity(t, top + 1) + begin(t, top, b"B")
    yield own
    for tail in (b"\x61", one[:13]):
        yield own + tail
        yield own + one + tail
    # every refusal that decode gives, before and after a Begin
    bad = [
        one[:13] + b"\1", begin(0, 1, b"A", usage=5), begin(0, 1, b"A", zero=1), begin(0, 1, b"A", usage=7),
        begin(0, 1, b"A", usage=7, zero=1), pack(head(3, 1, 0, 0) + [0] * 95), begin(0, 1, b"A", bit=1),
        begin(0, 1, b"A", bit=1, encrypted=1), begin(0, 1, b"A", encrypted=1), begin(0, 0, b"A"), begin(0, 1, b"A", reserved=1),
        begin(0, 1, b"A", reserved=2), begin(0, 1, b"", data=[1] + [0] * 54), begin(0, 1, b"A", data=[0] * 54 + [1]),
        cont(0, 0, [0] * 79, reserved=1), cont(0, 26, [0] * 79), cont(0, 31, [0] * 79), bytes(14), b"\xff" * 14,
    ]
    yield own + b"".join(bad)
    yield own + one + b"".join(bad)
    # push's own: a number not needed, filler past the message, other data; ignored frames; the last slot, and again
    text = bytes(range(1, 31))
    first, *rest = cut(0, 1, text)
    other = [1 - b for b in pieces(0, text)[0]]
    last = pieces(0, text)[-1][:-1] + [1]
    yield own + b"".join([
        rest[0], first, rest[0], rest[0], cont(0, 0, other), cont(0, len(rest), [0] * 79), cont(0, len(rest) - 1, last),
        cont(0, 25, [0] * 79), cont(0, 1, pieces(0, text)[1], echo=6), cont(0, 1, pieces(0, text)[1], usage=4),
        cont(1, 1, pieces(0, text)[1]), begin(0, 2, text), begin(1, 1, text), cont(0, 1, pieces(0, text)[1], bit=1, polling=1),
        *rest[2:], *rest, cont(0, 0, other), first, *reversed(rest),
    ])
    yield own + one + cont(0, 0, [0] * 79) + one
    yield own + begin(0, 1, b"") + cont(0, 0, [0] * 79) + begin(0, 1, b"", echo=0, usage=4)
    yield own + begin(0, 1, b"", usage=4) + begin(0, 1, b"", flags=7, response=1, mode=1)
    for t in range(4):
        room = (75 - WIDTH[t]) // 8
        for size in (room, room + 1):
            yield identity(t, 9) + b"".join(cut(t, 9, bytes(range(7, 7 + size)), echo=t, usage=4))
    # 255 octets in 27 frames, doubled and out of order, then the Begin again; more than one chunk of frames
    rng = random.Random(136)
    for t in range(4):
        message = bytes(rng.randrange(256) for _ in range(255))
        first, *rest = cut(t, 77, message, echo=100)
        assert len(rest) == 26
        mixed = rest + rng.sample(rest, 20)
        rng.shuffle(mixed)
        yield identity(t, 77) + first + b"".join(mixed) + first + b"".join(rest) + first[:t]
    # a chunk less a frame, a whole one, a frame more, two whole ones; a cut frame after a whole one
    for n in (63, 64, 65, 128):
        yield own + one * n
    yield own + one * 64 + one[:1]
    # every echo, and every octet in a message
    yield own + b"".join(begin(0, 1, b"A", echo=echo) for echo in range(128))
    for half in (bytes(range(128)), bytes(range(128, 256))):
        yield own + b"".join(cut(0, 1, half, echo=42))
    # the first bit past the message, of each type: in the one Continue, and in the last of several
    for t in range(4):
        for size in (10, 26):
            first, *rest = cut(t, 9, bytes(range(200, 200 + size)), echo=42)
            *_, last = pieces(t, bytes(range(200, 200 + size)))
            end = 8 * size - (75 - WIDTH[t]) - 79 * (len(rest) - 1)
            filled = cont(t, len(rest) - 1, last[:end] + [1] + last[end + 1:], echo=42)
            yield identity(t, 9) + first + filled + b"".join(rest) + filled
    # frames and messages past 1,000
    yield own + one * 1100


def shown():
    """What arq_show is run with: 01's sample, then frames over several chunks, of all echoes and of the longest message."""
    one = begin(0, 1, b"A", polling=1)
    message = bytes(range(255))
    return identity(0, 1) + one + one[:13] + b"\1" + b"".join(begin(0, 1, bytes([echo]), echo=echo) for echo in range(128)) + b"".join(
        cut(0, 1, message, echo=42)) + one[:3]


def samples():
    one, own = begin(0, 1, b"A", polling=1), identity(0, 1)
    text = bytes(range(1, 31))
    first, *rest = cut(0, 1, text)
    other = [1 - b for b in pieces(0, text)[0]]
    yield "document-01", own + one + one[:13] + b"\1"
    # a Continue before its Begin, a neighbour's frames, one number with other data, repeats, and the Begin again
    yield "an-order-of-four-frames", own + b"".join([
        rest[0], first, rest[0], begin(0, 2, text), cont(0, 1, pieces(0, text)[1], echo=6), rest[2], cont(0, 0, other),
        rest[0], rest[1], rest[2], first,
    ])
    yield "a-cut-frame", own + one + one[:13]
    yield "a-short-identity", own[:8]
    yield "type-4", identity(4, 1) + one


if __name__ == "__main__":
    for name, octets in samples():
        folder = pathlib.Path("samples/arq-show") / name
        folder.mkdir(parents=True, exist_ok=True)
        (folder / "stdin").write_bytes(octets)
        (folder / "stdout").write_text(listing(octets))
    stored = list(inputs())
    with open("crates/listings/stdin", "wb") as f:
        f.write(b"".join(len(i).to_bytes(2, "big") + i for i in stored))
    with open("crates/listings/stdout", "w") as f:
        f.write("".join(map(listing, stored)))
    pathlib.Path("crates/arq_show/stdin").write_bytes(shown())
    pathlib.Path("crates/arq_show/stdout").write_text(listing(shown()))
