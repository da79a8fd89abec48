#!/usr/bin/env python3
"""Prints a valid instance of BYTES - 1 bytes, always the same one for the same words.

usage: make_long.py BYTES [EDGES]

It has 4,000 edges, or as many as are stated, of which at most 600 are required, on few vertices. Lines of COMENTARIO and other
keys that are skipped, blank lines and remarks stand between its lines, and blanks stand between the parts of its edge lines.
"""
import random
import re
import sys

sys.dont_write_bytecode = True
from make_instance import MOST_EDGES, MOST_REQUIRED, make  # noqa: E402

SEED = 1
CAPACITY = 1_000
MOST_VERTICES = 100
MOST_BLANKS = 300  # in one edge line
BLANKS = b"\t\r\x1a " + 12 * b" "
OPENINGS = [b"COMENTARIO : ", b"NOMBRE : ", b"VEHICULOS : ", b"TIPO_COSTES_ARISTAS : ", b"COSTE_TOTAL_REQ : ", b"; ", b"# ", b""]
WORDS = [b"calle", b"norte", b"sur", b"ca\xc3\xb1ada", b"( 1, 2)", b"coste", b"demanda 7", b"1234567890123456789012", b"=:", b"\xff"]


def blanks(rng, count):
    return bytes(rng.choices(BLANKS, k=count))


def widened(rng, line, count):
    """The edge line with so many blanks more, put anywhere between its parts."""
    parts = re.findall(rb"\d+|[a-z]+|[(),]", line)
    gaps = [0] * (len(parts) + 1)
    for _ in range(count):
        gaps[rng.randrange(len(gaps))] += 1
    text = blanks(rng, gaps[0])
    for part, gap in zip(parts, gaps[1:]):
        text += (part.upper() if rng.randrange(8) == 0 else part) + blanks(rng, gap)
    return text


def skipped(rng):
    """A line that is skipped."""
    kind = rng.randrange(8)
    if kind == 0:
        return blanks(rng, rng.randrange(3))
    if kind == 1:
        return blanks(rng, rng.randrange(80))
    opening = rng.choice(OPENINGS) if kind < 5 else OPENINGS[0]
    words = rng.choices(WORDS, k=rng.randint(1, 12))
    if opening == b"":
        words[0] = b"calle"
    return opening + b" ".join(words)


def fillers(rng, size):
    """Skipped lines of so many bytes in all, with their line feeds."""
    lines = []
    while size > 0:
        line = skipped(rng)[: size - 1]
        lines.append(line)
        size -= len(line) + 1
    return lines


def main():
    try:
        size, count = map(int, (sys.argv[1:] + [MOST_EDGES])[:2])
    except ValueError:
        sys.exit("usage: make_long.py BYTES [EDGES]")
    if not 1 <= count <= MOST_EDGES:
        sys.exit("make_long.py: EDGES is out of range")
    rng = random.Random(SEED)
    required = min(count, MOST_REQUIRED)
    head, served, others, depot = make(min(count + 1, MOST_VERTICES), count, required, CAPACITY, SEED)
    lines = head + ["LISTA_ARISTAS_REQ :"] + served + ["LISTA_ARISTAS_NOREQ :"] + others + depot
    lines = [line.encode() for line in lines]

    spare = size - 1 - sum(len(line) + 1 for line in lines)
    if spare < 0:
        sys.exit("make_long.py: BYTES is too small for the edges")
    each = min(spare // 3 // count, MOST_BLANKS)
    lines = [widened(rng, line, each) if line.startswith(b"(") else line for line in lines]
    spare = size - 1 - sum(len(line) + 1 for line in lines)

    # Every line stands in its order, and the skipped lines anywhere between.
    between = fillers(rng, spare)
    places = set(rng.sample(range(len(lines) + len(between)), len(lines)))
    own, more = iter(lines), iter(between)
    mixed = [next(own) if i in places else next(more) for i in range(len(lines) + len(between))]
    sys.stdout.buffer.write(b"\n".join(mixed) + b"\n")


if __name__ == "__main__":
    main()
