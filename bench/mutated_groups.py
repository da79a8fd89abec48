"""Draws groups and changes them, and changes certificates of version 4 in their lines on groups."""
from mutated_texts import replaced

# ---- Groups ----


def draw_group(rng, instance):
    """Two edges or more, required ones for the most part."""
    most = rng.choice([instance.required + 1, len(instance.edges) + 1, 600]) if rng.randrange(8) == 0 else instance.required
    edges = range(1, max(2, most) + 1)
    return sorted(rng.sample(edges, rng.choice([2, rng.randint(2, min(len(edges), 6)), len(edges)])))


def draw_groups(rng, instance, denominator):
    """A few groups of small weights, now and then one of them twice."""
    groups = [(rng.randint(1, 3 * denominator), draw_group(rng, instance)) for _ in range(rng.choice([1, 1, 2, 3]))]
    return groups + groups[:1] if rng.randrange(6) == 0 else groups


def draw_yes_weights(rng, branch, denominator):
    """Yes weights on some pairs that the branch says yes to, and now and then on one that it says no to."""
    pairs = [pair for pair in sorted(branch.yes) if rng.randrange(3)]
    pairs += [pair for pair in sorted(branch.no) if rng.randrange(20) == 0]
    return [(-rng.randint(1, 3 * denominator), list(pair)) for pair in pairs]


def scaled(groups, scale):
    return [(weight * scale, edges) for weight, edges in groups]


def draw_pair_of(rng, instance, certificate):
    """A pair of a node of the tree, or any."""
    pairs = [node[1:] for node in certificate.nodes if node[0] == "pair"]
    return list(rng.choice(pairs)) if pairs and rng.randrange(4) else draw_group(rng, instance)[:2]


def changed_groups(rng, instance, certificate, prices):
    """The groups of a set with one more or less, in another order, or with another weight or other edges in one."""
    groups, denominator = prices.groups, prices.denominator
    kind = rng.randrange(8)
    if kind == 0 or not groups and kind != 1:
        return draw_groups(rng, instance, denominator) + groups
    if kind == 1:
        return groups + [(-rng.randint(1, 2 * denominator), draw_pair_of(rng, instance, certificate))]
    if kind == 2:
        return rng.sample(groups, len(groups))
    place = rng.randrange(len(groups))
    weight, edges = groups[place]
    if kind == 3:
        return groups[:place] + groups[place + 1:]
    if kind == 4:
        return replaced(groups, place, (-weight, edges))
    if kind == 5:
        other = rng.randint(1, instance.required + 1)
        return replaced(groups, place, (weight, sorted(set(edges) ^ {other})))
    by = rng.choice([-1, 1, -1, 1, -denominator, denominator, rng.choice([-1, 1]) * 10**rng.randint(2, 15)])
    return replaced(groups, place, (weight + by, edges))


def change_groups(rng, instance, certificate):
    if not certificate.sets:
        return certificate
    place = rng.randrange(len(certificate.sets))
    prices = certificate.sets[place]
    changed = prices._replace(groups=changed_groups(rng, instance, certificate, prices))
    return certificate._replace(sets=replaced(certificate.sets, place, changed))


# ---- Lines ----

ENDS = [
    b"1", b"0", b"-1", b"1 2", b"1 2 1", b"1 2 1 2", b"-1 2 1 2", b"0 2 1 2", b"1 0", b"1 0 1", b"1 1 1", b"1 601", b"1 60001", b"5 2 2 1", b"5 2 1 1", b"-5 3 1 2 3",
    b"5 3 1 2 3", b"-5 3 1 2", b"7 -1", b"7 2 -1", b"7 2 1 -2", b"1 2 1 601", b"1000000000000001 2 1 2", b"-1000000000000000 2 1 2", b"1 2 0 1", b"", b"x", b"1  2",
]
NUMBERS = [-1, 0, 1, 2, 3, 599, 600, 601, 1_999, 2_000, 2_001, 59_999, 60_000, 60_001, 10**15, 10**15 + 1, -10**15, -10**15 - 1, 2**64, 10**40]


def with_bonds(text, line):
    """A text with counts as one of version 4, in which this line stands behind each line of weights."""
    lines = [b"carp-certificate 4", *text.split(b"\n")[1:]]
    lines = [old for old in lines if not old.startswith(b"bonds")]
    return b"\n".join(new for old in lines for new in ([old, line] if old.startswith(b"weights") else [old]))


def change_bonds(rng, text):
    """One line of groups changed. Without such a line the text gets one in each set."""
    lines = text.split(b"\n")
    places = [place for place, line in enumerate(lines) if line.startswith(b"bonds")]
    if not places:
        return with_bonds(text, b"bonds %d %s" % (rng.choice([0, 1, 1]), rng.choice(ENDS)))
    place = rng.choice(places)
    words = lines[place].split(b" ")
    at = rng.randrange(len(words))
    kind = rng.randrange(7)
    if kind == 0:
        words = words[:at]
    elif kind == 1 or kind == 2:
        words += rng.choice(ENDS).split(b" ")
    elif kind == 3:
        words[at] = str(rng.choice(NUMBERS)).encode()
    elif kind == 4:
        words[at:at + 2] = words[at:at + 2][::-1]
    elif kind == 5:
        words = [b"bonds", b"0"]
    if words[1:2] and words[1].isdigit() and (kind == 6 or kind == 1):
        words[1] = str(max(0, int(words[1]) + rng.choice([-1, 1, 1]))).encode()
    return b"\n".join(replaced(lines, place, b" ".join(words)))


def change_version(rng, text):
    """Another version, or lines of another version."""
    lines = text.split(b"\n")
    lines[0] = b"carp-certificate %d" % rng.choice([1, 2, 3, 4, 4, 5])
    kind = rng.randrange(4)
    if kind == 0:
        lines = [line for line in lines if not line.startswith(b"bonds")]
    elif kind == 1:
        lines = [line for line in lines if not line.startswith(b"instance")]
    elif kind == 2:
        return with_bonds(b"\n".join(lines), b"bonds 0")
    return b"\n".join(lines)


def mutated_lines(rng, text):
    for _ in range(rng.choice([1, 1, 1, 2])):
        text = rng.choice([change_bonds, change_bonds, change_bonds, change_version])(rng, text)
    return text


def group_words(weight, edges):
    return b" %d %d %s" % (weight, edges, b" ".join(b"%d" % edge for edge in range(1, edges + 1)))


def lines_at_limits():
    """Lines of groups at the limits, and beyond them."""
    largest = group_words(1, 600)
    yield b"bonds 0"
    for pairs in [1, 1_999, 2_000, 2_001]:
        for weight in [1, 10**15]:
            yield b"bonds %d" % pairs + group_words(weight, 2) * pairs
    for edges in [1, 2, 599, 600, 601]:
        yield b"bonds 1" + group_words(1, edges)
        yield b"bonds 1 1 %d" % edges
    yield b"bonds 100" + largest * 100
    yield b"bonds 101" + largest * 99 + group_words(1, 599) + group_words(1, 2)
    yield b"bonds 101" + largest * 100 + group_words(1, 2)
    yield b"bonds 1" + largest * 99 + b" 1 600"
    yield b"bonds 1" + largest * 100 + b" 1 2"
    yield b"bonds 1" + b" 1 0" * 70_000
    yield b"bonds 1" + b" 1 2 1 2" * 30_001
    for weight in [-10**15 - 1, -10**15, -1, 0, 1, 10**15, 10**15 + 1]:
        yield b"bonds 1" + group_words(weight, 2)
        yield b"bonds 1" + group_words(weight, 3)
