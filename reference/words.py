"""The words of a seed, and the script that `gen` makes of them: a second writing of the generator of
docs/SCRIPTS.md. The words are those of PCG's Lcg64Xsh32, with its seed widened as rand_core's seed_from_u64 does.
"""

MASK_32, MASK_64 = 2**32 - 1, 2**64 - 1
MULTIPLIER = 6364136223846793005
WIDENING_INCREMENT = 11634580027462260723


def output(state):
    """The word of a state: its high bits, turned by the highest five."""
    mixed = ((state >> 18 ^ state) >> 27) & MASK_32
    turn = state >> 59
    return (mixed >> turn | mixed << (-turn & 31)) & MASK_32


def words(seed):
    """The 32-bit words of a seed, one after the other, without end."""
    parts = []
    for _ in range(4):
        seed = (seed * MULTIPLIER + WIDENING_INCREMENT) & MASK_64
        parts.append(output(seed))
    start, increment = parts[0] | parts[1] << 32, parts[2] | parts[3] << 32 | 1
    state = ((start + increment) * MULTIPLIER + increment) & MASK_64
    while True:
        yield output(state)
        state = (state * MULTIPLIER + increment) & MASK_64


ROUNDS = [
    ["read %s", "endread %s"],
    ["write %s", "add %s 0 1", "endwrite %s"],
    ["flush %s"],
    ["unmap %s", "map %s"],
]


def generated(seed, nodes, regions, rounds):
    """The text that `gen` prints for these words."""
    drawn = words(seed)
    labels = ["r%d_%d" % (region % nodes, region // nodes + 1) for region in range(regions)]
    lines = ["nodes %d" % nodes, "cache 16"]
    for node in range(nodes):
        lines.append("node %d" % node)
        lines += ["create %s 16" % labels[region] for region in range(node, regions, nodes)]
        lines.append("barrier")
        lines += ["map %s" % label for label in labels]
        for _ in range(rounds):
            label, kind = labels[next(drawn) % regions], next(drawn) % 4
            lines += [line % label if "%s" in line else line for line in ROUNDS[kind]]
        lines.append("barrier")
        lines += ["unmap %s" % label for label in labels]
    return "".join(line + "\n" for line in lines).encode()
