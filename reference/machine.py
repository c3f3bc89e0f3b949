"""The single machine of docs/SINGLE_MACHINE.md: one array of byte regions, which takes entries one at a time.

An entry is a node, the word of its line, and the fields behind it. A name is a pair of its home and its serial.
"""

REGION_LIMIT = 16_777_216
SEND_LIMIT = 65_536
LAST = 2**32 - 1  # of serials, map counts and nested reads

ROUND_RESULTS = {b"barrier", b"broadcast", b"sum", b"min", b"max"}

# The calls that each reason may refuse. BadSize and Mixed change something, and stand in methods of their own.
REFUSED_CALLS = {
    b"BadSize": set(),
    b"NamesSpent": {b"create"},
    b"Unknown": {b"map", b"delete"},
    b"Deleted": {b"map", b"delete"},
    b"NotMapped": {b"unmap", b"read", b"endread", b"write", b"endwrite", b"put", b"add", b"flush"},
    b"SectionOpen": {b"read", b"write"},
    b"NotReading": {b"endread"},
    b"NotWriting": {b"endwrite", b"put", b"add"},
    b"InSection": {b"unmap", b"flush"},
    b"OutOfRange": {b"put", b"add"},
    b"WrongSize": {b"send"},
    b"TooMany": {b"map", b"read"},
}


def fold(parts):
    """What a round gives, as its entry says it. None where the parts are mixed."""
    kinds = [part[0] for part in parts]
    if kinds.count(b"send") == 1 and kinds.count(b"receive") == len(kinds) - 1:
        return [b"broadcast", next(part[1] for part in parts if part[0] == b"send")]
    if len(set(kinds)) > 1 or kinds[0] in (b"send", b"receive"):
        return None
    if kinds[0] == b"barrier":
        return [b"barrier"]
    return [kinds[0], {b"sum": sum, b"min": min, b"max": max}[kinds[0]](part[1] for part in parts)]


class Region:
    def __init__(self, length):
        self.bytes = bytes(length)
        self.stage = "Live"
        self.deleter = None


class Desk:
    """What the machine knows of one node."""

    def __init__(self):
        self.used = 0
        self.maps, self.reads, self.writes = {}, {}, {}
        self.came = []
        self.told = 0

    def mapped(self, place):
        return self.maps.get(place, 0) > 0

    def section(self, place):
        return self.reads.get(place, 0) > 0 or self.writes.get(place, False)


class Machine:
    """One machine with one array of byte regions. Each of its entries' methods says whether the entry is a
    legal step, and takes it if so."""

    def __init__(self, nodes):
        self.desks = [Desk() for _ in range(nodes)]
        self.regions = {}

    def step(self, who, word, what):
        """Takes an entry. False, and nothing is changed, where it isn't legal."""
        if who >= len(self.desks):
            return False
        desk = self.desks[who]
        if word in ROUND_RESULTS:
            return self.result(desk, what[0], [word, *what[1:]])
        if word == b"refused" and what[2] == b"Mixed":
            return self.mixed(desk, *what)
        if word != b"deleted" and self.engaged(who):
            return False
        return getattr(self, word.decode())(who, desk, *what)

    def engaged(self, who):
        desk = self.desks[who]
        deletes = any(region.stage == "Going" and region.deleter == who for region in self.regions.values())
        return desk.told < len(desk.came) or deletes

    def stage(self, place):
        return self.regions[place].stage if place in self.regions else "Unknown"

    def is_there(self, place):
        return self.stage(place) in ("Live", "Going")

    def create(self, who, desk, place, length):
        if place != (who, desk.used + 1) or place[1] > LAST or not 1 <= length <= REGION_LIMIT:
            return False
        self.regions[place] = Region(length)
        desk.used += 1
        return True

    def map(self, _who, desk, place, length):
        if not self.is_there(place) or length != len(self.regions[place].bytes):
            return False
        if desk.maps.get(place, 0) >= LAST:
            return False
        desk.maps[place] = desk.maps.get(place, 0) + 1
        return True

    def unmap(self, who, desk, place):
        if not self.flush(who, desk, place):
            return False
        desk.maps[place] -= 1
        return True

    def flush(self, _who, desk, place):
        return desk.mapped(place) and not desk.section(place)

    def startread(self, _who, desk, place):
        if not desk.mapped(place) or any(other.writes.get(place) for other in self.desks):
            return False
        if desk.reads.get(place, 0) >= LAST:
            return False
        desk.reads[place] = desk.reads.get(place, 0) + 1
        return True

    def read(self, _who, desk, place, seen):
        if desk.reads.get(place, 0) == 0 or seen != self.regions[place].bytes:
            return False
        desk.reads[place] -= 1
        return True

    def startwrite(self, _who, desk, place):
        if not desk.mapped(place) or any(other.section(place) for other in self.desks):
            return False
        desk.writes[place] = True
        return True

    def write(self, _who, desk, place, before, after):
        if not desk.writes.get(place) or before != self.regions[place].bytes or len(after) != len(before):
            return False
        desk.writes[place] = False
        self.regions[place].bytes = after
        return True

    def deleting(self, who, _desk, place):
        if self.stage(place) != "Live":
            return False
        self.regions[place].stage, self.regions[place].deleter = "Going", who
        return True

    def deleted(self, who, _desk, place):
        if self.stage(place) != "Going" or self.regions[place].deleter != who:
            return False
        self.regions[place].stage = "Gone"
        return True

    def come(self, _who, desk, part):
        if part[0] == b"send" and not 1 <= len(part[1]) <= SEND_LIMIT:
            return False
        desk.came.append(part)
        return True

    def is_full(self, desk, round_number):
        """Whether it is the round to which the node came last, and all came, and it wasn't told."""
        return round_number == desk.told + 1 == len(desk.came) and all(
            len(other.came) >= round_number for other in self.desks
        )

    def fold_of(self, round_number):
        return fold([other.came[round_number - 1] for other in self.desks])

    def result(self, desk, round_number, told):
        if not self.is_full(desk, round_number) or self.fold_of(round_number) != told:
            return False
        desk.told += 1
        return True

    def mixed(self, desk, call, place, _why):
        if not self.is_full(desk, place) or desk.came[-1][0] != call or self.fold_of(place) is not None:
            return False
        desk.told += 1
        return True

    def refused(self, who, desk, call, place, why):
        if why == b"BadSize" and call == b"create":
            if place != (who, desk.used + 1 if desk.used < LAST else 0):
                return False
            desk.used = min(desk.used + 1, LAST)
            return True
        return call in REFUSED_CALLS[why] and self.refusal_holds(who, desk, call, place, why)

    def refusal_holds(self, who, desk, call, place, why):
        """Whether a refusal that changes nothing is the answer to a call that fits its reason."""
        mapped, writes = desk.mapped(place), desk.writes.get(place, False)
        if why == b"NamesSpent":
            return place == (who, 0) and desk.used == LAST
        if why == b"Unknown":
            return self.stage(place) == "Unknown"
        if why == b"Deleted":
            return self.stage(place) in ("Going", "Gone")
        if why == b"NotMapped":
            return not mapped
        if why == b"SectionOpen":
            return mapped and (writes or call == b"write" and desk.section(place))
        if why == b"NotReading":
            return mapped and desk.reads.get(place, 0) == 0
        if why == b"NotWriting":
            return mapped and not writes
        if why == b"InSection":
            return mapped and desk.section(place)
        if why == b"OutOfRange":
            return writes
        if why == b"WrongSize":
            return place == len(desk.came) + 1
        if call == b"map":  # TooMany
            return desk.maps.get(place, 0) == LAST and self.stage(place) != "Gone"
        return mapped and not writes and desk.reads.get(place, 0) == LAST
