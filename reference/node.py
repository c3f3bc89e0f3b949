"""One node: its calls, its books, and what it does with messages about maps, deletes and rounds: docs/PROTOCOL.md."""

from copies import Copies, Home, Message, Remote
from machine import REGION_LIMIT, SEND_LIMIT, fold
from runs import COLLECTIVES


class Node(Copies):
    def __init__(self, number, world):
        self.number, self.world = number, world
        self.inbox, self.outbox, self.parcels = [], [], {}
        self.state, self.waits_for = "free", None
        self.used = self.rounds = self.taken = 0
        self.homes, self.remotes, self.maps, self.cache = {}, {}, {}, []
        self.doomed, self.noted = set(), False
        self.own_part, self.open = None, {}
        self.result = None

    def tell(self, *words):
        self.world.entry(self.number, *words)

    def post(self, to, kind, name=None, **rest):
        pieces = Message(self.number, to, kind, name, **rest).pieces()
        self.outbox += pieces
        self.world.messages += len(pieces)

    def wait(self, *what):
        self.state, self.waits_for = "waiting", what

    def ready(self):
        self.state, self.waits_for = "ready", None

    def opens(self, name, write, data):
        """A section opens here, with these bytes."""
        self.tell("startwrite" if write else "startread", name)
        if write or not self.open.get(name):
            self.open[name] = {"write": write, "count": 0, "before": data, "after": bytearray(data)}
        self.open[name]["count"] += 1

    def refuse(self, word, place, why):
        self.tell("refused", word, place, why)

    def stage(self, name):
        return self.homes[name].stage if name in self.homes else "Unknown"

    def decide_delete(self, who, name):
        """The home decides a delete by this node: what it is told at once, or None."""
        stage = self.stage(name)
        if stage != "Live":
            why = "Unknown" if stage == "Unknown" else "Deleted"
            self.world.entry(who, "refused", "delete", name, why)
            return why
        home = self.homes[name]
        home.stage, home.deleter, home.missing = "Going", who, set(home.asked)
        self.world.entry(who, "deleting", name)
        for node in sorted(home.asked):
            self.post(node, "Purge", name)
        if home.missing:
            return None
        home.stage = "Gone"
        self.world.entry(who, "deleted", name)
        return "Done"

    def handle(self, place):
        message, index, count = self.inbox.pop(place)
        came = self.parcels.setdefault(message.key(), set())
        came.add(index)
        if len(came) == count:
            del self.parcels[message.key()]
            getattr(self, "on_" + message.kind.lower())(message)

    def on_infoask(self, message):
        stage = self.stage(message.name)
        if stage == "Live":
            home = self.homes[message.name]
            home.asked.add(message.sender)
            self.world.entry(message.sender, "map", message.name, len(home.bytes))
            told = len(home.bytes)
        else:
            told = "Unknown" if stage == "Unknown" else "Deleted"
            self.world.entry(message.sender, "refused", "map", message.name, told)
        self.post(message.sender, "InfoIs", message.name, told=told)

    def on_infois(self, message):
        if not isinstance(message.told, str):
            self.remotes[message.name] = Remote(message.told)
            self.maps[message.name] = 1
            if self.noted:
                self.doomed.add(message.name)
        self.noted = False
        self.ready()

    def on_deleteask(self, message):
        told = self.decide_delete(message.sender, message.name)
        if told:
            self.post(message.sender, "DeleteIs", message.name, told=told)

    def on_deleteis(self, _message):
        self.ready()

    def on_purge(self, message):
        name = message.name
        if name in self.cache:
            self.cache.remove(name)
            self.forget(name)
        elif self.maps.get(name):
            self.doomed.add(name)
        elif self.waits_for == ("map", name):
            self.noted = True
        self.post(name[0], "Purged", name)

    def on_purged(self, message):
        home = self.homes[message.name]
        home.missing.remove(message.sender)
        if not home.missing:
            home.stage = "Gone"
            self.world.entry(home.deleter, "deleted", message.name)
            if home.deleter == self.number:
                self.ready()
            else:
                self.post(home.deleter, "DeleteIs", message.name, told="Done")

    def on_come(self, message):
        self.world.parts[message.sender] = message.told
        self.close_round()

    def on_result(self, message):
        self.learn(message.told)
        self.ready()

    def close_round(self):
        """At node 0: where all parts have come, the round is told."""
        parts = self.world.parts
        if len(parts) < len(self.world.nodes):
            return
        told = fold([parts[node] for node in range(len(self.world.nodes))])
        parts.clear()
        for node in range(1, len(self.world.nodes)):
            self.post(node, "Result", told=told, version=self.rounds)
        self.learn(told)
        self.ready()

    def learn(self, told):
        if told is None:
            self.refuse(self.own_part[0].decode(), self.rounds, "Mixed")
        else:
            self.tell(told[0].decode(), self.rounds, *told[1:])

    def section_fault(self, word, name):
        record = self.open.get(name)
        reads, writes = bool(record) and not record["write"], bool(record) and record["write"]
        if not self.maps.get(name):
            return "NotMapped"
        if writes and word in ("read", "write") or reads and word == "write":
            return "SectionOpen"
        if word == "endread" and not reads:
            return "NotReading"
        if word in ("endwrite", "put", "add") and not writes:
            return "NotWriting"
        return "InSection" if record and word in ("unmap", "flush") else None

    def call(self, word, *rest):
        """Takes a statement. False where it is no event."""
        if word in COLLECTIVES:
            self.collective(word, *rest)
        elif word in ("create", "map", "delete"):
            getattr(self, word)(*rest)
        else:
            why = self.section_fault(word, rest[0])
            if why:
                self.refuse(word, rest[0], why)
            elif word in ("put", "add"):
                return self.edit(word, *rest)
            else:
                getattr(self, word)(*rest)
        return True

    def create(self, name, size):
        self.used += 1
        if not 1 <= int(size) <= REGION_LIMIT:
            self.refuse("create", name, "BadSize")
            return
        self.homes[name] = Home(int(size))
        self.tell("create", name, int(size))

    def map(self, name):
        if name[0] == self.number:
            stage = self.stage(name)
            if stage != "Live":
                self.refuse("map", name, "Unknown" if stage == "Unknown" else "Deleted")
                return
            self.maps[name] = self.maps.get(name, 0) + 1
            self.tell("map", name, len(self.homes[name].bytes))
        elif self.maps.get(name):
            if name in self.doomed:
                self.refuse("map", name, "Deleted")
                return
            self.maps[name] += 1
            self.tell("map", name, self.remotes[name].size)
        elif name in self.cache:
            self.cache.remove(name)
            self.maps[name] = 1
            self.tell("map", name, self.remotes[name].size)
        else:
            self.post(name[0], "InfoAsk", name)
            self.wait("map", name)

    def unmap(self, name):
        self.tell("unmap", name)
        self.maps[name] -= 1
        if self.maps[name] or name[0] == self.number:
            return
        if name in self.doomed:
            self.doomed.remove(name)
            self.forget(name)
            return
        self.cache.append(name)
        if len(self.cache) > self.world.plan.cache:
            self.forget(self.cache.pop(0))

    def flush(self, name):
        self.tell("flush", name)
        if name[0] != self.number:
            self.give_back(name)

    def read(self, name):
        (self.start_own if name[0] == self.number else self.start)(name, False)

    def write(self, name):
        (self.start_own if name[0] == self.number else self.start)(name, True)

    def endread(self, name):
        record = self.open[name]
        self.tell("read", name, record["before"])
        record["count"] -= 1
        if not record["count"]:
            del self.open[name]
        self.end(name, None)

    def endwrite(self, name):
        record = self.open.pop(name)
        self.tell("write", name, record["before"], bytes(record["after"]))
        self.end(name, bytes(record["after"]))

    def edit(self, word, name, offset, value):
        after, offset = self.open[name]["after"], int(offset)
        length = 8 if word == "add" else len(value) // 2
        if offset + length > len(after):
            self.refuse(word, name, "OutOfRange")
            return True
        if word == "put":
            data = bytes.fromhex(value)
        else:
            data = ((int.from_bytes(after[offset : offset + 8], "big") + int(value)) % 2**64).to_bytes(8, "big")
        after[offset : offset + length] = data
        return False

    def delete(self, name):
        if name[0] != self.number:
            self.post(name[0], "DeleteAsk", name)
            self.wait("delete", name)
        elif self.decide_delete(self.number, name) is None:
            self.wait("delete", name)

    def collective(self, word, value=None):
        if word == "send" and not 1 <= len(value) // 2 <= SEND_LIMIT:
            self.refuse(word, self.rounds + 1, "WrongSize")
            return
        values = [] if value is None else [bytes.fromhex(value) if word == "send" else int(value)]
        self.own_part = (word.encode(), *values)
        self.rounds += 1
        self.tell("come", word, *values)
        if self.number:
            self.post(0, "Come", told=self.own_part, version=self.rounds)
            self.wait("round", self.rounds)
            return
        self.world.parts[0] = self.own_part
        self.wait("round", self.rounds)
        self.close_round()
        if self.state == "ready":
            self.state = "free"
