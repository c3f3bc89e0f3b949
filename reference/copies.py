"""Copies of regions, at their homes and elsewhere, and the messages about them: docs/PROTOCOL.md."""

from runs import PIECE

PLAIN, RECALLED, YIELDING = "Plain", "Recalled", "Yielding"


class Message:
    """A message, or a piece of one: only the last piece that comes is acted on, with all bytes."""

    def __init__(self, sender, to, kind, name=None, version=0, told=None, data=None):
        self.sender, self.to, self.kind, self.name = sender, to, kind, name
        self.version, self.told, self.data = version, told, data

    def pieces(self):
        count = -(-len(self.data) // PIECE) if self.data is not None else 1
        return [(self, index, count) for index in range(count)]

    def key(self):
        return self.sender, self.kind, self.name, self.version


class Home:
    """What a home keeps of a region. `listed` has for each node its copy: [exclusive, version, mark]."""

    def __init__(self, size):
        self.bytes, self.last, self.listed, self.queue = bytes(size), 0, {}, []
        self.reads, self.writes = 0, False
        self.stage, self.deleter, self.asked, self.missing = "Live", None, set(), set()

    def blocking(self, who, write, have):
        def blocks(node, copy):
            if write:
                return not (node == who and not copy[0] and copy[1] == have)
            return copy[0] or node == who

        return [node for node in sorted(self.listed) if blocks(node, self.listed[node])]

    def servable(self, who, write, have):
        free = not self.writes and not (write and self.reads)
        return free and not self.blocking(who, write, have)


class Remote:
    """What another node keeps of a region. The copy is [exclusive, version, bytes]."""

    def __init__(self, size):
        self.size, self.copy, self.given, self.leaving, self.lowering = size, None, False, False, False
        self.reads, self.writes, self.asking, self.due = 0, False, None, None


class Copies:
    """What a node does about copies. The rest of a node stands in node.py."""

    def serve(self, name):
        home = self.homes[name]
        while home.queue:
            who, write, have = home.queue[0]
            if not home.servable(who, write, have):
                for node in home.blocking(who, write, have):
                    if node != who and home.listed[node][2] == PLAIN:
                        home.listed[node][2] = RECALLED if write else YIELDING
                        self.post(node, "Recall" if write else "Yield", name, version=home.listed[node][1])
                return
            home.queue.pop(0)
            if who == self.number:
                self.open_own(name, write)
                self.ready()
                continue
            home.last += 1
            upgrade = who in home.listed
            home.listed[who] = [write, home.last, PLAIN]
            data = None if upgrade else home.bytes
            self.post(who, "Grant", name, version=home.last, told=write, data=data)

    def open_own(self, name, write):
        home = self.homes[name]
        if write:
            home.writes = True
        else:
            home.reads += 1
        self.opens(name, write, home.bytes)

    def start_own(self, name, write):
        home = self.homes[name]
        if not write and home.reads or not home.queue and home.servable(self.number, write, 0):
            self.open_own(name, write)
            return
        home.queue.append((self.number, write, 0))
        self.wait("section", name)
        self.serve(name)

    def give_back(self, name):
        remote = self.remotes[name]
        if remote.copy:
            exclusive, version, data = remote.copy
            self.post(name[0], "Return", name, version=version, data=data if exclusive or remote.given else None)
        remote.copy, remote.given, remote.leaving, remote.lowering = None, False, False, False

    def lower(self, name):
        remote = self.remotes[name]
        remote.copy[0], remote.given, remote.lowering = False, True, False
        self.post(name[0], "Release", name, version=remote.copy[1], data=remote.copy[2])

    def forget(self, name):
        self.give_back(name)
        del self.remotes[name]

    def start(self, name, write):
        remote = self.remotes[name]
        if remote.copy and (remote.copy[0] or not write):
            if write:
                remote.writes = True
            else:
                remote.reads += 1
            self.opens(name, write, remote.copy[2])
            return
        remote.asking, remote.due = "write" if write else "read", None
        self.post(name[0], "Ask", name, version=remote.copy[1] if remote.copy else 0, told=write)
        self.wait("section", name)

    def end(self, name, data):
        """A section ends here. It leaves these bytes, where it wrote."""
        if name[0] == self.number:
            home = self.homes[name]
            if data is None:
                home.reads -= 1
            else:
                home.bytes, home.writes = data, False
            self.serve(name)
            return
        remote = self.remotes[name]
        if data is None:
            remote.reads -= 1
            if remote.reads == 0 and remote.leaving:
                self.give_back(name)
            return
        remote.copy[2], remote.writes = data, False
        if remote.leaving:
            self.give_back(name)
        elif remote.lowering:
            self.lower(name)

    def on_ask(self, message):
        self.homes[message.name].queue.append((message.sender, message.told, message.version))
        self.serve(message.name)

    def on_grant(self, message):
        remote = self.remotes[message.name]
        data = message.data if message.data is not None else remote.copy[2]
        remote.copy, remote.given = [message.told, message.version, data], False
        write = remote.asking == "write"
        if write:
            remote.writes = True
        else:
            remote.reads += 1
        self.opens(message.name, write, data)
        if remote.due and remote.due[1] == message.version:
            remote.leaving, remote.lowering = remote.due[0] == "Recall", remote.due[0] == "Yield"
        remote.asking = remote.due = None
        self.ready()

    def on_recall(self, message):
        self.wish(message)

    def on_yield(self, message):
        self.wish(message)

    def wish(self, message):
        """The home wants a copy back, or a shared one of it."""
        remote = self.remotes.get(message.name)
        if remote is None:
            return
        recall, copy = message.kind == "Recall", remote.copy
        if copy and copy[1] == message.version and (recall or copy[0]):
            if recall and (remote.reads or remote.writes):
                remote.leaving = True
            elif recall:
                self.give_back(message.name)
            elif remote.writes:
                remote.lowering = True
            else:
                self.lower(message.name)
        elif remote.asking and (copy is None or message.version > copy[1]):
            if remote.due is None or message.version > remote.due[1]:
                remote.due = (message.kind, message.version)

    def on_return(self, message):
        home = self.homes[message.name]
        copy = home.listed.pop(message.sender)
        assert copy[1] == message.version and (message.data is not None or not copy[0])
        if message.data is not None:
            home.bytes = message.data
        self.serve(message.name)

    def on_release(self, message):
        home = self.homes[message.name]
        copy = home.listed.get(message.sender)
        if copy and copy[0] and copy[1] == message.version:
            home.listed[message.sender] = [False, message.version, PLAIN]
            home.bytes = message.data
            self.serve(message.name)
