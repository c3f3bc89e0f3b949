"""The run of a script under an order: a second writing of docs/PROTOCOL.md, which follows none of the code.

account(script, words)   what `order` prints, where `words` gives the word of each turn
"""

from node import Node
from runs import Plan


def shown(word):
    """A field of an entry, as its line writes it."""
    if isinstance(word, tuple):
        return "%d:%d" % word
    return word.hex() if isinstance(word, bytes) else str(word)


class World:
    def __init__(self, text):
        self.plan = Plan(text)
        self.nodes = [Node(number, self) for number in range(self.plan.nodes)]
        self.parts, self.lines, self.messages, self.events = {}, [], 0, 0

    def entry(self, node, *words):
        self.lines.append(" ".join([str(node), *map(shown, words)]))

    def left(self, node):
        return node.taken < len(self.plan.statements[node.number])

    def choices(self):
        able = [("node", node, 0) for node in self.nodes
                if node.state == "ready" or node.state == "free" and self.left(node)]
        handles = [("handle", node, place) for node in self.nodes for place in range(len(node.inbox))]
        return able + handles + [("carry", node, place) for node in self.nodes for place in range(len(node.outbox))]

    def turn(self, kind, node, place):
        self.events += 1
        if kind == "handle":
            node.handle(place)
        elif kind == "carry":
            piece = node.outbox.pop(place)
            self.nodes[piece[0].to].inbox.append(piece)
        elif node.state == "ready":
            node.state = "free"
        else:
            statement = self.plan.statements[node.number][node.taken]
            node.taken += 1
            self.events -= not node.call(*statement)

    def ending(self):
        unfinished = [node for node in self.nodes if node.state != "free" or self.left(node)]
        for node in unfinished:
            others = [other for other in self.nodes if other is not node]
            kind, place = node.waits_for
            if kind == "section":
                holder = next(other.number for other in others if place in other.open)
                yield "stuck %d %d:%d by %d" % (node.number, *place, holder)
            else:
                absent = next(other.number for other in others if other.rounds < place)
                yield "stuck %d round %d without %d" % (node.number, place, absent)
        if not unfinished:
            for node in self.nodes:
                for name, home in sorted(node.homes.items()):
                    if home.stage != "Gone":
                        yield "region %d:%d %s" % (*name, self.final(name, home).hex())
        yield "events %d messages %d" % (self.events, self.messages)

    def final(self, name, home):
        for node in self.nodes:
            remote = node.remotes.get(name)
            if remote and remote.copy and remote.copy[0]:
                return remote.copy[2]
        return home.bytes


def account(script, words, watch=None):
    """What `order` prints of a script, where `words` gives a word for each turn. Each turn is told to `watch`."""
    world = World(script)
    words = iter(words)
    while choices := world.choices():
        choice = choices[next(words) % len(choices)]
        if watch:
            watch(world, *choice)
        world.turn(*choice)
    return "".join(line + "\n" for line in [*world.lines, *world.ending()]).encode()
