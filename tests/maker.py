"""Random scripts, for tests/outcomes and tests/random. The same seed gives the same script."""

import random

# A SCRIPT is a list of (name, statements). A statement or an event is a tuple, its kind first.

class Maker:
    """Makes a script of so many processes at the most, with all forms of events. Nobody spawns the first ones, as
    many as `roots`."""

    def __init__(self, seed, most=4, roots=0):
        self.dice = random.Random(seed)
        self.most = most
        self.roots = roots
        self.channels = [f"c{i}" for i in range(self.dice.randint(1, 3))]
        self.names = 0

    def name(self, kind):
        self.names += 1
        return f"{kind}{self.names}"

    def script(self):
        processes = []
        free = []
        for number in range(self.dice.randint(2, self.most)):
            waited = free[:]
            name = f"p{number}"
            body = self.block(2, waited, [])
            if free and self.dice.random() < 0.6:
                kid = free.pop(0)
                body.insert(self.dice.randint(0, len(body)), ("spawn", kid))
            processes.append((name, body))
            if self.dice.random() < 0.4 and number >= self.roots:
                free.append(name)
        return processes

    def block(self, depth, waited, nacks):
        return [s for _ in range(self.dice.randint(1, 2)) for s in self.statement(depth, waited, nacks)]

    def statement(self, depth, waited, nacks):
        dice = self.dice.random()
        if dice < 0.12 and depth > 0:
            return [("loop", 2, [("sync", [], self.event(1, waited, nacks))] + self.block(0, waited, nacks))]
        if dice < 0.2 and depth > 0:
            var = self.name("v")
            then, other = self.block(0, waited, nacks), self.block(0, waited, nacks)
            return [("sync", [var], ("recv", self.dice.choice(self.channels))), ("if", var, self.dice.randint(0, 2), then, other)]
        if dice < 0.7:
            var = self.name("v")
            return [("sync", [var], self.event(depth, waited, nacks)), ("print", var)]
        if dice < 0.75:
            return [("print", str(self.dice.randint(0, 9)))]
        return [("sync", [], self.event(depth, waited, nacks))]

    def event(self, depth, waited, nacks):
        dice = self.dice.random()
        channel = self.dice.choice(self.channels)
        if depth > 0 and dice < 0.4:
            return ("choose", [self.event(depth - 1, waited, nacks) for _ in range(self.dice.randint(2, 3))])
        if depth > 0 and dice < 0.5:
            return ("wrap", self.event(depth - 1, waited, nacks), self.dice.randint(3, 9))
        if depth > 0 and dice < 0.57:
            return ("guard", [("print", "8")] + self.block(0, waited, nacks), self.event(depth - 1, waited, nacks))
        if depth > 0 and dice < 0.7:
            nack = self.name("n")
            nacks.append(nack)
            return ("nack", nack, [("sync", [], ("send", channel, nack))] if self.dice.random() < 0.5 else [("print", "7")],
                    self.event(depth - 1, waited, nacks[:-1]))
        if nacks and dice < 0.78:
            return ("cancelled", self.dice.choice(nacks))
        if waited and dice < 0.84:
            return ("joined", self.dice.choice(waited))
        if dice < 0.9:
            return ("always", self.dice.randint(0, 2)) if self.dice.random() < 0.3 else ("recv", channel)
        return ("send", channel, str(self.dice.randint(0, 2)))

def event_text(e):
    kind = e[0]
    if kind == "choose":
        return "choose [" + ", ".join(event_text(x) for x in e[1]) + "]"
    if kind == "wrap":
        return f"wrap {event_text(e[1])} as w to ({e[2]})"
    if kind == "guard":
        return f"guard {{ {block_text(e[1])} }} {event_text(e[2])}"
    if kind == "nack":
        return f"nack {e[1]} {{ {block_text(e[2])} }} {event_text(e[3])}"
    if kind in ("cancelled", "joined", "recv"):
        return f"{kind} {e[1]}"
    if kind == "always":
        return f"always ({e[1]})"
    return f"send {e[1]} ({e[2]})"

def statement_text(s):
    kind = s[0]
    if kind == "sync":
        return (", ".join(s[1]) + " <- " if s[1] else "") + f"sync {event_text(s[2])};"
    if kind == "loop":
        return f"loop {s[1]} {{ {block_text(s[2])} }}"
    if kind == "forever":
        return f"forever {{ {block_text(s[1])} }}"
    if kind == "if":
        return f"if {s[1]} = {s[2]} {{ {block_text(s[3])} }} else {{ {block_text(s[4])} }}"
    if kind == "end":
        return "end;"
    return f"{kind} {s[1]};"

def block_text(block):
    return " ".join(statement_text(s) for s in block)

def script_text(channels, processes):
    lines = [f"channel {channel};\n" for channel in channels]
    lines += [f"process {name} {{ {block_text(body)} }}\n" for name, body in processes]
    return "".join(lines)
