"""Case files of crates/test_cases/data, played by whatever answers calls of the program on one worker."""

import pathlib
import re

STATUSES = {"prints": 0, "unlawful": 1, "fails": 1, "explains": 1, "lacks": 3}
KEPT = "kept"
CUT = "cut"
# With how many workers `@runs` plays a script, and the number of calls that each of these makes.
WORKERS = 3
CALLS_OF_RUN = 2


class Block:
    """A line that begins with `@`, the lines up to the next such line, and the number of its line."""

    def __init__(self, head, body, line):
        self.words = head.split()
        self.is_remark = head == "" or head.startswith(" ")
        self.body = body
        self.line = line


def blocks_of(text):
    """The blocks of a text, each with those behind it that are other answers to it."""
    found, line = [], 1
    for part in re.split(r"^@", text, flags=re.M)[1:]:
        head, _, body = part.partition("\n")
        block = Block(head, body, line)
        line += part.count("\n")
        if block.words == ["or"] and found:
            found[-1][1].append(block)
        else:
            found.append((block, []))
    return found


def last_line(text):
    return text.removesuffix(b"\n").rsplit(b"\n", 1)[-1].decode(errors="replace")


def first_line(text):
    return text.partition(b"\n")[0] + b"\n" if b"\n" in text else text


def listing(text):
    """What a listing of outcomes tells: its outcomes, sorted, who is stranded, how many outcomes there are, whether a
    commit was followed alone, and whether that is all. Of a number of states it tells nothing."""
    told, _, last = text.rpartition("outcomes ")
    blocks, _, stranded = told.partition("stranded ")
    outcomes = sorted(it.partition("\n")[2] for it in blocks.split("outcome ")[1:])
    count, _, behind = last.partition(" ")
    return outcomes, stranded, count, re.sub(r"^(configurations|states) (followed )?\d+ ?", r"\2", behind)


def allowed(body, place):
    """The last lines that a text may come to which was damaged at this place."""
    named, others = [], []
    for line in body.split("\n")[:-1]:
        word, _, behind = line.partition(" ")
        places = re.fullmatch(r"(\d+)(?:-(\d+))?", word)
        if not places:
            others.append(line)
        elif int(places[1]) <= place <= int(places[2] or places[1]):
            named.append(behind)
    return named or others


def on_one_worker(words):
    """A call as it is played here: where a run says nothing of workers, on one. None where it wants more threads."""
    if words[:1] == ["meet"]:
        return None
    if words[:1] != ["run"]:
        return words
    wanted = re.search(r"--workers[ =](\S+)", " ".join(words))
    if not wanted:
        return ["run", "--workers", "1", *words[1:]]
    return words if wanted[1] == "1" else None


class Player:
    """Plays a case file. `answer` takes calls, each of words and files, and gives for each its status, its two streams
    and the files that it left."""

    def __init__(self, path, answer):
        self.path = pathlib.Path(path)
        self.answer = answer
        self.files = {}
        self.played = 0
        self.left = 0
        self.wrong = []

    def note(self, block, what):
        self.wrong.append(f"{self.path.name}:{block.line}: {what}")

    def file(self, name):
        """The bytes of a file: of one that was made, or else of one beside the case file; none where there is none."""
        if name in self.files:
            return self.files[name]
        beside = self.path.parent / name
        return beside.read_bytes() if beside.is_file() else None

    def call(self, words, **more):
        """A call, with the files that its words name."""
        named = {it: self.file(it) for it in words}
        return words, {**{name: text for name, text in named.items() if text is not None}, **more}

    def ask(self, calls):
        """Makes the calls, and keeps the files that the last one left."""
        answers = self.answer(calls)
        self.played += len(calls)
        if answers:
            self.files.update(answers[-1].files)
        return answers

    def is_met(self, answer, kind, body):
        if kind == "refuses":
            return answer.status == 2 and answer.out == b"" and answer.err != b"" and answer.err.startswith(body.encode())
        if kind.startswith("warns "):
            is_both = answer.out != b"" and answer.err != b""
            return is_both and (answer.status, answer.out + answer.err) == (int(kind[6:]), body.encode())
        if kind == "tells":
            is_last = last_line(answer.out).startswith("outcomes ")
            return answer.status == 0 and is_last and listing((answer.out + answer.err).decode()) == listing(body)
        if kind == "runs":
            is_noted = all(line.startswith(b"spent: ") or b" faulted " in line for line in answer.err.splitlines())
            return is_noted and (answer.status, answer.out) == (0, body.encode())
        if kind == "fails":
            return (answer.status, answer.out, first_line(answer.err)) == (1, b"", body.encode())
        streams = (b"", body.encode()) if kind == "explains" else (body.encode(), b"")
        return (answer.status, answer.out, answer.err) == (STATUSES[kind], *streams)

    def play_call(self, kind, words, bodies, block, times):
        """A call that is to come to one of the bodies. One of more workers is left out, unless it is refused before."""
        words = words if kind == "refuses" else on_one_worker(words)
        if words is None:
            self.left += times
            return
        for answer in self.ask([self.call(words)] * times):
            if not any(self.is_met(answer, kind, body) for body in bodies):
                self.note(block, f"it came to {answer}")

    def play_run(self, script, words, bodies, block):
        """A run on one worker, and the replay of its journal. Those on more workers are left out."""
        self.left += (WORKERS - 1) * CALLS_OF_RUN
        run = ["run", script, "--workers", "1", "--journal", KEPT, *words]
        (answer,) = self.ask([self.call(run)])
        body = next((it for it in bodies if self.is_met(answer, "runs", it)), None)
        if body is None:
            self.note(block, f"it came to {answer}")
            return
        lines = body.split("\n")[:-1]
        ends = [line for line in lines[:-1] if not line[0].isdigit()]
        count = lines[-1].split()[1]
        replayed = "".join(f"{line}\n" for line in [*ends, f"lawful {count} maximal"])
        replay = ["replay", script, KEPT, *[it for it in words if it != "--quiet"]]
        self.play_call("prints", replay, [replayed], block, 1)

    def play_damaged(self, texts, words, name, body, block):
        """A call over each of the texts, which stand with the places at which they were damaged."""
        calls = [self.call(words, **{name: text}) for _, text in texts]
        for (place, _), answer in zip(texts, self.ask(calls)):
            found = last_line(answer.out or first_line(answer.err))
            if found not in allowed(body, place):
                self.note(block, f"damaged at {place} it came to {found}")
                return

    def beginnings(self, name):
        whole = self.file(name)
        return [(length, whole[:length]) for length in range(len(whole) + 1)]

    def changes(self, name):
        whole = self.file(name)
        return [
            (at, whole[:at] + bytes([value]) + whole[at + 1 :])
            for at in range(len(whole))
            for value in range(256)
            if value != whole[at]
        ]

    def make(self, kind, words, body):
        """Makes a file, or puts more behind it."""
        name, times = words[0], int(words[1]) if len(words) > 1 else 1
        text = (body if kind == "file" else body.removesuffix("\n")).encode() * times
        self.files[name] = self.files[name] + text if kind == "more" else text

    def play_block(self, block, others):
        times, words = 1, block.words
        if words[0].isdigit():
            times, words = int(words[0]), words[1:]
        kind, words = words[0], words[1:]
        if kind == "warns":
            kind, words = f"warns {words[0]}", words[1:]
        bodies = [it.body for it in [block, *others]]
        if kind in ("file", "text", "more"):
            self.make(kind, words, block.body)
        elif kind == "holds":
            if self.file(words[0]) != block.body.encode():
                self.note(block, f"the file holds {self.file(words[0])}")
        elif kind == "runs":
            for _ in range(times):
                self.play_run(words[0], words[1:], bodies, block)
        elif kind == "beginnings":
            self.play_damaged(self.beginnings(words[0]), words[1:], CUT, block.body, block)
        elif kind == "changes":
            replay = ["replay", words[0], CUT]
            self.play_damaged(self.changes(words[1]), replay, CUT, block.body, block)
        else:
            self.play_call(kind, words, bodies, block, times)

    def play(self):
        # As bytes, since a reader of text would change line ends.
        for block, others in blocks_of(self.path.read_bytes().decode()):
            if not block.is_remark:
                self.play_block(block, others)
