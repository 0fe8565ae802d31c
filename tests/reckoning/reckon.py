"""Reckons runs of texts, and what an edit of them leaves valid."""
import copy
import re

from files import scalar_file, vector_file
from ini import Ini
from model import Model
from modules import Outside
from ned import NotReckoned, quantity, read_file, read_item
from run import World, valid_to


class Texts:
    """All that a run is of: an ini text, NED texts, a configuration, and messages from outside. `connections` are edits of connections."""

    def __init__(self, ini, neds, config="General"):
        self.ini, self.neds, self.config, self.messages, self.connections, self.number = ini, list(neds), config, [], [], 0

    def edited(self, line, files):
        """These texts as a command line edits them; `files` has the text of each path."""
        forms = r"ini (insert|replace) \d+ .*|ini remove \d+|connect \w+ \d+ .*|disconnect \w+ \d+|config \w+|inject \S+ [\d.]+[a-z]+ -?\d+ -?\d+ \d+ (-|([0-9a-f]{2})+)"
        if not re.fullmatch(forms + r"|withdraw \d+|ned \d+ \S+", line):
            raise NotReckoned(f"the line {line}")
        made = copy.copy(self)
        made.neds, made.messages, made.connections = list(self.neds), list(self.messages), list(self.connections)
        words = line.split(" ")
        if words[0] == "ini":
            made.ini = edited_lines(self.ini, words[1], int(words[2]), " ".join(words[3:]))
        elif words[0] in ("connect", "disconnect"):
            made.connections.append((words[0], words[1], int(words[2]), " ".join(words[3:])))
        elif words[0] == "config":
            made.config = words[1]
        elif words[0] == "inject":
            payload = b"" if words[6] == "-" else bytes.fromhex(words[6])
            made.number += 1
            made.messages.append(Outside(made.number, words[1], quantity(words[2])[1], *(int(it) for it in words[3:6]), payload))
        elif words[0] == "withdraw":
            made.messages = [it for it in self.messages if it.number != int(words[1])]
            if len(made.messages) == len(self.messages):
                raise NotReckoned("a message that is not there")
        elif words[0] == "ned":
            if words[2] not in files or int(words[1]) >= len(self.neds):
                raise NotReckoned(f"the line {line}")
            gone = [it.name for it in read_file(self.neds[int(words[1])])]
            made.connections = [it for it in self.connections if it[1] not in gone]
            made.neds[int(words[1])] = files[words[2]]
        return made

    def model(self):
        files = [read_file(it) for it in self.neds]
        for what, name, place, text in self.connections:
            items = next((it.items for file in files for it in file if it.name == name and it.kind in ("module", "network")), None)
            if items is None or not 0 <= place < len(items) + (what == "connect"):
                raise NotReckoned(f"the connection {place} of {name}")
            if what == "connect":
                items.insert(place, read_item(text))
            else:
                del items[place]
        return Model(files, Ini(self.ini, self.config))


def edited_lines(text, how, number, line):
    lines = text.removesuffix("\n").split("\n") if text else []
    if not 1 <= number <= len(lines) + (how == "insert"):
        raise NotReckoned(f"the line {number}")
    lines[number - 1 : number - (how == "insert")] = [] if how == "remove" else [line]
    return "".join(it + "\n" for it in lines)


class Reckoned:
    """A fresh run: its world, its answer and both files."""

    def __init__(self, world):
        self.world, self.outcome, self.count = world, world.outcome, world.count
        self.answer = f"{world.outcome} from start executed {world.count}"
        self.scalars, self.vectors = scalar_file(world), vector_file(world)


def reckon(texts, limit):
    world = World(texts.model(), texts.messages, limit)
    world.run()
    return Reckoned(world)


class Session:
    """A session: what it answers to `run` and to edits, and behind which events it keeps a position."""

    def __init__(self, texts, interval, files=None):
        self.texts, self.first, self.interval, self.files, self.positions, self.last, self.known = texts, interval, interval, files or {}, [], None, None

    def run(self, limit):
        start = max((it for it in self.positions if it <= limit), default=None)
        self.last = reckon(self.texts, limit)
        count, self.known = self.last.count, self.last.count
        self.keep(-1 if start is None else start)
        begins = start or 0
        failed = self.last.outcome.startswith("fault")
        for at in range(0 if start is None else start + 1, count + 1):
            if at == count and failed:
                break
            if at % self.interval == 0 or at == count:
                self.take(at)
        return f"done {self.last.outcome} from {'start' if start is None else start} executed {count - begins}"

    def keep(self, last):
        """Gives up the positions behind that event. Where none is left the interval is again the first."""
        self.positions = [it for it in self.positions if it <= last]
        self.interval = self.interval if self.positions else self.first

    def take(self, at):
        """Takes a position. A 65th doubles the interval, and leaves those at its multiples, and itself."""
        self.positions.append(at)
        if len(self.positions) == 65:
            self.interval = min(2 * self.interval, 2**62)
            self.positions = [it for it in self.positions if it % self.interval == 0 or it == at]

    def edit(self, line):
        edited = self.texts.edited(line, self.files)
        model = edited.model()
        valid = None if self.known is None or self.last is None else valid_to(self.last.world, model, self.sorted(edited), self.known)
        self.texts, self.known = edited, valid
        self.keep(-1 if valid is None else valid)
        number = f" injection {edited.number}" if line.startswith("inject") else ""
        return f"edited valid {'none' if valid is None else valid}{number}"

    def held(self):
        """How many boxes there are, which is as the last run left it."""
        return f"held {self.last.world.held() if self.last else 0}"

    def sorted(self, texts):
        return sorted(texts.messages, key=lambda it: (it.time, it.priority, it.number))
