"""Scripts of edits by chance: after each step the results of the session are those of a fresh run of the texts as
edited."""
from __future__ import annotations

import random
import re

import pytest
from conftest import EXAMPLES, Example, fresh_run

from soldrich import Refused, Session
from soldrich.results import Results
from soldrich.sources import Source

SCRIPTS = 108
STEPS = 4
LIMIT = 300


class Texts:
    """The texts, the configuration and the messages, as edited: kept here by the rules of the commands, and not by
    the program."""

    def __init__(self, it: Example):
        self.lines = it.ini.read_text().removesuffix("\n").split("\n")
        self.neds = [path.read_text() for path in it.neds]
        self.config = it.config
        self.messages: dict[int, str] = {}

    def fresh(self, folder) -> tuple[str, bytes, bytes]:
        ini = "\n".join(self.lines) + "\n"
        return fresh_run(
            folder, ini, self.neds, self.config, LIMIT, tuple(self.messages[it] for it in sorted(self.messages))
        )


def other_number(text: str, chance: random.Random) -> str:
    """The same text with another number in it."""
    found = list(re.finditer(r"\d+", text))
    if not found:
        return text
    it = chance.choice(found)
    return text[: it.start()] + str(chance.choice([1, 2, 3, int(it[0]) + 1, int(it[0]) * 2])) + text[it.end() :]


def edit_by_chance(session: Session, texts: Texts, modules: list[str], chance: random.Random) -> None:
    """Makes an edit in the session, and the same one in the texts. One that is refused is made in neither."""
    kind = chance.choice(["replace", "replace", "insert", "remove", "config", "inject", "withdraw", "ned"])
    line = chance.randint(1, len(texts.lines))
    if kind == "replace":
        text = other_number(texts.lines[line - 1], chance)
        session.replace(line, text)
        texts.lines[line - 1] = text
    elif kind == "insert":
        text = other_number(chance.choice([it for it in texts.lines if "=" in it]), chance)
        session.insert(line, text)
        texts.lines.insert(line - 1, text)
    elif kind == "remove":
        session.remove(line)
        del texts.lines[line - 1]
    elif kind == "config":
        name = chance.choice(["General", *re.findall(r"^\[Config (\w+)\]$", "\n".join(texts.lines), re.M)])
        session.config(name)
        texts.config = name
    elif kind == "inject":
        path, time = chance.choice(modules), f"{chance.randint(0, 3000)}ms"
        number = session.inject(path, time, bits=8, payload=b"\x01").injection
        texts.messages[number] = f"inject {path} {time} 0 0 8 01"
    elif kind == "withdraw":
        number = chance.choice([*texts.messages, 99])
        session.withdraw(number)
        del texts.messages[number]
    else:
        number = chance.randrange(len(texts.neds))
        text = other_number(texts.neds[number], chance)
        session.ned(number, Source("other.ned", text.encode()))
        texts.neds[number] = text


@pytest.mark.parametrize("number", range(SCRIPTS))
def test_a_script_by_chance(number, tmp_path):
    chance = random.Random(number)
    it = EXAMPLES[number % len(EXAMPLES)]
    texts, refused = Texts(it), 0
    with Session(it.ini, it.neds, it.config, limit=LIMIT, interval=chance.choice([1, 3, 1000])) as session:
        modules = sorted(set(session.results().scalars["module"])) or ["N.t"]
        for step in range(STEPS):
            for _ in range(chance.randint(1, 3)):
                try:
                    edit_by_chance(session, texts, modules, chance)
                except Refused:
                    refused += 1
            run = session.run()
            written = session.write()
            outcome, *files = texts.fresh(tmp_path / str(step))
            assert run.outcome == outcome
            assert [path.read_bytes() for path in written] == files
            assert session.ini_lines() == texts.lines
            fresh = Results.read([tmp_path / str(step) / path.name for path in written])
            assert session.results().frame.astype(str).equals(fresh.frame.astype(str))
    assert refused < STEPS * 3
