"""Plays a scenario of crates/check_scenarios, whose README says what its parts are."""
import re

from ned import NotReckoned
from reckon import Session, Texts


def play(text):
    """What a scenario leads to, line by line."""
    neds, said, files = [], {"ini": "", "config": "General", "interval": "10", "do": ""}, {}
    for part in re.split(r"^--- ", text, flags=re.M)[1:]:
        name, _, body = part.partition("\n")
        if name == "ned":
            neds.append(body)
        elif name.startswith("file "):
            files[name[5:]] = body
        else:
            said[name] = body if name in ("ini", "do") else body.strip()
    session, has_files, out = Session(Texts(said["ini"], neds, said["config"]), int(said["interval"]), files), False, []
    session.texts.model()
    for line in said["do"].splitlines():
        if line in ("scalars", "vectors"):
            out.append(getattr(session.last, line) if has_files else "no file\n")
        elif line == "positions":
            out.append("positions " + (" ".join(map(str, session.positions)) or "none") + "\n")
        elif line == "held":
            out.append(session.held() + "\n")
        elif re.fullmatch(r"run \d+", line):
            out.append(session.run(int(line[4:])) + "\n")
            has_files = True
        else:
            out.append(session.edit(line) + "\n")
            has_files = False
    return "".join(out)


def differing(folder):
    """Of the scenarios of a folder: how many are reckoned, and the first of which something else is written than is reckoned, with both texts."""
    wanted = dict(it.split("\n", 1) for it in re.split(r"^== ", (folder / "stdout").read_text(encoding="utf-8"), flags=re.M)[1:])
    reckoned = 0
    for name in (folder / "args").read_text(encoding="utf-8").split():
        try:
            found = play((folder / "data" / name).read_text(encoding="utf-8"))
        except NotReckoned:
            continue
        if found != wanted[name]:
            return reckoned, (name, found, wanted[name])
        reckoned += 1
    return reckoned, None
