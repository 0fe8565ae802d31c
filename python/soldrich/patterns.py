"""OMNeT++'s patterns for paths and names."""
from __future__ import annotations

import re


def pattern(text: str) -> re.Pattern[str]:
    """Returns an expression for a pattern: `*` is anything without a dot, `**` anything, `?` one character but a
    dot, `{a-z}` one of these characters, and `{1..20}` a whole number between these, as in OMNeT++ ("Wildcard
    Patterns" of its manual)."""
    made, at = [], 0
    for found in re.finditer(r"\*\*|\*|\?|\{(\d+)\.\.(\d+)\}|\{(\^?[^}]+)\}", text):
        made.append(re.escape(text[at : found.start()]))
        made.append(_part(found))
        at = found.end()
    return re.compile("".join(made) + re.escape(text[at:]))


def _part(found: re.Match[str]) -> str:
    plain = {"**": ".*", "*": "[^.]*", "?": "[^.]"}.get(found[0])
    if plain:
        return plain
    if found[1]:
        return "(?:" + "|".join(map(str, range(int(found[1]), int(found[2]) + 1))) + ")"
    return "[" + found[3].replace("\\", r"\\").replace("[", r"\[") + "]"
