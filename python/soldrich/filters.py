"""OMNeT++'s filter expressions for results, as `module =~ **.queue AND (name =~ *:max OR NOT type =~ scalar)`."""
from __future__ import annotations

import re
from collections.abc import Callable

from .errors import ResultFileError
from .patterns import pattern
from .result_files import Item, ResultFile

Filter = Callable[[ResultFile, Item], bool]
TOKEN = re.compile(r'\s*(?:(=~)|([()])|"((?:[^"\\]|\\.)*)"|([^\s()"=]+))')
FIELDS: dict[str, Callable[[ResultFile, Item], str]] = {
    "file": lambda file, item: str(file.path),
    "run": lambda file, item: file.run,
    "type": lambda file, item: item.type,
    "module": lambda file, item: item.module,
    "name": lambda file, item: item.name,
}
# fields with a name behind a colon, as `itervar:n`
NAMED: dict[str, Callable[[ResultFile, Item], dict[str, str]]] = {
    "attr": lambda file, item: item.attributes,
    "runattr": lambda file, item: file.attributes,
    "itervar": lambda file, item: file.itervars,
    "config": lambda file, item: dict(reversed(file.config)),
}


def filter_of(expression: str) -> Filter:
    """Reads an expression: FIELD =~ PATTERN, combined by AND, OR, NOT and parentheses; a pattern alone is one for
    the name."""
    return _Reader(expression).whole()


class _Reader:
    """Reads an expression from left to right."""

    def __init__(self, expression: str):
        self._expression, self._tokens, at = expression, [], 0
        text = expression.rstrip()
        while at < len(text):
            found = TOKEN.match(text, at)
            if not found:
                raise self._wrong(f"'{text[at:]}' can't be read")
            # a word between quotes is a pattern, whatever it says
            self._tokens.append((found[0].strip(), found[3] is not None))
            at = found.end()

    def whole(self) -> Filter:
        made = self._any()
        if self._tokens:
            raise self._wrong(f"'{self._tokens[0][0]}' stands where AND, OR or the end is expected")
        return made

    def _any(self) -> Filter:
        parts = [self._all()]
        while self._takes("OR"):
            parts.append(self._all())
        return lambda file, item: any(it(file, item) for it in parts)

    def _all(self) -> Filter:
        parts = [self._one()]
        while self._takes("AND"):
            parts.append(self._one())
        return lambda file, item: all(it(file, item) for it in parts)

    def _one(self) -> Filter:
        if self._takes("NOT"):
            part = self._one()
            return lambda file, item: not part(file, item)
        if self._takes("("):
            made = self._any()
            if not self._takes(")"):
                raise self._wrong("a parenthesis isn't closed")
            return made
        word = self._word()
        return self._match(word, self._word()) if self._takes("=~") else self._match("name", word)

    def _match(self, field: str, text: str) -> Filter:
        expression = pattern(text)
        kind, _, name = field.partition(":")
        if field in FIELDS:
            return lambda file, item: bool(expression.fullmatch(FIELDS[field](file, item)))
        if kind in NAMED and name:
            return lambda file, item: bool(expression.fullmatch(NAMED[kind](file, item).get(name, "")))
        raise self._wrong(f"'{field}' is no field; there are {', '.join([*FIELDS, *(f'{it}:NAME' for it in NAMED)])}")

    def _takes(self, word: str) -> bool:
        if self._tokens and self._tokens[0] == (word, False):
            self._tokens.pop(0)
            return True
        return False

    def _word(self) -> str:
        if not self._tokens:
            raise self._wrong("a pattern is missing at its end")
        word, is_quoted = self._tokens.pop(0)
        if not is_quoted and word in ("(", ")", "=~", "AND", "OR", "NOT"):
            raise self._wrong(f"'{word}' stands where a field or a pattern is expected")
        return re.sub(r"\\(.)", r"\1", word[1:-1]) if is_quoted else word

    def _wrong(self, what: str) -> ResultFileError:
        return ResultFileError(f"the filter '{self._expression}': {what}")
