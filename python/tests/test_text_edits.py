"""Differences of texts as edits of lines, in whatever order they are made."""
from __future__ import annotations

import random

from soldrich.text_edits import Kind, LineEdit, line_edits

LINES = ["a = 1", "a = 2", "b = 1", "b = 2", "[Config A]", "", "# note"]


def made(old: list[str], edits: list[LineEdit]) -> list[str]:
    """The lines after these edits, as a session makes them."""
    lines, done = list(old), []
    for edit in edits:
        at = edit.line(done) - 1
        done.append(edit)
        if edit.kind is Kind.INSERT:
            lines.insert(at, edit.text)
        elif edit.kind is Kind.REPLACE:
            lines[at] = edit.text
        else:
            del lines[at]
    return lines


def test_a_value_that_changed_is_one_edit():
    assert line_edits(["x", "a = 1", "b = 1"], ["x", "a = 2", "b = 1"]) == [LineEdit(Kind.REPLACE, 1, 0, "a = 2")]


def test_a_line_is_replaced_by_one_of_the_same_key():
    edits = line_edits(["a = 1", "b = 1"], ["c = 3", "a = 2", "b = 2"])
    assert [(it.kind, it.before, it.text) for it in edits] == [
        (Kind.INSERT, 0, "c = 3"),
        (Kind.REPLACE, 0, "a = 2"),
        (Kind.REPLACE, 1, "b = 2"),
    ]


def test_a_line_that_moved_is_put_in_before_it_is_taken_out():
    assert [it.kind for it in line_edits(["a = 1", "b", "c"], ["b", "c", "a = 1"])] == [Kind.INSERT, Kind.REMOVE]


def test_equal_texts_have_no_difference():
    assert line_edits(LINES, LINES) == []


def test_any_texts_in_any_order():
    for number in range(3000):
        chance = random.Random(number)
        old, new = ([chance.choice(LINES) for _ in range(chance.randint(0, 8))] for _ in range(2))
        edits = line_edits(old, new)
        assert made(old, edits) == new
        assert made(old, chance.sample(edits, len(edits))) == new
        assert len(edits) <= max(len(old), len(new)) + min(len(old), len(new))
