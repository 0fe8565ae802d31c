"""The drawing of a network, of lists as the program will give them."""
from __future__ import annotations

import re

import pytest
from conftest import example

from soldrich import Session, UnknownAnswer
from soldrich.network import Connection, Module, Network, connection_of, drawing, module_of, network_of

NETWORK = Network(
    (
        Module("Net", "Net"),
        Module("Net.a", "Source"),
        Module("Net.sub", "Pair"),
        Module("Net.sub.q[0]", "Queue"),
        Module("Net.b<c", "Sink"),
    ),
    (
        Connection("Net.a.out", "Net.sub.in", "Line delay 10ms datarate 10kbps"),
        Connection("Net.sub.in", "Net.sub.q[0].in"),
        Connection("Net.sub.q[0].out", "Net.b<c.in"),
        Connection("Net.nobody.out", "Net.b<c.in"),
    ),
)


def test_a_drawing():
    svg = drawing(NETWORK)
    assert svg.startswith("<svg") and svg.rstrip().endswith("</svg>")
    # the network and the compound module are boxes around others
    assert sorted(re.findall(r"<title>cluster_(.*?)</title>", svg)) == ["Net", "Net.sub"]
    assert svg.count('class="edge"') == 3
    assert "Line delay 10ms datarate 10kbps" in svg and "q[0]" in svg and "b&lt;c" in svg


def test_lists_are_read():
    assert module_of("Net.queue Queue") == Module("Net.queue", "Queue")
    assert connection_of("Net.a.out --> Net.b.in") == Connection("Net.a.out", "Net.b.in")
    assert connection_of("Net.a.out --> Line delay 10ms --> Net.b.in").channel == "Line delay 10ms"
    with pytest.raises(UnknownAnswer, match="'nonsense'"):
        connection_of("nonsense")


def listing_session(monkeypatch, modules: list[str], connections: list[str]) -> Session:
    """A session of a program that lists these: a stand-in for one that has the commands."""
    it = example("queueing_line")
    session = Session(it.ini, it.neds)
    lists = {"list modules": modules, "list connections": connections}
    monkeypatch.setattr(session, "listing", lambda command: lists[command])
    return session


def test_a_program_that_lists_them(monkeypatch):
    modules = ["Net Net", "Net.a Source", "Net.b Sink"]
    with listing_session(monkeypatch, modules, ["Net.a.out --> Net.b.in"]) as session:
        assert network_of(session) == Network(tuple(map(module_of, modules)), (Connection("Net.a.out", "Net.b.in"),))


def test_a_program_that_lists_them_in_another_form(monkeypatch):
    with listing_session(monkeypatch, ["Net Net"], ["from Net.a to Net.b"]) as session:
        assert network_of(session) is None


def test_a_program_that_does_not_list_them():
    it = example("queueing_line")
    with Session(it.ini, it.neds) as session:
        network = network_of(session)
        assert network is None or {module.path for module in network.modules} >= {
            "QueueingLine.queue",
            "QueueingLine.sink",
        }
