"""Result files as data frames: Soldrich's own, and those of OMNeT++ 6."""
from __future__ import annotations

import time

import numpy as np
import pandas as pd
import pytest

from soldrich import ResultFileError, Results, read_result_files
from soldrich.patterns import pattern
from soldrich.result_files import SkippedResults, picoseconds
from soldrich.results import (
    get_config_entries,
    get_itervars,
    get_runattrs,
    get_runs,
    get_scalars,
    get_vectors,
    paths_of,
)

HEAD = "version 3\nrun General-0\nattr configname General\nattr network N\nconfig network N\nconfig **.count 3\n\n"
# as OMNeT++ 6 writes them: with quotes, attributes of results, statistics and histograms, real values, vectors without
# event numbers
OMNETPP_HEAD = """version 3
run General-0-20240102-10:11:12-77
attr configname General
attr datetime 20240102-10:11:12
attr iterationvars "$n=2"
attr network FifoNet
itervar n 2
config network FifoNet
config **.sendIaTime "exponential(1s)"

"""
OMNETPP_SCALARS = """par FifoNet.gen msgLength 100b
attr unit b
scalar FifoNet.gen "bits sent" 4096
attr title "bits \\"sent\\""
attr unit b
scalar FifoNet.fifo busy:timeavg 0.125
scalar FifoNet.fifo nothing:mean nan
statistic FifoNet.fifo qlen:stats
field count 100
field mean 1.5
attr interpolationmode none
histogram FifoNet.fifo qlen:histogram
field count 100
bin -inf 3
bin 0 97
scalar FifoNet.sink rx:count 7
"""
OMNETPP_VECTORS = """vector 0 FifoNet.fifo qlen:vector ETV
attr source qlen
vector 7 FifoNet.sink lifetime:vector TV
0\t4\t0.5\t1
0\t9\t1.25\t2
7\t0.75\t0.125
vector 8 FifoNet.sink late:vector ETV
8\t11\t2.000000000001\t-3
0\t12\t3\t2.5
7\t3\t-1
"""


def written(tmp_path, name: str, text: str):
    path = tmp_path / name
    path.write_text(text)
    return path


def test_a_run(tmp_path):
    written(
        tmp_path,
        "General-#0.sca",
        HEAD + "scalar N.t fired:count 3\nscalar N.t sum 170141183460469231731687303715884105727\n",
    )
    written(
        tmp_path,
        "General-#0.vec",
        HEAD
        + "vector 0 N.t fired:vector ETV\nvector 1 N.t x:vector ETV\n"
        + "0\t1\t0.5\t4\n1\t1\t0.5\t-9\n0\t2\t9223372.036854775807\t5\n",
    )
    frame = read_result_files(tmp_path / "*")
    assert list(frame.columns[:7]) == ["runID", "type", "module", "name", "attrname", "attrvalue", "value"]
    assert {"vectime", "vecvalue"} <= set(frame.columns)
    assert set(frame["runID"]) == {"General-0"}
    assert frame["type"].tolist() == ["runattr", "runattr", "config", "config", "scalar", "scalar", "vector", "vector"]
    results = Results(frame)
    # a whole number of any size is what the file says
    assert results.scalar("N.t", "sum") == 2**127 - 1
    assert results.scalars["value"].tolist() == [3.0, float(2**127)]
    vector = results.vector("N.t", "fired:vector")
    assert vector["event"].tolist() == [1, 2]
    # (as a float of seconds this time would be a millisecond off)
    assert vector["ps"].tolist() == [500_000_000_000, 9_223_372_036_854_775_807]
    assert vector["time"].tolist() == [0.5, 9223372.036854776]
    assert vector["value"].tolist() == [4, 5]
    assert results.vector("N.t", "x:vector")["value"].tolist() == [-9]
    assert results.matching("**.fired:*")["name"].tolist() == ["fired:vector"]
    assert len(results.plot("N.*.x:vector").data) == 1
    with pytest.raises(KeyError):
        results.scalar("N.t", "nothing")


def test_the_functions_of_omnetpp(tmp_path):
    written(tmp_path, "a.sca", HEAD + "scalar N.t fired:count 3\n")
    frame = read_result_files([str(tmp_path / "a.sca")])
    assert get_scalars(frame).columns.tolist() == ["runID", "module", "name", "value", "exact"]
    wide = get_scalars(frame, include_runattrs=True, include_config_entries=True)
    assert wide.loc[0, ["configname", "**.count"]].tolist() == ["General", "3"]
    assert get_runs(frame)["configname"].tolist() == ["General"]
    assert get_runattrs(frame).values.tolist() == [
        ["General-0", "configname", "General"],
        ["General-0", "network", "N"],
    ]
    assert get_config_entries(frame)["name"].tolist() == ["network", "**.count"]
    assert len(get_vectors(frame)) == 0


def test_files_of_omnetpp(tmp_path):
    written(tmp_path, "x.sca", OMNETPP_HEAD + OMNETPP_SCALARS)
    written(tmp_path, "x.vec", OMNETPP_HEAD + OMNETPP_VECTORS)
    with pytest.warns(SkippedResults, match="1 of the kind 'statistic', 1 of the kind 'histogram'"):
        frame = read_result_files([tmp_path / "x.sca", tmp_path / "x.vec"])
    scalars = get_scalars(frame, include_attrs=True, include_itervars=True)
    assert scalars["name"].tolist() == ["bits sent", "busy:timeavg", "nothing:mean", "rx:count"]
    assert scalars["exact"].tolist()[:2] == [4096, 0.125] and np.isnan(scalars["value"][2])
    assert scalars["title"].tolist()[0] == 'bits "sent"' and scalars["unit"].tolist()[0] == "b"
    # (the attributes of what is skipped are not those of a scalar)
    assert "interpolationmode" not in scalars.columns
    assert scalars["n"].tolist() == ["2"] * 4
    assert get_itervars(frame).values.tolist() == [["General-0-20240102-10:11:12-77", "n", "2"]]
    assert "exponential(1s)" in get_config_entries(frame)["value"].tolist()
    parameters = frame[frame["type"] == "param"]
    assert parameters[["module", "name", "attrvalue"]].values.tolist() == [["FifoNet.gen", "msgLength", "100b"]]
    results = Results(frame)
    queue = results.vector("FifoNet.fifo", "qlen:vector")
    assert queue["event"].tolist() == [4, 9, 12] and queue["value"].tolist() == [1, 2, 2.5]
    lifetime = results.vector("FifoNet.sink", "lifetime:vector")
    assert lifetime["ps"].tolist() == [750_000_000_000, 3_000_000_000_000] and lifetime["value"].tolist() == [0.125, -1]
    assert lifetime["event"].tolist() == [-1, -1]
    assert results.vector("FifoNet.sink", "late:vector")["ps"].tolist() == [2_000_000_000_001]


@pytest.mark.parametrize(
    "text, told",
    [
        ("", "there is no run in it"),
        ("version 3\nscalar N x 1\n", r":2: this line can't be read.*a line 'run NAME' comes before it"),
        ("version 9\nrun A\n", r":1: .*versions 2 and 3 are read"),
        (HEAD + "scalar N x one\n", r":8: this line can't be read: 'scalar N x one'"),
        (HEAD + "scalar N x\n", r":8: "),
        (HEAD + "vector 0 N x ETV\n0\t1\t1s\t1\n", "the time '1s' is not a decimal number"),
        (HEAD + "vector 0 N x ETV\n0\t1\t9223372.036854775808\t1\n", "a time is above 9223372.036854775807 s"),
        (HEAD + "vector 0 N x ETV\n0\t1\t98765432109876543210.5\t1\n", "a time is above"),
        (HEAD + "vector 0 N x ETV\n0\t1\t9223373\t1\n", "a time is above"),
        (HEAD + "vector 0 N x EV\n0\t1\t1\n", "vector 0 has the columns 'EV'"),
        (HEAD + "5\t1\t1\t1\n", "no line 'vector 5 ..' declares it"),
        (HEAD + "vector 0 N x ETV\n0\t1\t1\t1\t1\t1\n", "a line of values is not"),
    ],
)
def test_what_is_no_result_file(tmp_path, text, told):
    path = written(tmp_path, "x.vec", text)
    with pytest.raises(ResultFileError, match=told) as error:
        read_result_files(path)
    assert str(error.value).startswith(str(path)) or "time" in told


@pytest.mark.parametrize(
    "expression, names",
    [
        ("rx:count", ["rx:count"]),
        ("name =~ *:count", ["rx:count"]),
        ('module =~ "FifoNet.*" AND type =~ vector', ["qlen:vector", "lifetime:vector", "late:vector"]),
        ("type =~ scalar AND NOT (name =~ rx* OR name =~ *:timeavg)", ["bits sent", "nothing:mean"]),
        ('name =~ "bits sent" OR attr:source =~ qlen', ["bits sent", "qlen:vector"]),
        ("itervar:n =~ 3", []),
        (
            "itervar:n =~ 2 AND runattr:network =~ FifoNet AND config:network =~ * "
            "AND run =~ General** AND file =~ **.sca AND type =~ param",
            ["msgLength"],
        ),
    ],
)
@pytest.mark.filterwarnings("ignore::soldrich.result_files.SkippedResults")
def test_a_filter(tmp_path, expression, names):
    written(tmp_path, "x.sca", OMNETPP_HEAD + OMNETPP_SCALARS)
    written(tmp_path, "x.vec", OMNETPP_HEAD + OMNETPP_VECTORS)
    frame = read_result_files(tmp_path, expression)
    assert frame[frame["type"].isin(["scalar", "vector", "param"])]["name"].tolist() == names
    assert bool(len(frame[frame["type"] == "runattr"])) == bool(names)


@pytest.mark.parametrize(
    "expression, told",
    [
        ("module =~", "a pattern is missing"),
        ("(rx:count", "a parenthesis isn't closed"),
        ("a b", "'b' stands where AND, OR or the end is expected"),
        ("modul =~ a", "'modul' is no field; there are file, run"),
        ("AND", "'AND' stands where a field or a pattern is expected"),
        ('"open', "can't be read"),
    ],
)
def test_what_is_no_filter(tmp_path, expression, told):
    written(tmp_path, "x.sca", HEAD)
    with pytest.raises(ResultFileError) as error:
        read_result_files(tmp_path, expression)
    assert told in str(error.value) and expression in str(error.value)


def test_vectors_without_event_numbers(tmp_path):
    path = written(tmp_path, "x.vec", OMNETPP_HEAD + "vector 3 N.t x:vector TV\n3\t0.5\t1\n3\t1\t2\n")
    vector = Results.read(path).vector("N.t", "x:vector")
    assert vector["time"].tolist() == [0.5, 1] and vector["value"].tolist() == [1, 2]


def test_which_files_are_meant(tmp_path):
    for name in ("a.sca", "b/a.vec", "a.sca.part", "page.html"):
        (tmp_path / name).parent.mkdir(exist_ok=True)
        written(tmp_path, name, HEAD)
    named = [
        str(it.relative_to(tmp_path))
        for it in paths_of([tmp_path / "*", tmp_path, tmp_path / "**/*", tmp_path / "a.sca.part"])
    ]
    assert named == ["a.sca", "b/a.vec", "a.sca.part"]


def test_no_files(tmp_path):
    with pytest.raises(ResultFileError, match="there is no such result file"):
        read_result_files(tmp_path / "*.sca")


def test_times_are_exact():
    texts = np.array(["0", "1", "0.000000000001", "12.5", "9223372.036854775807", "3.1400000000000000000"], "S24")
    assert picoseconds(texts).tolist() == [
        0,
        10**12,
        1,
        12_500_000_000_000,
        9_223_372_036_854_775_807,
        3_140_000_000_000,
    ]


def test_a_large_vector_file_is_read_in_time(tmp_path):
    count = 400_000
    lines = "".join(f"{at % 4}\t{at}\t{at // 4000}.{at % 4000:04}\t{at * 7 % 1000}\n" for at in range(count))
    path = written(
        tmp_path, "x.vec", HEAD + "".join(f"vector {it} N.t[{it}] x:vector ETV\n" for it in range(4)) + lines
    )
    begun = time.process_time()
    results = Results.read(path)
    seconds = time.process_time() - begun
    assert [len(it) for it in results.vectors["vecvalue"]] == [count // 4] * 4
    # 100 MB in ten seconds, and twice as many where other work is beside it
    assert seconds < 20 * path.stat().st_size / 1e8


@pytest.mark.parametrize(
    "text, matching, others",
    [
        ("**.rx:count", ["N.sink.rx:count", "N.a.b.rx:count"], ["N.sink.rx:max", "rx:count"]),
        ("N.*.x", ["N.a.x"], ["N.a.b.x"]),
        ("N.node[{1..3}].x", ["N.node[2].x"], ["N.node[4].x", "N.node[12].x"]),
        ("N.?.{a-c}x", ["N.q.bx"], ["N.q.dx", "N.qq.bx"]),
    ],
)
def test_patterns(text, matching, others):
    expression = pattern(text)
    assert all(expression.fullmatch(it) for it in matching)
    assert not any(expression.fullmatch(it) for it in others)


def test_frames_are_made_of_plain_columns(tmp_path):
    path = written(tmp_path, "x.sca", HEAD + "scalar N x 1\n")
    assert read_result_files(path)["value"].dtype == np.float64
    assert isinstance(Results.read(path).scalars, pd.DataFrame)
