"""The page of a report, in a real browser. What it has to show of the examples is worked out on their pages."""
from __future__ import annotations

import json
import os
import pathlib
import time

import numpy as np
import pytest
from conftest import EXAMPLES, Example, example
from selenium import webdriver
from selenium.webdriver.chrome.options import Options
from selenium.webdriver.chrome.service import Service
from selenium.webdriver.common.by import By
from selenium.webdriver.support.ui import WebDriverWait

from soldrich import ResultFileError, Session
from soldrich.command_line import main
from soldrich.comparison import scalar_pairs, vector_pairs
from soldrich.figures import MOST_POINTS, thinned
from soldrich.report import files_of_run, seconds_shown, write_run_page
from soldrich.result_files import Vector
from soldrich.results import Results

MOST_BYTES = 10_000_000


@pytest.fixture(scope="module")
def browser(tmp_path_factory):
    options = Options()
    options.binary_location = "/usr/bin/chromium"
    # (as root it wants the second word, and in a container the third)
    for word in ("--headless", "--no-sandbox", "--disable-dev-shm-usage", "--disable-gpu", "--window-size=1200,1000"):
        options.add_argument(word)
    options.set_capability("goog:loggingPrefs", {"browser": "ALL"})
    # (what it leaves goes with the folder)
    environment = {**os.environ, "TMPDIR": str(tmp_path_factory.mktemp("browser"))}
    driver = webdriver.Chrome(service=Service("/usr/bin/chromedriver", env=environment), options=options)
    yield driver
    driver.quit()


def open_page(browser, path: pathlib.Path) -> None:
    """Opens a page from disk, and waits until its first chart is drawn."""
    browser.get_log("browser")
    browser.get(path.resolve().as_uri())
    if browser.find_elements(By.CSS_SELECTOR, ".chart"):
        # (it is drawn when it comes into view)
        browser.execute_script("document.querySelector('.chart').scrollIntoView()")
        WebDriverWait(browser, 60).until(lambda it: it.find_elements(By.CSS_SELECTOR, ".chart .main-svg"))


def complaints(browser) -> list[str]:
    return [it["message"] for it in browser.get_log("browser") if it["level"] in ("SEVERE", "WARNING")]


def column(browser, table: str, number: int) -> list[str]:
    """The cells of a column that are shown."""
    cells = browser.find_elements(By.CSS_SELECTOR, f"#{table} tbody tr:not([hidden]) td:nth-child({number})")
    return [it.text for it in cells]


def run_of(it: Example, folder: pathlib.Path, config: str | None = None) -> pathlib.Path:
    """Runs an example, and returns its results as they are named to `report`."""
    with Session(it.ini, it.neds, config or it.config, output=folder) as session:
        return session.write()[0].with_suffix("")


def test_the_page_of_each_example(browser, each_example, tmp_path):
    it, page = each_example, tmp_path / "page.html"
    run = run_of(it, tmp_path / "results")
    assert main(["report", "-o", str(page), str(run)]) == 0
    assert page.stat().st_size <= MOST_BYTES
    open_page(browser, page)
    results = Results.read([f"{run}.sca", f"{run}.vec"])
    assert browser.title.endswith(it.config)
    if len(results.scalars):
        assert column(browser, "scalars", 3) == [str(value) for value in results.scalars["exact"]]
    assert len(browser.find_elements(By.CSS_SELECTOR, "figure.panel")) == len(results.vectors)
    assert complaints(browser) == []


def test_a_table_sorts_and_filters(browser, tmp_path):
    it, page = example("campus"), tmp_path / "page.html"
    main(["report", "-o", str(page), str(run_of(it, tmp_path / "results"))])
    open_page(browser, page)
    values = column(browser, "scalars", 3)
    head = browser.find_element(By.CSS_SELECTOR, "#scalars th:nth-child(3) button")
    head.click()
    assert column(browser, "scalars", 3) == sorted(values, key=int)
    # by the keyboard too
    head.send_keys("\n")
    assert column(browser, "scalars", 3) == sorted(values, key=int, reverse=True)
    modules = column(browser, "scalars", 1)
    browser.find_element(By.CSS_SELECTOR, "input[data-filter=scalars]").send_keys("Floor[0]")
    shown = column(browser, "scalars", 1)
    assert shown == [module for module in modules if "floor[0]" in module] and 0 < len(shown) < len(modules)
    assert complaints(browser) == []


def shown_range(browser) -> list[float]:
    return browser.execute_script("return document.querySelector('.chart').layout.xaxis.range")


def test_a_plot_zooms_and_says_what_is_under_the_mouse(browser, tmp_path):
    page = tmp_path / "page.html"
    main(["report", "-o", str(page), str(run_of(example("queueing_line"), tmp_path / "results"))])
    open_page(browser, page)
    whole = shown_range(browser)
    closer = browser.find_element(By.CSS_SELECTOR, ".tools button[data-move=in]")
    closer.click()
    WebDriverWait(browser, 10).until(lambda it: shown_range(it) != whole)
    zoomed = shown_range(browser)
    assert zoomed[1] - zoomed[0] == pytest.approx((whole[1] - whole[0]) / 2)
    browser.find_element(By.CSS_SELECTOR, ".tools button[data-move=all]").click()
    WebDriverWait(browser, 10).until(lambda it: shown_range(it) == pytest.approx(whole))
    # what the third value is, under the mouse: the page of the example has it
    browser.execute_script("Plotly.Fx.hover(document.querySelector('.chart'), [{curveNumber: 0, pointNumber: 2}])")
    shown = WebDriverWait(browser, 10).until(lambda it: it.find_element(By.CSS_SELECTOR, ".chart .hoverlayer").text)
    # (the lines of the box have no ends in an SVG)
    assert "event 60.2 s3" in shown.replace("\n", "")
    # with a mouse: from a third of the plot to two thirds
    drag = """
        const area = document.querySelector('.chart .nsewdrag'), box = area.getBoundingClientRect();
        const at = (kind, part) => {
            const place = {clientX: box.x + box.width * part, clientY: box.y + box.height / 2};
            const event = new MouseEvent(kind, {bubbles: true, button: 0, buttons: 1, ...place});
            document.elementFromPoint(place.clientX, place.clientY).dispatchEvent(event);
        };
        at('mousedown', 1 / 3); at('mousemove', 1 / 2); at('mousemove', 2 / 3); at('mouseup', 2 / 3);
    """
    browser.execute_script(drag)
    WebDriverWait(browser, 10).until(lambda it: shown_range(it) != pytest.approx(whole))
    assert shown_range(browser)[1] - shown_range(browser)[0] < (whole[1] - whole[0]) / 2
    assert complaints(browser) == []


def test_two_runs_show_where_they_part(browser, tmp_path):
    it, page = example("queueing_line"), tmp_path / "page.html"
    runs = [str(run_of(it, tmp_path / name, name)) for name in ("General", "Slow")]
    assert main(["report", "-o", str(page), *runs]) == 0
    open_page(browser, page)
    text = browser.find_element(By.TAG_NAME, "main").text
    # as its page works out: on the slower line message 1 arrives at 0.51 in place of 0.36, where event 10 was
    assert "They part at event 10, at 0.36 s." in text
    assert column(browser, "entries", 1) == ["QueueingLine.queue.out.channel.datarate"]
    assert column(browser, "entries", 3) == ["4kbps"]
    # the three scalars are equal, and folded away
    assert browser.find_element(By.CSS_SELECTOR, "details.equal").get_attribute("open") is None
    browser.find_element(By.CSS_SELECTOR, "details.equal summary").click()
    assert column(browser, "scalars-equal", 3) == ["3", "1", "4"]
    figures = json.loads(browser.find_element(By.ID, "figures").get_attribute("textContent"))
    arrivals = figures["vector-1"]
    assert [len(trace["x"]) for trace in arrivals["data"]] == [4, 4]
    assert arrivals["layout"]["shapes"][0]["x0"] == 0.36
    assert complaints(browser) == []


def test_light_and_dark_and_a_phone(browser, tmp_path):
    page = tmp_path / "page.html"
    main(["report", "-o", str(page), str(run_of(example("campus"), tmp_path / "results"))])
    try:
        grounds = []
        for theme in ("light", "dark"):
            browser.execute_cdp_cmd(
                "Emulation.setEmulatedMedia", {"features": [{"name": "prefers-color-scheme", "value": theme}]}
            )
            browser.execute_cdp_cmd(
                "Emulation.setDeviceMetricsOverride",
                {"width": 375, "height": 700, "deviceScaleFactor": 2, "mobile": True},
            )
            open_page(browser, page)
            grounds.append(browser.execute_script("return getComputedStyle(document.body).backgroundColor"))
            # nothing is wider than the phone
            assert browser.execute_script("return document.documentElement.scrollWidth") <= 375
        browser.find_element(By.ID, "theme").click()
        assert (
            browser.execute_script("return getComputedStyle(document.body).backgroundColor") == grounds[0] != grounds[1]
        )
    finally:
        browser.execute_cdp_cmd("Emulation.setEmulatedMedia", {"features": []})
        browser.execute_cdp_cmd("Emulation.clearDeviceMetricsOverride", {})
    assert complaints(browser) == []


def test_a_page_reloads_itself_when_it_is_written_again(browser, tmp_path):
    page = tmp_path / "page.html"
    files = files_of_run(run_of(example("fifo"), tmp_path / "results"))
    write_run_page(page, None, Results.read(files), reloads=True)
    open_page(browser, page)
    browser.execute_script("window.isOld = true")
    time.sleep(1.5)
    assert browser.execute_script("return window.isOld") is True
    write_run_page(page, Results.read(files), Results.read(files), reloads=True)
    WebDriverWait(browser, 30).until(lambda it: not it.execute_script("return window.isOld || false"))
    assert "Both runs have the same results" in browser.find_element(By.TAG_NAME, "header").text
    assert complaints(browser) == []


def test_what_stands_in_names_does_no_harm(browser, tmp_path):
    results = tmp_path / "General-#0.sca"
    name = '"<script>alert(1)</script>"'
    results.write_text(f"version 3\nrun General-0\nattr network {name}\n\nscalar N.a {name} 3\n")
    vectors = tmp_path / "General-#0.vec"
    vectors.write_text(f"version 3\nrun General-0\nattr network {name}\n\nvector 0 N.a {name} ETV\n0\t1\t1\t1\n")
    main(["report", "-o", str(tmp_path / "page.html"), str(results)])
    open_page(browser, tmp_path / "page.html")
    assert column(browser, "scalars", 2) == ["<script>alert(1)</script>"]
    assert complaints(browser) == []


# --- without a browser


def vector_of(values: list[int]) -> Vector:
    count = len(values)
    return Vector(np.arange(count), np.arange(count) * 10**9, np.array(values))


def test_many_points_are_thinned():
    few = thinned(vector_of([1, 2, 3]))
    assert not few.is_thinned and few.vector.values.tolist() == [1, 2, 3]
    values = [0] * 100_000
    values[12_345], values[77_777] = 9, -9
    many = thinned(vector_of(values))
    assert many.is_thinned and many.count == 100_000 and len(many.vector.values) <= MOST_POINTS
    assert (many.vector.values.max(), many.vector.values.min()) == (9, -9)
    assert many.vector.events[many.vector.values == 9].tolist() == [12_345]


def test_a_page_says_that_it_is_thinned(tmp_path):
    path = tmp_path / "General-#0.vec"
    lines = "".join(f"0\t{at}\t{at}\t{at % 7}\n" for at in range(30_000))
    path.write_text(f"version 3\nrun General-0\n\nvector 0 N.t x:vector ETV\n{lines}")
    assert main(["report", "-o", str(tmp_path / "page.html"), str(path)]) == 0
    text = (tmp_path / "page.html").read_text()
    assert "of 30,000 values, the least and the greatest of each of 10,000 buckets" in text
    assert len(text.encode()) <= MOST_BYTES


def test_where_runs_part(tmp_path):
    def results(name: str, lines: str) -> Results:
        path = tmp_path / name
        path.write_text(
            f"version 3\nrun General-0\n\nvector 0 N.t x:vector ETV\nscalar N.t a 1\nscalar N.t {name} 5\n{lines}"
        )
        return Results.read(path)

    one = results("one", "0\t1\t1\t7\n0\t2\t2\t7\n0\t5\t3\t7\n")
    other = results("other", "0\t1\t1\t7\n0\t3\t2\t7\n")
    (pair,) = vector_pairs(one, other)
    assert pair.index == 1 and [it.event for it in pair.parting] == [2, 3] and pair.first_difference.event == 2
    (pair,) = vector_pairs(one, results("cut", "0\t1\t1\t7\n0\t2\t2\t7\n"))
    assert pair.index == 2 and pair.parting[1] is None and pair.first_difference.picoseconds == 3 * 10**12
    (pair,) = vector_pairs(one, one)
    assert pair.is_equal and pair.first_difference is None
    pairs = scalar_pairs(one, other)
    assert [(it.name, it.before, it.after, it.difference) for it in pairs] == [
        ("a", 1, 1, 0),
        ("other", None, 5, None),
        ("one", 5, None, None),
    ]


def test_times_are_shown_exactly():
    assert [seconds_shown(it) for it in (0, 1, 10**12, 1_500_000_000_000)] == [
        "0 s",
        "0.000000000001 s",
        "1 s",
        "1.5 s",
    ]


def test_results_that_are_not_there(tmp_path, capsys):
    with pytest.raises(ResultFileError, match="there are no results of that name"):
        files_of_run(tmp_path / "General-#0")
    with pytest.raises(ResultFileError, match="the results of 0 runs"):
        files_of_run(tmp_path)
    assert main(["report", "-o", str(tmp_path / "page.html"), "a", "b", "c"]) == 1
    assert "a page shows one run or two" in capsys.readouterr().err


def test_all_examples_are_tried():
    assert len(EXAMPLES) >= 10
