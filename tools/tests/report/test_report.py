"""Tests of tools/rtcheck-report. The reports are those of docs/REPORT.md, of examples/ and projects/, and of the
worked projects of crates/ck_texts_tests, which come from the specification; the goldens were written by hand from
them."""

import json
import re
import subprocess
import sys
import tempfile
import unittest
from html.parser import HTMLParser
from pathlib import Path

HERE = Path(__file__).resolve().parent
TOP = HERE.parents[2]
sys.path[:0] = [str(TOP / "tools"), str(HERE)]

from rtcheck_tools import gcc, sarif, views
from rtcheck_tools.report import Accepted, NotWhole, Refused, Rejected, Segment, Step, parse, unparse
from rtcheck_tools.report import Alarm, Place
from rtcheck_tools.sources import Sources, file_name
from rtcheck_tools.texts import KINDS, REFUSALS, SETTINGS_KINDS
from rtcheck_tools.way import way
from sarif_rules import faults

TOOL = TOP / "tools/rtcheck-report"


def strings(array):
    """The text of a constant array of strings: its lines."""
    found = re.findall(r'"((?:[^"\\]|\\.)*)"', array)
    return "".join(re.sub(r"\\(.)", r"\1", line) + "\n" for line in found)


def worked_projects():
    """The worked projects as (name, text of main.i, report)."""
    text = (TOP / "crates/ck_texts_tests/src/reports.rt").read_text()
    for body in re.findall(r": Project = Project \{(.*?)\n\};", text, re.S):
        name = re.search(r'name: "(.*?)"', body)[1].replace(" ", "-")
        parts = [re.search(rf"\b{part}: &\[(.*?)\n    \]", body, re.S)[1] for part in ("text", "report")]
        yield (name, *map(strings, parts))


def source_of(text, name="main.c"):
    """What a text with line markers has of a file: its lines, where they are."""
    lines, number = {}, 1 if name == "main.i" else None
    for line in text.split("\n"):
        marker = re.fullmatch(r'# (\d+) "(.*)"', line)
        if marker:
            number = int(marker[1]) if marker[2] == name else None
        elif number is not None:
            lines[number] = line
            number += 1
    return "\n".join(lines.get(k, "") for k in range(1, max(lines, default=0) + 1))


def reports():
    """All reports that are at hand, as (where, bytes)."""
    page = (TOP / "docs/REPORT.md").read_text()
    for k, block in enumerate(re.findall(r"```\n(rtcheck 1\n.*?)```", page, re.S)):
        yield f"docs/REPORT.md, block {k}", block.encode()
    for name, _, report in worked_projects():
        yield name, report.encode()
    for file in sorted(TOP.glob("examples/*/report*")) + sorted(TOP.glob("projects/*/report")):
        if file.stat().st_size:
            yield str(file.relative_to(TOP)), file.read_bytes()
    for line in re.findall(r'"(rtcheck 1\\nsettings .*?)\\n"', settings_rows()):
        yield line, line.replace("\\n", "\n").encode() + b"\n"


def settings_rows():
    return (TOP / "crates/ck_texts_tests/src/settings.rt").read_text()


def run(report, *words, cwd=None):
    """The tool's status, output and standard error."""
    done = subprocess.run([sys.executable, str(TOOL), *words], input=report, capture_output=True, cwd=cwd)
    return done.returncode, done.stdout, done.stderr


def alarms(report):
    found = report.alarms if isinstance(report, Rejected) else []
    return [(a.kind, a.place, a.name, a.entry) for a in found]


class Reading(unittest.TestCase):
    def test_there_are_reports(self):
        self.assertGreater(len(list(reports())), 60)
        self.assertGreaterEqual(len(list(worked_projects())), 7)

    def test_what_is_read_is_written_back(self):
        for where, raw in reports():
            with self.subTest(where):
                self.assertEqual(unparse(parse(raw)), raw)

    def test_each_part_of_a_report_is_no_report(self):
        for where, raw in reports():
            for size in range(len(raw)):
                with self.subTest(where, size=size), self.assertRaises(NotWhole):
                    parse(raw[:size])

    def test_what_comes_after_a_report_is_none(self):
        for where, raw in reports():
            with self.subTest(where), self.assertRaises(NotWhole):
                parse(raw + b"rtcheck 1\n")

    def test_segments_are_in_order(self):
        raw = dict(reports())["return-before-epilogue"]
        for old, new in [
            (b"call main.c:2:6 Vector40 1", b"call main.c:2:6 Vector40 2"),
            (b"call main.c:2:6 Vector40 1", b"enter main.c:2:6 Vector40"),
            (b"segment 2 ", b"segment 3 "),
            (b"alarm 1 ", b"alarm 2 "),
            (b"P#3", b"P#9"),
            (b"rejected 1", b"rejected 01"),
            (b"4:7 true", b"4:7 yes"),
        ]:
            with self.subTest(new=new), self.assertRaises(NotWhole):
                parse(raw.replace(old, new))

    def test_the_tables_are_those_of_the_pages(self):
        page = (TOP / "docs/REPORT.md").read_text()
        rows = {int(n): words for n, words in re.findall(r"^\| U(\d+) \| `(.*?)` \|", page, re.M)}
        self.assertEqual({n: words for n, (words, _) in REFUSALS.items()}, rows)
        kinds = re.findall(r"^\| `(.*?)` \| .* \| (?:`rtcheck.toml`|the .*) \|$", page, re.M)
        self.assertEqual(list(SETTINGS_KINDS), kinds)
        states = (TOP / "docs/STATES.md").read_text()
        alarms_of_states = dict(re.findall(r"^\| (P#\d) \| (.*?) \|$", states, re.M))
        self.assertEqual({k: v for k, v in KINDS.items() if k.startswith("P")}, alarms_of_states)
        self.assertEqual([k for k in KINDS if k.startswith("SV")], re.findall(r"^\| (SV#\d+) \|", states, re.M))
        self.assertTrue(all(hint for _, hint in REFUSALS.values()) and all(SETTINGS_KINDS.values()))


class Formats(unittest.TestCase):
    def test_gcc_goldens(self):
        self.goldens("gcc", lambda report, sources: gcc.gcc(report))

    def test_term_goldens(self):
        self.goldens("term", views.term)

    def goldens(self, form, written):
        found = sorted((HERE / "goldens").glob(f"*.{form}"))
        self.assertTrue(found)
        projects = {name: (text, report) for name, text, report in worked_projects()}
        for golden in found:
            text, report = projects[golden.stem]
            with self.subTest(golden.name), tempfile.TemporaryDirectory() as root:
                Path(root, "main.c").write_text(source_of(text))
                lines = list(written(parse(report.encode()), Sources(root)))
                self.assertEqual(lines, golden.read_text().split("\n")[:-1])

    def test_sarif_golden(self):
        report = parse(dict(reports())["return-before-epilogue"])
        golden = json.loads((HERE / "goldens/return-before-epilogue.sarif").read_text())
        self.assertEqual(sarif.sarif(report, Sources())["runs"][0]["results"], golden)

    def test_alarms_are_read_back_from_gcc_lines(self):
        for where, raw in reports():
            with self.subTest(where):
                report = parse(raw)
                self.assertEqual(list(gcc.alarms_of(gcc.gcc(report))), alarms(report))

    def test_alarms_are_read_back_from_sarif(self):
        for where, raw in reports():
            with self.subTest(where):
                report = parse(raw)
                log = json.loads(json.dumps(sarif.sarif(report, Sources("/nowhere"))))
                own = [
                    (k, p and Place(file_name(p.name), p.line, p.column), n, e) for k, p, n, e in alarms(report)
                ]
                self.assertEqual(list(sarif.alarms_of(log, Sources("/nowhere"))), own)

    def test_sarif_keeps_to_the_standard(self):
        for where, raw in reports():
            with self.subTest(where):
                self.assertEqual(list(faults(sarif.sarif(parse(raw), Sources()))), [])

    def test_the_rules_of_sarif_find_faults(self):
        log = sarif.sarif(parse(dict(reports())["return-before-epilogue"]), Sources())
        for where, key, value in [
            (log, "version", "2.0.0"),
            (log["runs"][0], "result", []),
            (log["runs"][0]["results"][0], "message", {}),
            (log["runs"][0]["results"][0], "ruleIndex", 3),
            (log["runs"][0]["results"][0]["locations"][0]["physicalLocation"]["region"], "startLine", 0),
            (log["runs"][0]["results"][0]["locations"][0]["physicalLocation"]["artifactLocation"], "uri", "a b.c"),
            (log["runs"][0]["results"][0]["codeFlows"][0]["threadFlows"][0], "locations", []),
            (log["runs"][0], "originalUriBaseIds", {}),
        ]:
            kept = where.get(key)
            where[key] = value
            with self.subTest(key=key):
                self.assertTrue(list(faults(log)))
            if kept is None:
                del where[key]
            else:
                where[key] = kept
        self.assertEqual(list(faults(log)), [])

    def test_a_refusal_is_a_failed_execution(self):
        for where, raw in reports():
            with self.subTest(where):
                report = parse(raw)
                log = sarif.sarif(report, Sources())["runs"][0]
                decided = isinstance(report, (Accepted, Rejected))
                self.assertEqual(log["invocations"][0]["executionSuccessful"], decided)
                self.assertEqual("results" in log, decided)
                self.assertEqual("toolExecutionNotifications" in log["invocations"][0], not decided)

    def test_fingerprints_stay_where_lines_move(self):
        report = parse(dict(reports())["several-alarms"])
        before = sarif.fingerprints(report.alarms)
        for alarm in report.alarms:
            alarm.place = Place(alarm.place.name, alarm.place.line + 7, alarm.place.column)
        self.assertEqual(sarif.fingerprints(report.alarms), before)
        self.assertEqual(len(set(before)), 3)
        twice = [report.alarms[0], report.alarms[0]]
        self.assertEqual(len(set(sarif.fingerprints(twice))), 2)

    def test_the_page_is_well_formed_and_tells_each_step(self):
        for where, raw in reports():
            with self.subTest(where):
                report = parse(raw)
                shown = Page()
                shown.feed("\n".join(views.page(report, Sources())))
                self.assertEqual((shown.open, shown.scripts), ([], 0))
                text, at = shown.text, 0
                for alarm in report.alarms if isinstance(report, Rejected) else []:
                    for words in [alarm.kind] + [s.words for s in way(alarm)] + [f"{alarm.name}: {alarm.kind}"]:
                        at = text.index(words, at)

    def test_a_page_escapes_what_it_shows(self):
        report = Refused(7, Place("<b>&.c", 1, 1))
        text = "\n".join(views.page(report, Sources("/nowhere")))
        self.assertIn("&lt;b&gt;&amp;.c:1:1", text)
        self.assertNotIn("<b>", text)

    def test_a_path_with_a_call_that_is_cited_often_stays_short(self):
        depth = 60
        segments = [Segment("f0", [Step("act", None, "chSysLock"), Step("return")])]
        for k in range(1, depth):
            calls = [Step("call", Place("a.c", k, 1), f"f{k - 1}", k) for _ in range(2)]
            segments.append(Segment(f"f{k}", calls + [Step("return")]))
        segments.append(Segment("[main]", [Step("call", None, f"f{depth - 1}", depth), Step("alarm")]))
        alarm = Alarm("SV#4", None, "chSysLock", "main", segments)
        self.assertEqual(parse(unparse(Rejected([alarm]))), Rejected([alarm]))
        self.assertEqual(len(list(way(alarm))), 2 * (depth - 1) + 2)

    def test_columns_count_bytes_in_the_report_and_units_in_sarif(self):
        with tempfile.TemporaryDirectory() as root:
            Path(root, "a.c").write_bytes("/* ä 🙂 */ chSysLock();\n".encode())
            sources, place = Sources(root), Place("a.c", 1, 15)
            self.assertEqual(sources.utf16_column(place), 12)
            self.assertEqual(sources.column(place), 11)
            self.assertEqual(sources.byte_place(Place("a.c", 1, 12)), place)

    def test_names_of_files(self):
        self.assertEqual(file_name(r"wo\"rk\\a.c"), 'wo"rk\\a.c')
        self.assertEqual(file_name(r"\303\244.c"), "ä.c")
        raw = b"rtcheck 1\nunsupported U7 a b:c\xff.c:3:4 syntax\n"
        log = sarif.sarif(parse(raw), Sources())
        self.assertEqual(list(faults(log)), [])
        notes = log["runs"][0]["invocations"][0]["toolExecutionNotifications"]
        self.assertEqual(notes[0]["locations"][0]["physicalLocation"]["artifactLocation"]["uri"], "a%20b%3Ac%FF.c")


class Tool(unittest.TestCase):
    def test_it_passes_the_status_on(self):
        for line, status in [
            (b"accepted\nfiles 1 functions 1 entries 1", 0),
            (b"unsupported U23 - main absent or of another type", 2),
            (b"settings rtcheck.toml absent", 4),
        ]:
            self.assertEqual(run(b"rtcheck 1\n" + line + b"\n")[0], status)
        for form in ("gcc", "sarif", "term", "html"):
            status, out, said = run((TOP / "examples/double-lock/report").read_bytes(), "--format", form)
            self.assertEqual((status, said), (1, b""))
            self.assertTrue(out)

    def test_no_report_is_an_error(self):
        for raw in (b"", b"rtcheck 1\nrejected 1\n"):
            status, out, said = run(raw, "--format", "sarif")
            self.assertEqual((status, out), (6, b""))
            self.assertIn(b"no whole report", said)

    def test_wrong_words(self):
        self.assertEqual(run(b"", "--format", "xml")[0], 3)

    def test_a_refusal_is_shown_with_its_source_and_a_hint(self):
        with tempfile.TemporaryDirectory() as root:
            Path(root, "main.c").write_text("int a;\nunion u { int a; };\n")
            raw = b"rtcheck 1\nunsupported U5 main.c:2:1 reserved word outside the subset\n"
            status, out, _ = run(raw, "--format", "term", cwd=root)
            lines = out.decode().split("\n")
            self.assertEqual(status, 2)
            self.assertEqual(lines[0], "main.c:2:1: error: U5 reserved word outside the subset")
            self.assertTrue(lines[1].startswith("main.c:2:1: note: ") and "unions" in lines[1])
            self.assertEqual(lines[2:4], ["     2 | union u { int a; };", "       | ^"])


class Page(HTMLParser):
    """A page's text, the elements that are still open, and the scripts."""

    def __init__(self):
        super().__init__()
        self.open, self.scripts, self.text = [], 0, ""

    def handle_starttag(self, tag, attrs):
        self.scripts += tag in ("script", "link", "img", "iframe")
        if tag != "meta":
            self.open.append(tag)

    def handle_endtag(self, tag):
        if self.open.pop() != tag:
            raise AssertionError(f"</{tag}> closes another element")

    def handle_data(self, data):
        self.text += data


if __name__ == "__main__":
    unittest.main()
