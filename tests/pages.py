"""The page that plays a run, `run.html` of the package for Python: a file of ASCII that asks for no other one. It has two scripts, one that reads
the run and one that shows it, each of at most 400 lines.

The program has this page too, in crates/fs_draw_page/src/template.rt: `python3 tests/pages.py --write` writes that file from `run.html`. What `draw --html`
writes is this page with the trace, or the journal behind its verdict, and the picture.

Where Chromium is installed it plays drawn runs and journals: the last tree of each is the one at the end of its text. Names that are
hostile run nothing, keys and links lead from event to event, and the picture of the run is seen where scripts are off.
"""
import base64
import hashlib
import html
import json
import pathlib
import random
import re
import shutil
import subprocess
import sys
import tempfile
import typing
import unittest

import drawn
import harness
import pictures
import traces
from harness import ROOT, Case, run, takes_a_process
from worked import EXAMPLES, JOURNALS, RUNS, examples

PAGE = (ROOT / "bindings" / "python" / "src" / "atomfs" / "run.html").read_text("ascii")
SCRIPTS = re.findall("<script>(.*?)</script>", PAGE, re.S)
# Where the program has the page, in the parts before the picture, between this and the text, and after the text.
TEMPLATE = ROOT / "crates" / "fs_draw_page" / "src" / "template.rt"
PARTS = (("BEFORE", "before the picture"), ("BETWEEN", "between the picture and the text"), ("AFTER", "after the text"))
POLICY = '<meta http-equiv="Content-Security-Policy" content="{}">\n'
# Drawn runs of which the last tree is looked at.
DRAWN = 50
LINES = 400
# Names that would run something if they came to the page as anything but text.
HOSTILE_NAMES = (
    b"</pre><script>document.title='run'</script>",
    b"<img/src=x/onerror=document.title='run'>",
    b"<!--<script>",
    b"&lt;b&gt;&amp;",
    b"\"'`${document.title='run'}",
    b"\xff\xfe\xc3",
    b"%3Cb%01",
    b"]]>-->",
)
# The slash of an end tag parts two names; it is written as if it stood in one, and each name is a directory.
HOSTILE = b"atomfs 3\nthread t\n" + b"".join(
    b"mkdir /%s\n" % b"/".join(name.split(b"/")[:depth])
    for name in HOSTILE_NAMES
    for depth in range(1, name.count(b"/") + 2)
)
HOSTILE += b"schedule\nfinish\n"


def template() -> str:
    """The file with the parts of the page for the program."""
    head = (
        "//! The page without a run, in three parts: `bindings/python/src/atomfs/run.html`, byte for byte. After a change there\n"
        "//! `python3 tests/pages.py --write` writes this file.\n"
    )
    written = zip(PARTS, re.split("@PICTURE@\n|@RUN@", PAGE))
    return head + "".join(
        f'\n/// What the page has {where}.\npub const {name}: &[u8] = br##"{part}"##;\n'
        for (name, where), part in written
    )


def page_of(text: bytes, picture: str = "", policy: bool = True) -> str:
    """The page of a text; without its policy, scripts of a test run in it."""
    page = PAGE if policy else re.sub('<meta http-equiv="Content-Security-Policy"[^>]*>\n', "", PAGE)
    escaped = re.sub(rb"[^\n -~]", lambda found: b"%%%02X" % found[0][0], text).decode("ascii")
    return page.replace("@PICTURE@\n", picture).replace("@RUN@", html.escape(escaped, quote=False))


def shown(page: str, *flags: str, link: str = "") -> str:
    """What Chromium has of a page when it was loaded."""
    with tempfile.TemporaryDirectory(prefix="atomfs-") as folder:
        path = pathlib.Path(folder) / "page.html"
        path.write_text(page, "ascii")
        words: tuple[str, ...] = (
            str(pictures.CHROMIUM),
            "--headless",
            "--no-sandbox",
            "--disable-gpu",
            f"--user-data-dir={folder}/profile",
        )
        words += (*flags, "--dump-dom", path.as_uri() + link)
        return subprocess.run(words, capture_output=True, text=True, timeout=5 * harness.MOST_SECONDS).stdout


def asked(page: str, script: str, *flags: str, link: str = "") -> typing.Any:
    """What a script of a test answers in a page."""
    look = f"<script>document.body.textContent = JSON.stringify((() => {{{script}}})())</script>"
    found = re.search("<body>(.*)</body>", shown(page + look, *flags, link=link), re.S)
    return found and json.loads(html.unescape(found[1]))


def wants_chromium() -> None:
    """Leaves a test out where there is no browser."""
    harness.takes_a_process()
    if not pictures.CHROMIUM:
        raise unittest.SkipTest("pages are played where Chromium is installed: apt-get install chromium")


class Text(Case):
    """The page as it is in the package."""

    def test_one_template(self) -> None:
        """The program has the page of the package, byte for byte."""
        self.same(
            f"`python3 tests/pages.py --write` writes {TEMPLATE.name} from run.html", TEMPLATE.read_text(), template()
        )

    def test_it_asks_for_nothing(self) -> None:
        """Every address in it is the name of the space of SVG; it refers to nothing outside it, and its policy allows nothing else."""
        self.same("addresses", re.findall(r"\w+://[^\"']*", PAGE), ["http://www.w3.org/2000/svg"])
        self.same(
            "elements", re.findall(r"<(?:link|iframe|object|embed|base|form)\b|\ssrc=|@import|\burl\((?!#)", PAGE), []
        )
        self.same(
            "calls",
            re.findall(r"fetch\(|XMLHttp|WebSocket|import\(|eval\(|innerHTML|outerHTML|insertAdjacent", PAGE),
            [],
        )

    def test_policy(self) -> None:
        """Only the scripts of the page run: the policy has their digests."""
        digests = [base64.b64encode(hashlib.sha256(script.encode()).digest()).decode() for script in SCRIPTS]
        scripts = " ".join(f"'sha256-{digest}'" for digest in digests)
        allowed = f"default-src 'none'; img-src data:; style-src 'unsafe-inline'; script-src {scripts}"
        self.same("policy", POLICY.format(allowed) in PAGE, True)

    def test_lines(self) -> None:
        """Comments and blank lines are not counted."""
        self.same("scripts", len(SCRIPTS), 2)
        for script in SCRIPTS:
            lines = [line for line in script.splitlines() if line.strip() and not line.strip().startswith("//")]
            self.assertLessEqual(len(lines), LINES)
            self.same("long lines", [line for line in script.splitlines() if len(line) > 150], [])


class Program(Case):
    """What `draw --html` writes."""

    SEED = ("--seed", "7")

    def look(self, given: bytes, *words: str) -> None:
        """The page has the trace of the run, or the journal behind its verdict; and the picture, whose status is its own."""
        is_journal = given.startswith(b"atomfs-journal")
        picture = run(given, "draw", *words)
        played = b"# " + run(given, "check").output + given if is_journal else run(given, "trace", *words).output
        wanted = picture._replace(output=page_of(played, picture.output.decode()).encode())
        self.same(
            f"draw --html {' '.join(words)}\n{given.decode(errors='backslashreplace')}",
            run(given, "draw", "--html", *words),
            wanted,
        )

    def test_scripts(self) -> None:
        """By the schedule of the script, by a drawn one and round robin; some have checkpoints, or calls that are left."""
        scripts = [given for _, given in (*examples(RUNS, "script"), *examples(EXAMPLES, "script"))]
        for given in (*scripts, traces.PIECES, traces.NOTHING, traces.AT_THE_ENDS, traces.CUT):
            self.look(given)
        for given in scripts[::5]:
            self.look(given, *self.SEED)
            self.look(given, "--robin")

    def test_journals(self) -> None:
        """Lawful or not; a schedule is not used."""
        for _, given in (*examples(JOURNALS, "journal"), *examples(EXAMPLES, "journal")):
            self.look(given)

    def test_what_others_hand_on(self) -> None:
        """A journal of a run; a script that was found, shrunk or written with the events of its run; and the journal up to a return that nothing explains."""
        takes_a_process()
        self.look(run((RUNS / "helped_mkdir.script").read_bytes(), "run").output, *self.SEED)
        race = (EXAMPLES / "moved_ancestor.script").read_bytes()
        found = run(race, "find", "--where", "reply writer#2 failed", "--seed", "1", "--runs", "100").output
        self.look(found)
        self.look(run(found, "shrink", "--where", "reply writer#2 failed").output)
        self.look(run(race, "schedule", *self.SEED).output)
        wrong = b"atomfs-journal 1\nbegin 1 0 mkdir /a\nreturn 1 failed EEXIST\n"
        self.look(run(wrong, "linearize", "--front").output)

    def test_hostile(self) -> None:
        """No byte of a name or of a comment comes to the page as a sign of HTML, or as one that is not printable."""
        takes_a_process()
        journal = run(HOSTILE, "run").output
        comment = journal.replace(b"\n", b"\n# seat 0 </pre><script>\x00\x7f\xc3\r<!--&lt;-->\n", 1)
        for given in (HOSTILE, journal, comment):
            self.look(given)
            page = run(given, "draw", "--html").output
            self.same("printable", re.findall(rb"[^\n -~]", page), [])
            # The page has two scripts and one text, and a comment begins nowhere.
            self.same(
                "elements", [page.count(sign) for sign in (b"</pre>", b"<script>", b"</script>", b"<!--")], [1, 2, 2, 0]
            )

    def test_refused(self) -> None:
        """As of a picture: what is no script and no journal, and a checkpoint to which a run comes too early."""
        for given in (
            b"",
            b"atomfs 1\nmkdir /a\n",
            b"atomfs-journal 1\nbegin\n",
            b"atomfs-journal 5\n",
            b"atomfs-trace 2\n",
        ):
            self.same(given.decode(), run(given, "draw", "--html"), run(given, "draw"))
            self.same("its status", run(given, "draw", "--html").status, 3)
        early = b"atomfs 1\nthread t\nmkdir /a\nschedule\nt !checkpoint\n"
        self.same("under way", run(early, "draw", "--html"), run(early, "draw"))
        self.same("its status", run(early, "draw", "--html").status, 1)


def drawn_runs() -> typing.Iterator[bytes]:
    """Traces of drawn scripts by drawn schedules."""
    for number in range(DRAWN):
        draw = random.Random(number)
        lists = [
            [drawn.moving_call(draw, drawn.CROWDED) for _ in range(draw.randrange(1, 40))]
            for _ in range(draw.randrange(1, 6))
        ]
        yield run(drawn.script(lists).encode(), "trace", "--seed", str(number)).output


def worked_runs() -> typing.Iterator[bytes]:
    """Traces and journals of the worked scripts, of which some have checkpoints, bytes that are escaped, or files of many bytes."""
    for path, given in (*examples(RUNS, "script"), *examples(EXAMPLES, "script")):
        yield run(given, "trace").output
        yield run(given, "run").output
    yield from (
        run(given, "trace").output for given in (traces.PIECES, traces.NOTHING, traces.AT_THE_ENDS, traces.CUT, HOSTILE)
    )


class Trees(Case):
    """The tree after the last event is the one at the end of the text; the calls, and those that were helped, are counted."""

    ASK = """return TEXTS.map(text => { const run = readRun(text), lines = nodesOf(stateAt(run, run.events.length).root).map(lineOf);
        return [lines, run.calls.length, run.calls.filter(call => call.helper).length, run.events.length, isRight(run)]; });"""

    def look(self, given_texts: typing.Sequence[bytes]) -> None:
        texts = [text.decode("ascii") for text in given_texts]
        # A text stands in a string of JavaScript, in which no sign ends the script.
        given = json.dumps(texts).replace("<", r"\u003c")
        answers = asked(page_of(b"atomfs-trace 2\n", policy=False), f"const TEXTS = {given}; {self.ASK}")
        self.same("how many", answers and len(answers), len(texts))
        for text, (lines, calls, helped, events, is_right) in zip(texts, answers):
            body, _, end = text.partition("\ntree\n")
            is_trace = text.startswith("atomfs-trace")
            count: typing.Callable[[str], int] = lambda form: len(re.findall(form, body, re.M))
            tree = re.findall("^(?:dir|file) .*", end, re.M)
            # The tree of a run text lacks the change of a call that takes effect and is left.
            if is_trace or count("^commit ") == count("^return "):
                self.same(text, lines, tree)
            wanted = (
                count(" begins |^begin "),
                count(" helps "),
                count(r"^\d+ |^checkpoint") if is_trace else count("^(?:begin|commit|return) "),
            )
            self.same(text, (calls, helped, events, is_right), (*wanted, True))

    def test_drawn(self) -> None:
        wants_chromium()
        self.look(list(drawn_runs()))

    def test_worked(self) -> None:
        wants_chromium()
        self.look(list(worked_runs()))

    def test_another_tree(self) -> None:
        """A page says that its tree is not the one of the text."""
        wants_chromium()
        wrong = run((RUNS / "helped_mkdir.script").read_bytes(), "trace").output.replace(
            b"\ndir /b/d/x\n", b"\ndir /b/d/y\n"
        )
        self.assertIn("THE TREE OF THIS PAGE IS WRONG", shown(page_of(wrong)))


class Hostile(Case):
    """Names are text and nothing else, with the policy of the page and without it."""

    def test_names(self) -> None:
        wants_chromium()
        trace, journal = (run(HOSTILE, command).output for command in ("trace", "run"))
        comment = journal.replace(b"\n", b"\n# seat 0 </pre><script>document.title='run'</script>\n", 1)
        for text in (trace, journal, comment):
            for policy in (True, False):
                page = shown(page_of(text, run(HOSTILE, "draw").output.decode(), policy), link="#event=9999")
                self.same(text, re.findall("<title>(.*?)</title>", page)[0], "AtomFS: a run, event by event")
                self.same(text, "mkdir /&lt;/pre&gt;&lt;script&gt;document.title='run'&lt;" in page, True)
                self.same(text, re.findall("<img|<script>document", page), [])

    def test_each_node_has_its_name(self) -> None:
        wants_chromium()
        text = run(HOSTILE, "trace").output
        ask = "show(end); return nodesOf(view.state.root).map((one, place) => nodeRow(one, false).textContent.trim())"
        told = [path.rpartition("/")[2] + "/" for path in re.findall("^dir (.+)$", text.decode(), re.M)]
        self.same("the tree", asked(page_of(text, policy=False), ask), told)
        self.assertGreater(len(told), len(HOSTILE_NAMES))


def noted(text: bytes, *notes: str) -> str:
    """The page of a text with notes before it, as Python's package writes them."""
    return page_of("".join(f"# {note}\n" for note in notes).encode() + text, policy=False)


class Sources(Case):
    """A page that Python makes of a failed run of functions says which line of source made each call."""

    # As the package escapes it: a text that would run something, an accented letter, a tab, a sign that turns what is beside it, and a byte that is no UTF-8.
    SOURCE = "app.py:4 os.mkdir('/a') # </pre><script>document.title='run'</script>%C3%A4%09%E2%80%AE%FF"
    SHOWN = "app.py:4 os.mkdir('/a') # </pre><script>document.title='run'</script>\xe4\\u{9}\\u{202e}\ufffd"

    def test_line(self) -> None:
        """It is beside the sentence of each event of that call, and in the list of calls; and it can be searched for."""
        wants_chromium()
        trace = run((RUNS / "helped_mkdir.script").read_bytes(), "trace").output
        ask = "const source = byId('source'), seen = at => { show(at); return source.hidden ? null : source.textContent; };"
        ask += "const told = [seen(0), seen(1), seen(end)], row = document.querySelector('#calls li');"
        ask += "find('app.py:9', 1); return [told, row.textContent, byId('count').textContent, document.title];"
        page = noted(trace, f"source 1 {self.SOURCE}", "source 2 app.py:9 os.mkdir('/a/d')", "source 99 app.py:9 none")
        told, row, found, title = asked(page, ask)
        self.same("beside the sentence", told, ["", self.SHOWN, ""])
        self.same("in the list", row, f"1. m#1 mkdir /a  \u2192 ok  {self.SHOWN}")
        self.same("found, title", [found, title], ["event 6 (6 of 27)", "AtomFS: a run, event by event"])
        self.same("without lines", asked(noted(trace), ask)[0], [None] * 3)


class Histories(Case):
    """A page that Python makes of a history has the calls in the order that was found, or says what is wrong."""

    NONE = b"atomfs-journal 1\nbegin 1 0 mkdir /a\ncommit 1\nreturn 1 ok\nbegin 2 0 rmdir /a\nbegin 3 1 mkdir /a/b\ncommit 3\nreturn 3 ok\n"
    NONE += b"return 2 ok\nbegin 4 1 stat /a\nreturn 4 failed ?\n"
    NOTES = "fault 8 ReturnUncommitted", "history none 6 2", "reply the call could have replied: failed ENOTEMPTY"
    SEEN = "byId('news').textContent, byId('sentence').textContent"

    def test_none(self) -> None:
        """The headline has the return at fault, its sentence what the call could have replied, and calls without a commit are seen too."""
        wants_chromium()
        calls = "[...document.querySelectorAll('#calls li')].map(row => row.textContent)"
        kinds = "[...document.querySelectorAll('#lanes g')].map(one => [one.getAttribute('aria-label'), ...one.querySelector('rect').classList, one.classList.contains('wrong')])"
        ask = f"show(8); const told = [{self.SEEN}]; show(end); return [told, {calls}, {kinds}, byId('legend').textContent !== ''];"
        told, rows, bars, has_legend = asked(noted(self.NONE, *self.NOTES), ask)
        reply = "No order explains this reply. The call could have replied: failed ENOTEMPTY."
        news = "4 calls on 2 threads; no order explains that rmdir /a returned ok"
        self.same("the fault", told, [news, f"seat 0#2 (rmdir /a) returns ok. {reply}"])
        wanted = ["1. seat 0#1 mkdir /a", "2. seat 1#1 mkdir /a/b", "   seat 0#2 rmdir /a", "   seat 1#2 stat /a"]
        self.same("calls", [row.partition("  \u2192")[0] for row in rows], wanted)
        bars = {name.split(" ", 2)[2]: kinds for name, *kinds in bars}
        due = {"(mkdir /a)": ["walk", False], "(rmdir /a)": ["open", True], "(mkdir /a/b)": ["walk", False]}
        self.same("bars", (bars, has_legend), ({**due, "(stat /a)": ["open", False]}, True))

    def test_front(self) -> None:
        """So has the program's page of a journal that ends with that return, also without notes; an earlier entry is named as it is."""
        wants_chromium()
        front = b"".join(self.NONE.splitlines(keepends=True)[:9])
        ask = f"show(end); return [{self.SEEN}]"
        news, said = (
            "3 calls on 2 threads; no order explains that rmdir /a returned ok",
            "seat 0#2 (rmdir /a) returns ok. ",
        )
        told = asked(noted(front, "fault 8 ReturnUncommitted"), ask)
        self.same("without notes", told, [news, said + "No order explains this reply."])
        told = asked(noted(front, *self.NOTES), ask)
        self.same(
            "with notes",
            told,
            [news, said + "No order explains this reply. The call could have replied: failed ENOTEMPTY."],
        )
        told = asked(noted(front + b"begin 4 1 stat /a\n", "fault 8 ReturnUncommitted"), ask.replace("end", "8"))
        self.same("an earlier entry", told[1], said + "This is wrong: ReturnUncommitted.")

    def test_lawful(self) -> None:
        wants_chromium()
        text = b"atomfs-journal 1\nbegin 1 0 mkdir /a\ncommit 1\nreturn 1 ok\n"
        told = asked(noted(text, "lawful", "history lawful"), f"show(end); return [{self.SEEN}];")
        wanted = ["1 call on 1 thread; an order explains every reply", "seat 0#1 (mkdir /a) returns ok."]
        self.same("the news", told, wanted)

    def test_met(self) -> None:
        """A call on which the pointer rests, or that has the focus, is shown with the calls that it met; the focus stays with the call."""
        wants_chromium()
        ask = "const bars = () => [...document.querySelectorAll('#lanes g')], met = () => bars().filter(one => one.classList.contains('met')).map(one => one.call.words);"
        ask += "const told = [], tell = () => told.push([met(), byId('met').textContent]);"
        ask += "const at = name => bars().find(one => one.call.words === name), press = key => document.activeElement.dispatchEvent(new KeyboardEvent('keydown', {key, bubbles: true}));"
        ask += "at('rmdir /a').dispatchEvent(new PointerEvent('pointerover', {bubbles: true})); tell();"
        ask += "document.body.dispatchEvent(new PointerEvent('pointerover', {bubbles: true})); tell();"
        ask += "at('stat /a').focus(); tell(); at('mkdir /a/b').focus(); tell(); press('Enter'); tell(); press('ArrowRight');"
        ask += "return [told, document.activeElement.call.words, byId('count').textContent];"
        told, focused, count = asked(noted(self.NONE, *self.NOTES), ask)
        both = [["rmdir /a"], "seat 1#1 (mkdir /a/b) met seat 0#2 (rmdir /a)."]
        wanted = [[["mkdir /a/b"], "seat 0#2 (rmdir /a) met seat 1#1 (mkdir /a/b)."], [[], ""]]
        self.same("met", told, [*wanted, [[], "seat 1#2 (stat /a) met no other call."], both, both])
        self.same("focus", [focused, count], ["mkdir /a/b", "event 7 (7 of 10)"])


class Bytes(Case):
    """Bytes are text where all are printable, and many are cut; the list of events has all."""

    def test_bytes(self) -> None:
        wants_chromium()
        trace = run(pictures.BYTES, "trace").output
        ask = (
            "const all = run.events.map((_, at) => { show(at + 1); return byId('sentence').textContent; }); show(end);"
        )
        ask += "const rows = name => [...document.querySelectorAll(`#${name} li`)].map(row => row.textContent);"
        ask += "return [all.filter(words => / begins | returns bytes/.test(words)), rows('calls'), rows('events').length, rows('events').filter(row => /706f7274/.test(row)).length > 0];"
        told, calls, _, has_digits = asked(page_of(trace, policy=False), ask)
        self.same(
            "begins",
            [words for words in told if "write" in words][:2],
            ['w begins w#2: write /config 0 "port=80\\n".', "w begins w#3: write /config 8 00ff."],
        )
        self.same(
            "returns",
            [words for words in told if "returns bytes" in words][0],
            'r#1 (read /config 0 99) returns bytes "".',
        )
        self.same(
            "calls", '3. w#2 write /config 0 "port=80\\n"  \u2192 wrote 8' in [row.strip() for row in calls], True
        )
        self.same("events", has_digits, True)

    def test_many(self) -> None:
        wants_chromium()
        text = (
            b"atomfs-journal 1\nbegin 1 0 mknod /f\ncommit 1\nreturn 1 ok\nbegin 2 0 write /f 0 %s\ncommit 2\nreturn 2 wrote 100\n"
            % (b"61" * 100)
        )
        told = asked(page_of(text, policy=False), "show(4); return byId('sentence').textContent")
        self.same("cut", told, 'seat 0 begins seat 0#2: write /f 0 "' + "a" * 60 + '"\u2026.')


class Played(Case):
    """Keys, links and marks."""

    TRACE = (RUNS / "helped_mkdir.script").read_bytes()
    SEEN = "[byId('count').textContent, byId('sentence').textContent]"

    def page(self) -> str:
        return page_of(run(self.TRACE, "trace").output, run(self.TRACE, "draw").output.decode(), policy=False)

    def test_keys(self) -> None:
        wants_chromium()
        press = "const press = key => { dispatchEvent(new KeyboardEvent('keydown', {key})); return %s; };" % self.SEEN
        keys = ["End", "ArrowLeft", "Home", "ArrowRight", "PageDown", "PageDown", "PageUp"]
        answers = asked(
            self.page(),
            press.replace("dispatchEvent", "document.body.dispatchEvent").replace("{key}", "{key, bubbles: true}")
            + f"return {json.dumps(keys)}.map(press);",
        )
        wanted = [
            ["event 27 (27 of 27)", "m#3 (mkdir /a/d/x) returns ok."],
            ["event 26 (26 of 27)", "m#3 (mkdir /a/d/x) unlocks /b/d, which it has locked as /a/d."],
            ["27 events", "Before the first event."],
            ["event 1 (1 of 27)", "m begins m#1: mkdir /a."],
            ["event 3 (3 of 27)", "m#1 (mkdir /a) takes effect, 1st in order: it adds /a."],
            ["event 10 (10 of 27)", "m#2 (mkdir /a/d) takes effect, 2nd in order: it adds /a/d."],
            ["event 3 (3 of 27)", "m#1 (mkdir /a) takes effect, 1st in order: it adds /a."],
        ]
        self.same("keys", answers, wanted)

    def test_link(self) -> None:
        """A link leads to an event; what is said is in a live region, and the tree has what is locked."""
        wants_chromium()
        rows = "[...document.querySelectorAll('#tree li')].map(row => row.textContent)"
        told = asked(
            self.page(),
            f"return [{self.SEEN}, {rows}, byId('sentence').getAttribute('aria-live'), byId('news').textContent]",
            link="#event=21",
        )
        sentence = (
            "r#1 (rename /a /b) is about to move what m#3 (mkdir /a/d/x) still works in, at /a/d. So it helps: "
            "m#3 takes effect now, 3rd in order, before the move. Its change is still to come."
        )
        tree = ["/  locked by r#1", "  a/", "    d/  locked by m#3"]
        self.same(
            "event 21",
            told,
            [
                ["event 21 (21 of 27)", sentence],
                tree,
                "polite",
                "4 calls on 2 threads; rename /a /b helped mkdir /a/d/x",
            ],
        )

    def test_find_and_zoom(self) -> None:
        wants_chromium()
        told = asked(
            self.page(),
            f"find('helps', 1); const one = byId('count').textContent; find('nothing of it', 1); zoom(0.5); return [one, byId('found').textContent, byId('axis').textContent, {self.SEEN}[0]]",
        )
        self.same(
            "found",
            told,
            [
                "event 21 (21 of 27)",
                "not found",
                "Events 14 to 27 of 27, from left to right; the red line is now.",
                "event 21 (21 of 27)",
            ],
        )

    def test_fault(self) -> None:
        """The first entry at fault of a journal is named, if a line before the journal has it; a comment in it does not count."""
        wants_chromium()
        journal = (EXAMPLES / "wrong_reply.journal").read_bytes().replace(b"\n", b"\n# fault 3 CommitTwice\n", 1)
        journal = b"# fault 12 WrongReply\n" + journal
        told = asked(page_of(journal, policy=False), f"show(12); return [byId('news').textContent, {self.SEEN}[1]]")
        self.same(
            "fault",
            told,
            [
                "4 calls on 2 threads; entry 12 is wrong: WrongReply",
                "seat 0#3 (mkdir /a/d/x) returns failed ENOENT. This is wrong: WrongReply.",
            ],
        )

    def test_schemes(self) -> None:
        wants_chromium()
        ask = "return getComputedStyle(document.body).backgroundColor"
        colours = [asked(self.page(), ask, f"--blink-settings=preferredColorScheme={number}") for number in (0, 1)]
        self.same("dark, light", colours, ["rgb(13, 17, 23)", "rgb(255, 255, 255)"])

    def test_without_scripts(self) -> None:
        """The picture of the run is seen, and nothing of the player is: here in a frame that may run no script."""
        wants_chromium()
        ask = (
            "const page = this.contentDocument, height = one => page.querySelector(one).getBoundingClientRect().height; "
            "document.body.textContent = JSON.stringify([page.querySelectorAll('noscript .call').length, height('noscript svg') > 200, height('#player'), height('#run')])"
        )
        frame = f'<iframe sandbox="allow-same-origin" srcdoc="{html.escape(self.page())}" onload="{html.escape(ask)}"></iframe>'
        found = harness.match_in("<body>(.*)</body>", shown(f"<!DOCTYPE html><body>{frame}"), re.S)
        self.same("calls, and what is seen", json.loads(html.unescape(found[1])), [4, True, 0, 0])

    def test_large(self) -> None:
        """Of a run of many events only what is seen is in the page."""
        wants_chromium()
        name, given, *words = next(row for row in pictures.LARGE if row[0] == "five_hundred_calls")
        events, rows = asked(
            page_of(run(given, "trace", *words).output, policy=False),
            "show(3000); return [end, document.querySelectorAll('li').length]",
        )
        self.assertGreater(events, 3_000)
        self.assertLess(rows, 200)

    def test_print(self) -> None:
        """On paper all events of a short run are seen, whichever are on the screen; of a long one those around this one."""
        wants_chromium()
        seen = "[...document.querySelectorAll('#events li')].map(row => parseInt(row.textContent))"
        ask = f"show(27); dispatchEvent(new Event('beforeprint')); return {seen}"
        self.same("a short run", asked(self.page(), ask), list(range(1, 28)))
        name, given, *words = next(row for row in pictures.LARGE if row[0] == "five_hundred_calls")
        page = page_of(run(given, "trace", *words).output, policy=False)
        told = asked(
            page,
            f"show(3000); dispatchEvent(new Event('beforeprint')); return [{seen}.length, run.events[2999].number, {seen}]",
        )
        self.same("a long run", (400 <= told[0] < 500, told[1] in told[2]), (True, True))

    def test_many_seats(self) -> None:
        """Nor of a journal with many seats, whose states that are kept grow with the events alone."""
        wants_chromium()
        seats = range(5_000)
        text = "atomfs-journal 1\n" + "".join(f"begin {seat + 1} {seat} stat /\n" for seat in seats)
        text += "".join(f"commit {seat + 1}\nreturn {seat + 1} stat dir 0\n" for seat in seats)
        ask = "show(end); const kept = run.states.reduce((sum, state) => sum + state.pending.size, 0);"
        ask += (
            "return [run.lanes.length, run.lanes[4999], document.querySelectorAll('li').length < 200, kept < 2 * end]"
        )
        told = asked(page_of(text.encode(), policy=False), ask)
        self.same("lanes, rows, states", told, [5_000, "seat 4999", True, True])


if __name__ == "__main__":
    if sys.argv[1:] == ["--write"]:
        TEMPLATE.write_text(template())
    else:
        unittest.main()
