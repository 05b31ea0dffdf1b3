"""The playground in a browser. `in_browser.sh` runs this, if there is one; PICTURES names a folder for screenshots."""

import json
import os
import re
import tempfile
import threading
import unittest
from pathlib import Path

from kozhvadi.playground._pages import Playground
from kozhvadi.playground._project import Project

from .chromium import Browser
from .test_playground import contrast

EXAMPLES = Path(__file__).resolve().parents[3] / "examples"

# The files of the README, which the pictures show, and longer ones.
INBOX_POLISH = (EXAMPLES / "inbox.pl.ftl").read_text(encoding="utf-8")
INBOX_ENGLISH = (EXAMPLES / "inbox.ftl").read_text(encoding="utf-8")
POLISH = (
    INBOX_POLISH
    + """
settings = Ustawienia
    .tooltip = Zmień wygląd programu { -brnad }
-brand = Kozhvadi
"""
)
ENGLISH = (
    INBOX_ENGLISH
    + """settings = Settings
    .tooltip = Change how { -brand } looks
-brand = Kozhvadi
"""
)
ARABIC = """welcome = أهلًا بك، { $name }!
unread = { $count ->
    [zero] ليس لديك رسائل غير مقروءة.
    [one] لديك رسالة واحدة غير مقروءة.
    [two] لديك رسالتان غير مقروءتين.
    [few] لديك { $count } رسائل غير مقروءة.
    [many] لديك { $count } رسالة غير مقروءة.
   *[other] لديك { $count } رسالة غير مقروءة.
}
"""

# Each text of the page that is seen, with its colour and the one behind it.
COLOURS = """(() => {
    const seen = [];
    const walker = document.createTreeWalker(document.body, NodeFilter.SHOW_TEXT);
    for (let node = walker.nextNode(); node; node = walker.nextNode()) {
        const parent = node.parentElement;
        if (!node.data.trim() || !parent.checkVisibility() || parent.closest("textarea, noscript, .skip")) continue;
        let ground = "rgba(0, 0, 0, 0)";
        for (let each = parent; each && ground === "rgba(0, 0, 0, 0)"; each = each.parentElement) {
            ground = getComputedStyle(each).backgroundColor;
        }
        seen.push([getComputedStyle(parent).color, ground, node.data.trim().slice(0, 40)]);
    }
    return seen;
})()"""

FOCUSED = """(() => {
    const each = document.activeElement;
    return each.id || each.dataset.variable || each.className || each.tagName;
})()"""


def hexed(colour):
    """A colour of CSS in the form #rrggbb."""
    numbers = [int(part) for part in colour[colour.index("(") + 1 : -1].split(",")[:3]]
    return "#" + "".join(f"{number:02x}" for number in numbers)


class PageTest(unittest.TestCase):
    maxDiff = None

    @classmethod
    def setUpClass(cls):
        cls.given = {"source": "", "reference": "", "locale": "en"}
        cls.started = None
        cls.server = Playground(0, lambda: cls.started() if cls.started else dict(cls.given))
        threading.Thread(target=cls.server.serve_forever, args=(0.01,), daemon=True).start()
        cls.browser = Browser()

    @classmethod
    def tearDownClass(cls):
        cls.browser.close()
        cls.server.shutdown()
        cls.server.server_close()

    def setUp(self):
        self.browser.problems.clear()
        self.browser.size(1280, 900)
        self.browser.theme("light")

    def tearDown(self):
        self.assertEqual(self.browser.problems, [])

    def begin(self, source="", reference="", locale="en", fragment="", **more):
        self.given.clear()
        self.given.update(source=source, reference=reference, locale=locale, **more)
        self.browser.go("about:blank")
        self.browser.go(self.server.address + fragment)
        self.assertTrue(self.browser.until("state.seen !== null && location.hash.length > 1"))

    def wait(self, script, words=None):
        self.assertTrue(self.browser.until(script), words or script)

    def texts(self, selector):
        return self.browser.run(
            f"[...document.querySelectorAll({json.dumps(selector)})].map((each) => each.textContent)"
        )

    def picture(self, name):
        folder = os.environ.get("PICTURES")
        if folder:
            self.browser.picture(Path(folder, name))

    def test_typing(self):
        self.begin()
        self.wait("document.querySelector('.nothing')")
        self.browser.run("document.getElementById('source').focus()")
        self.browser.type("hello = Hello, { $name }!\n")
        self.wait("document.querySelector('.message .text')?.textContent.includes('Hello, \\u2068Jane\\u2069!')")
        self.browser.type("bad = { -brnad }\n-brand = B\n")
        self.wait("document.querySelector('u.error')?.textContent === '-brnad'")
        self.assertEqual(self.texts("#findings .severity"), ["error"])
        self.assertEqual(self.texts(".errors li"), ["Unknown term: -brnad"])
        self.browser.run("document.querySelector('#findings .fix').click()")
        self.wait(
            "document.querySelectorAll('u').length === 0 && document.getElementById('source').value.includes('{ -brand }')"
        )
        self.wait("document.getElementById('summary').textContent === 'No findings'")

    def test_fields_of_variables(self):
        self.begin("unread = { $n ->\n    [one] One\n   *[other] { $n } of { $whole }\n}\nmore = { unread }\n")
        self.assertEqual(self.texts(".fields label"), ["$n", "$whole"] * 2)
        self.browser.run(
            "document.querySelector('[data-variable=n]').select(); document.querySelector('[data-variable=n]').focus()"
        )
        self.browser.type("1")
        self.wait("document.querySelector('.text').textContent === 'One'")
        # The field keeps the focus, and what is typed goes on.
        self.browser.type("2")
        self.wait("document.querySelector('.text').textContent.includes('\\u206812\\u2069 of')")
        self.assertEqual(self.browser.run(FOCUSED), "n")

    def test_each_category_side_by_side(self):
        self.begin(POLISH, ENGLISH, "pl")
        self.wait("document.querySelectorAll('.cases dt b').length === 4")
        self.assertEqual(self.texts(".cases dt b"), ["one", "few", "many", "other"])
        tops = self.browser.run(
            "[...document.querySelectorAll('.cases > div')].map((each) => each.getBoundingClientRect().top)"
        )
        self.assertEqual(len(set(tops)), 1)
        self.browser.run(
            "document.getElementById('locale').value = 'ar'; document.getElementById('locale').dispatchEvent(new Event('change'))"
        )
        self.wait("document.querySelectorAll('.cases dt b').length === 6")

    def test_a_reference(self):
        self.begin(POLISH, ENGLISH, "pl")
        self.assertEqual(self.texts("u.error"), ["$nmae", "-brnad"])
        self.assertTrue(self.browser.run("document.getElementById('compare').open"))
        self.browser.run("document.getElementById('reference').focus()")
        self.browser.run("document.getElementById('reference').setSelectionRange(0, 0)")
        self.browser.type("new = New\n")
        self.wait("[...document.querySelectorAll('#missing .go')].some((each) => each.textContent.includes('new'))")

    def test_what_is_heard_and_seen_otherwise(self):
        self.begin("unread = { $n ->\n    [one] One\n   *[other] { $n }\n}\n", locale="pl")
        field = "document.querySelector('[data-variable=n]')"
        self.assertEqual(self.browser.run(f"[{field}.ariaLabel, {field}.dir]"), ["$n, in unread", "auto"])
        self.assertEqual(self.browser.run("document.getElementById('source').lang"), "pl")
        # In forced colours the tile that is chosen has another border than the others.
        self.browser.media("forced-colors", "active")
        widths = "[...document.querySelectorAll('.cases > div')].map((each) => [each.className, getComputedStyle(each).borderTopWidth])"
        for name, width in self.browser.run(widths):
            self.assertEqual(width, "3px" if name == "chosen" else "1px")
        self.browser.media("forced-colors", "none")

    def test_marks_are_made_visible(self):
        self.begin("a = b { $x }\n")
        self.assertEqual(self.texts(".mark"), [])
        self.browser.run("document.getElementById('marks').click()")
        self.wait("document.querySelectorAll('.mark').length === 2")
        self.assertEqual(self.texts(".mark"), ["FSI", "PDI"])

    def test_texts_from_right_to_left(self):
        self.begin(ARABIC, locale="ar")
        self.assertEqual(self.browser.run("getComputedStyle(document.querySelector('.text')).direction"), "rtl")
        self.assertEqual(self.browser.run("document.querySelector('.text').lang"), "ar")
        inside = (
            "const box = document.querySelector('.text').getBoundingClientRect(); const range = document.createRange();"
        )
        inside += "range.setStart(document.querySelector('.text').firstChild, 0); range.setEnd(document.querySelector('.text').firstChild, 1);"
        first = self.browser.run(f"(() => {{ {inside} return box.right - range.getBoundingClientRect().right; }})()")
        self.assertLess(first, 4)
        self.browser.run("document.getElementById('marks').click()")
        self.wait("document.querySelectorAll('.mark').length > 2")
        self.picture("playground-right-to-left.png")

    def test_a_link_holds_the_state(self):
        self.begin("a = é { $x }\n")
        self.browser.run(
            "document.querySelector('[data-variable=x]').select(); document.querySelector('[data-variable=x]').focus()"
        )
        self.browser.type("\U0001f44d")
        self.browser.run("document.getElementById('marks').click()")
        self.browser.run(
            "document.getElementById('locale').value = 'pl'; document.getElementById('locale').dispatchEvent(new Event('change'))"
        )
        self.wait(
            "document.querySelector('.text').textContent.includes('\U0001f44d') && document.querySelector('.text').lang === 'pl'"
        )
        self.browser.run("keep()")
        fragment = self.browser.run("location.hash")
        self.begin("other = x\n", fragment=fragment)
        self.assertEqual(self.browser.run("document.getElementById('source').value"), "a = é { $x }\n")
        self.assertEqual(self.texts(".text"), ["é \u2068FSI\U0001f44dPDI\u2069"])
        self.assertEqual(self.browser.run("document.getElementById('locale').value"), "pl")
        self.begin("other = x\n", fragment="#damaged")
        self.assertEqual(self.texts(".text"), ["x"])

    def test_bad_input_never_breaks_the_page(self):
        self.begin()
        for source in (
            '<img src=x onerror=alert(1)> = y\na = <b>bold</b> { "<script>" }\n',
            "a = {" * 50,
            "{" * 3000,
            "a = { $x ->\n",
            "\u202e\u2066 = \u0000\n",
            "a = x\n" * 400,
            "a = " + "x" * 20_000 + "\n",
            "-t = x\n",
            "a =\n    .b = c\n",
            "",
        ):
            self.browser.run(
                f"document.getElementById('source').value = {json.dumps(source)}; typed(document.getElementById('source'))"
            )
            self.wait("state.shown === state.asked && document.getElementById('messages').children.length > 0")
        self.assertEqual(self.browser.run("document.querySelectorAll('img, b b, script:not([src])').length"), 0)
        self.browser.run(
            "document.getElementById('source').value = 'a = <b>bold</b>'; typed(document.getElementById('source'))"
        )
        self.wait("document.querySelector('.text')?.textContent === '<b>bold</b>'")

    def test_a_damaged_link_is_named_until_another_text_is_there(self):
        self.given.clear()
        self.given.update(source="other = x\n", reference="", locale="en")
        self.browser.go("about:blank")
        self.browser.go(f"{self.server.address}#damaged")
        self.wait("state.seen !== null && document.querySelector('.text').textContent === 'x'")
        words = "The link is damaged, so the page begins anew."
        self.assertEqual(self.browser.run("document.getElementById('problem').textContent"), words)
        self.assertEqual(self.browser.run("location.hash"), "#damaged")
        self.browser.run("document.getElementById('source').focus()")
        self.browser.type("more = y\n")
        self.wait("document.getElementById('problem').hidden && location.hash !== '#damaged'")

    def project(self, files, references=None, writes=False):
        """Shows the files of a folder."""
        folder = tempfile.TemporaryDirectory()
        self.addCleanup(folder.cleanup)
        root = Path(folder.name)
        for language, texts in (("pl", files), ("en", references or {})):
            for name, text in texts.items():
                (root / language).mkdir(exist_ok=True)
                (root / language / name).write_text(text, encoding="utf-8")
        read = lambda: Project.read([root / "pl"], [root / "en"] if references else [])

        def start():
            project = read()
            name = next(iter(project.files))
            texts = {"source": project.files[name], "reference": project.references.get(name, "")}
            return {**texts, "project": project, "name": name, "locale": "pl", "writes": writes}

        self.addCleanup(setattr, type(self), "started", None)
        type(self).started = staticmethod(start)
        self.browser.go("about:blank")
        self.browser.go(self.server.address)
        self.wait("state.seen !== null && state.name")
        return root / "pl"

    def test_a_folder(self):
        main = "a = { -brand } { -none }\n"
        root = self.project({"main.ftl": main, "terms.ftl": "-brand = Lis\n"}, {"main.ftl": "a = { -brand }\nb = B\n"})
        self.wait("document.querySelector('.text').textContent.startsWith('Lis ')")
        self.assertEqual(self.texts("#file option"), ["main.ftl (1 error)", "terms.ftl"])
        self.assertEqual(self.texts("#missing .severity"), ["warning"])
        choose = "document.getElementById('file').value = '{}'; document.getElementById('file').dispatchEvent(new Event('change'))"
        self.browser.run(choose.format("terms.ftl"))
        self.wait("document.getElementById('source').value === '-brand = Lis\\n' && state.shown === state.asked")
        self.browser.run("document.getElementById('source').focus()")
        self.browser.type("-none = N\n")
        self.wait("document.querySelector('#file option').textContent === 'main.ftl'")
        self.browser.run(choose.format("main.ftl"))
        self.wait("document.querySelector('.text')?.textContent === 'Lis N'")
        self.assertEqual((root / "terms.ftl").read_text(encoding="utf-8"), "-brand = Lis\n")
        # What was typed would be lost, so the browser asks: here it doesn't have to.
        self.browser.run("state.others = {}")

    def test_files_are_read_again_when_the_page_is_loaded(self):
        root = self.project({"main.ftl": "a = one\n"})
        (root / "main.ftl").write_text("a = two\n", encoding="utf-8")
        self.browser.run("location.reload()")
        self.wait("document.querySelector('.text')?.textContent === 'two'")
        self.assertEqual(self.browser.run("location.hash"), "")

    def test_saving(self):
        root = self.project({"main.ftl": "a = one\n"}, writes=True)
        self.browser.run("document.getElementById('source').focus()")
        self.browser.type("b = x\n")
        self.wait("!document.getElementById('save').disabled")
        self.browser.run("document.getElementById('save').click()")
        self.wait("document.getElementById('save').disabled")
        self.assertEqual((root / "main.ftl").read_text(encoding="utf-8"), "b = x\na = one\n")
        self.assertEqual(self.browser.run("Object.keys(state.others).length"), 0)

    def test_a_long_file(self):
        """Of 2,000 messages those near the caret are shown, and of the lines those that are seen are laid out."""
        source = "".join(f"# Of {n}.\nmessage-{n} = Text {n} {{ $name }} {'long ' * 40}\n\n" for n in range(2_000))
        self.begin(source.replace("{ $name } long", "{ -none } long", 1))
        self.assertEqual(self.texts("u.error"), ["-none"])
        self.assertIn("1800 more messages", self.texts(".nothing")[0])
        self.go_through(source, "message-1500")

    @unittest.skipUnless(os.environ.get("CORPUS"), "CORPUS names no folder of files")
    def test_the_longest_file_of_a_corpus(self):
        source = max((path.read_text(encoding="utf-8") for path in Path(os.environ["CORPUS"]).rglob("*.ftl")), key=len)
        self.begin(source)
        ids = re.findall(r"^([A-Za-z][\w-]*) *=", source, re.M)
        self.go_through(source, ids[len(ids) // 2])
        # A link opens it again.
        self.browser.size(1280, 900)
        self.wait("state.shown === state.asked")
        self.browser.run("keep()")
        fragment = self.browser.run("location.hash")
        self.begin("other = x\n", fragment=fragment)
        self.assertEqual(self.browser.run("$('source').value.length"), len(f"{source}quick".encode("utf-16-le")) // 2)

    def go_through(self, source, id):
        """Goes to a message of a file that the page shows, types there, scrolls, and makes the window small."""
        self.assertTrue(self.browser.run("document.querySelector('.editor').classList.contains('long')"))
        lines = "document.querySelector('.stack pre').children.length"
        self.assertLess(self.browser.run(lines), 100)
        # The page doesn't scroll: each side does.
        self.assertLessEqual(self.browser.run("document.documentElement.scrollHeight"), 900)
        place = re.search(rf"^{id} *=", source, re.M).start()
        self.browser.run(f"select($('source'), {place}, {place})")
        self.wait(f"[...document.querySelectorAll('.stack pre > div')].some((each) => each.textContent.startsWith('{id} '))")
        self.wait(f"document.querySelector('.message.current')?.dataset.id === '{id}'")
        # The line that is seen is where the typed one is: its number in lines, from the top of the field.
        top = "Math.round(document.querySelector('.stack pre').getBoundingClientRect().top - $('source').getBoundingClientRect().top + $('source').scrollTop)"
        number = self.browser.run("Number(document.querySelector('.stack pre').style.counterReset.split(' ')[1])")
        self.assertEqual(self.browser.run(top), number * 23)
        self.assertEqual(self.browser.run("document.querySelector('.stack pre').firstChild.textContent.trimEnd()"), source.split("\n")[number].rstrip())
        for letter in "quick":
            self.browser.type(letter)
        self.wait(f"document.querySelector('.message.current')?.dataset.id === 'quick{id}'")
        self.assertLess(self.browser.run(lines), 100)
        self.browser.run("$('source').scrollTo(300, 0)")
        self.wait(f"document.querySelector('.stack pre').firstChild.textContent.trimEnd() === {json.dumps(source.partition(chr(10))[0].rstrip())}")
        self.assertIn("translate(-300px", self.browser.run("document.querySelector('.stack pre').style.transform"))
        self.browser.size(400, 800)
        self.assertLessEqual(self.browser.run("document.documentElement.scrollWidth"), 400)

    def test_lines_are_indented_in_a_select(self):
        self.begin()
        self.browser.run("document.getElementById('source').focus()")
        self.browser.type("a = { $n ->")
        self.browser.press("Enter")
        self.browser.type("[one] x")
        self.browser.press("Enter")
        self.assertEqual(self.browser.run("$('source').value"), "a = { $n ->\n    [one] x\n    ")

    def test_an_example_after_everything_is_gone(self):
        self.begin()
        self.wait("document.querySelector('.nothing')")
        self.assertEqual(self.texts(".nothing button"), [])
        self.begin(examples=[["A greeting", "hello = Hello, { $name }!\n"], ["Nothing", ""]])
        self.wait("document.querySelector('.nothing button')")
        self.assertEqual(self.texts(".nothing button"), ["A greeting", "Nothing"])
        self.browser.run("document.querySelector('.nothing button').click()")
        self.wait("document.querySelector('.message .text')")
        self.assertEqual(self.browser.run("$('source').value"), "hello = Hello, { $name }!\n")

    def test_a_source_is_downloaded(self):
        self.begin("a = Ą\n")
        self.browser.run("URL.createObjectURL = (blob) => { blob.text().then((text) => (got = text)); return '#'; }; got = ''")
        self.browser.run("$('download').click()")
        self.wait("got === 'a = Ą\\n'")

    def test_what_may_follow_is_offered(self):
        self.begin("-brand = B\nhello = { $name }\n", locale="pl")
        field = "document.getElementById('source')"
        self.browser.run(f"{field}.focus(); {field}.setSelectionRange(99, 99)")
        self.browser.type("bye = { ")
        self.browser.press(" ", control=True)
        self.wait("!$('choices').hidden")
        offered = self.texts("#choices code")
        self.assertEqual([each for each in offered if each in ("hello", "-brand", "NUMBER")], ["hello", "-brand", "NUMBER"])
        # What is typed leaves those that begin with it. The list is at the caret.
        self.browser.type("-b")
        self.wait("[...document.querySelectorAll('#choices code')].map((each) => each.textContent).join() === '-brand'")
        box = self.browser.run("(({ left, top }) => [left, top])($('choices').getBoundingClientRect())")
        caret = self.browser.run(f"(({{ left, bottom }}) => [left, bottom])(paintedAt({field}, 37, 39).getBoundingClientRect())")
        self.assertLess(abs(box[0] - caret[0]) + abs(box[1] - caret[1] - 4), 2)
        self.browser.press("Enter")
        self.wait(f"{field}.value.endsWith('bye = {{ -brand')")
        self.assertTrue(self.browser.run("$('choices').hidden"))
        self.browser.press(" ", control=True)
        self.wait("!$('choices').hidden")
        self.browser.press("Escape")
        self.assertTrue(self.browser.run("$('choices').hidden"))
        # Tab leaves the source if nothing is offered.
        self.browser.press("Tab")
        self.assertNotEqual(self.browser.run(FOCUSED), "source")

    def test_the_pair_of_a_brace(self):
        source = 'a = "{ $n ->\n    [one] { "}" }\n   *[other] { OWN($n, x: "{") }\n}"\nb = }\n'
        self.begin(source)
        # In `{ "}" }` the second brace is a letter, and so is the one in `x: "{"`.
        braces = [number for number, letter in enumerate(source) if letter in "{}"]
        for one, other in ((braces[0], braces[7]), (braces[1], braces[3]), (braces[4], braces[6])):
            self.assertEqual(self.browser.run(f"[paired($('source').value, {one}), paired($('source').value, {other})]"), [[one, other]] * 2)
        self.assertIsNone(self.browser.run(f"paired($('source').value, {source.index('b = }') + 4})"))
        self.browser.run(f"$('source').focus(); $('source').setSelectionRange({braces[0]}, {braces[0]})")
        self.wait("CSS.highlights.get('pair')?.size === 2")
        self.assertEqual(self.browser.run("[...CSS.highlights.get('pair')].map(String)"), ["{", "}"])
        self.browser.run("$('source').setSelectionRange(0, 0)")
        self.wait("!CSS.highlights.get('pair')")

    def test_how_messages_are_written(self):
        self.begin()
        self.browser.run("$('syntax').open = true")
        self.assertIn("-brand = Kozhvadi", self.texts("#syntax dt"))
        self.browser.size(400, 800)
        self.assertLessEqual(self.browser.run("document.documentElement.scrollWidth"), 400)

    def test_tidying(self):
        self.begin("a   =   {$x}\n")
        self.browser.run("document.getElementById('tidy').click()")
        self.wait("document.getElementById('source').value === 'a = { $x }\\n'")
        self.begin("a = {\n")
        self.browser.run("document.getElementById('tidy').click()")
        self.wait("!document.getElementById('problem').hidden")

    def test_by_keyboard_alone(self):
        self.begin("a = { $x } { -b }\n")
        order = []
        for _ in range(15):
            self.browser.press("Tab")
            order.append(self.browser.run(FOCUSED))
        self.assertEqual(
            order[:12],
            ["skip", "locale", "marks", "theme", "share", "tidy", "download", "source", "go", "SUMMARY", "SUMMARY", "name"],
            order,
        )
        self.browser.run(
            "document.getElementById('source').focus(); document.getElementById('source').setSelectionRange(0, 0)"
        )
        self.browser.press("F8")
        self.assertEqual(
            self.browser.run(
                "getSelection().toString() || document.getElementById('source').value.slice(document.getElementById('source').selectionStart, document.getElementById('source').selectionEnd)"
            ),
            "-b",
        )
        # The focus is seen.
        self.browser.run("document.getElementById('locale').focus()")
        self.browser.press("Tab")
        self.assertEqual(self.browser.run("getComputedStyle(document.activeElement).outlineStyle"), "solid")

    def test_the_text_below_is_where_the_typed_one_is(self):
        """Each letter that is coloured is below the one that is typed, in a wide window and a small one."""
        self.begin(POLISH * 3 + ARABIC, ENGLISH, "pl")
        for width in (1280, 700, 400):
            self.browser.size(width, 900)
            self.wait(
                "Math.abs(document.querySelector('#source').scrollHeight - document.querySelector('.stack pre').offsetHeight) <= 1"
            )
            same = (
                "['font', 'lineHeight', 'letterSpacing', 'padding', 'width', 'whiteSpace', 'overflowWrap', 'tabSize']"
            )
            differ = f"{same}.filter((name) => getComputedStyle($('source'))[name] !== getComputedStyle(document.querySelector('.stack pre'))[name])"
            self.assertEqual(self.browser.run(differ), [])
            count = "document.querySelector('.stack pre').children.length - $('source').value.split('\\n').length"
            self.assertEqual(self.browser.run(count), 0)

    def test_lines_that_stay_are_not_painted_anew(self):
        """After whatever edits the text below is that of the typed one, as if all of it were painted."""
        self.begin()
        script = """(() => {
            const field = $("source"), pre = document.querySelector(".stack pre"), wrong = [];
            let chance = 7;
            const random = (below) => (chance = (chance * 1103515245 + 12345) % 2147483648) % below;
            const pieces = ["a = b\\n", "{ ", "}", "$x", "\\n", "# c\\n", "[one]", '"', "-t", "\u00e9"];
            for (let number = 0; number < 300; number += 1) {
                const place = random(field.value.length + 1);
                const findings = random(2) ? [] : [{ start: random(field.value.length + 1), severity: "error" }];
                for (const each of findings) each.end = each.start + random(5);
                field.setRangeText(pieces[random(pieces.length)], place, Math.min(field.value.length, place + random(4)));
                paint(field, findings);
                const shown = pre.innerHTML;
                if (pre.textContent !== `${field.value}\\n`) wrong.push(field.value);
                paint.keys.delete(pre);
                pre.replaceChildren();
                paint(field, findings);
                if (pre.innerHTML !== shown) wrong.push(shown);
            }
            return wrong.slice(0, 2);
        })()"""
        self.assertEqual(self.browser.run(script), [])

    def test_four_hundred_pixels(self):
        self.begin(POLISH, ENGLISH, "pl")
        for width in (400, 320):
            self.browser.size(width, 800)
            self.assertLessEqual(self.browser.run("document.documentElement.scrollWidth"), width)
            wide = "[...document.querySelectorAll('body *')].filter((each) => each.checkVisibility() && !each.matches('.skip') && each.getBoundingClientRect().right > innerWidth + 1).length"
            self.assertEqual(self.browser.run(wide), 0)
        self.browser.size(400, 800)
        self.browser.run("document.getElementById('results').scrollIntoView()")
        self.picture("playground-small.png")

    def test_the_first_text_is_seen_while_one_types_in_a_small_window(self):
        self.begin(POLISH, ENGLISH, "pl")
        self.browser.size(400, 800)
        self.browser.run("scrollTo(0, 0)")
        self.assertLess(self.browser.run("document.querySelector('.text').getBoundingClientRect().bottom"), 800)

    def test_long_names_stay_in_a_small_window(self):
        name = "x" * 70
        self.begin(f"{name} = {{ ${name} }} {{ -{name} }}\n    .{name} = {{ {name}y }}\n-{name}z = T\n")
        for width in (400, 320):
            self.browser.size(width, 800)
            self.assertLessEqual(self.browser.run("document.documentElement.scrollWidth"), width)

    def test_contrast_in_both_themes(self):
        for theme in ("light", "dark"):
            self.browser.theme(theme)
            self.begin(POLISH + "bad = {\n", ENGLISH, "pl")
            self.browser.run("document.getElementById('marks').click()")
            self.wait("document.querySelectorAll('.mark').length")
            seen = self.browser.run(COLOURS)
            self.assertGreater(len(seen), 60)
            for colour, ground, text in seen:
                self.assertGreaterEqual(contrast(hexed(colour), hexed(ground)), 4.5, (theme, text, colour, ground))

    def test_pictures(self):
        self.begin(INBOX_POLISH, INBOX_ENGLISH, "pl")
        self.browser.run(
            "document.getElementById('source').focus(); document.getElementById('source').setSelectionRange(40, 40)"
        )
        self.wait("document.querySelector('.message.current')")
        self.browser.size(1280, 800)
        self.picture("playground.png")
        self.browser.theme("dark")
        self.wait("document.documentElement.dataset.theme === 'dark'")
        self.picture("playground-dark.png")

    def test_without_its_server(self):
        self.begin("a = b\n")
        self.browser.run("fetch = () => Promise.reject(new Error('gone'))")
        self.browser.run("typed(document.getElementById('source'))")
        self.wait("document.getElementById('problem').textContent.includes('gone')")


if __name__ == "__main__":
    unittest.main()
