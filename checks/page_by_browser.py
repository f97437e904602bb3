"""What is clicked and typed in the page, and what it shows then."""
import functools
import re
import tempfile
import time
from pathlib import Path

from devtools import ALT, CONTROL, SHIFT, Browser
from page_by_requests import DATABASE, RUNAWAY, expect
from reading import TOP, run
from served import Served, is_there, numbers, script, soon

STATUS = "document.querySelector('#status').textContent"
READY = "!!document.querySelector('#defined button, #defined .muted')"
FAULTS = "[...document.querySelectorAll('.editor .fault')].map(one => one.textContent)"
# Of each answer that is shown a word: that it is OK, its rows, or what is written.
ANSWERS = """[...document.querySelectorAll('#answers .card')].map(card =>
    card.querySelector('.cause')?.textContent ??
    (card.querySelector('td') ? [...card.querySelectorAll('tbody tr')].map(
        row => [...row.cells].map(cell => cell.textContent).join('|')).join('/')
    : card.querySelector('.good').textContent
        || card.querySelector('.body > pre, .body > p')?.textContent))"""
# What of the page reaches beyond its right edge.
WIDER = """document.documentElement.scrollWidth > innerWidth
    && [...document.querySelectorAll('body *')]
        .filter(one => one.getBoundingClientRect().right > innerWidth + 1)
        .map(one => one.tagName + '.' + one.className).join()"""
SOLUTION = "!!document.querySelector('.exercise details .editor')"
# What has the focus, by its identifier, or else by its tag.
FOCUS = "document.activeElement.id || document.activeElement.tagName"
# What takes the focus and is no control: the document, and the parts to which F6 leads.
NAMELESS = ("RootWebArea", "generic")
# The least contrast of text that WCAG AA allows, and the colours of text and what they stand on.
LEAST = 4.5
TEXTS = ("text muted accent bad good statement type constant word string comment member").split()


@functools.cache
def served():
    return Served(str(DATABASE), "--seconds", "1", "--memory", "256", "--output", "2")


@functools.cache
def browser():
    return Browser()


class Opened:
    """A tab of the browser with the page, which is closed at the end. No error may be logged."""

    def __init__(self, width=1200, height=800, address=None):
        self.page = browser().page(address or served().link, width, height)
        self.page.wait(READY)

    def __enter__(self):
        return self.page

    def __exit__(self, kind, *_):
        faults = self.page.faults()
        self.page.value("savedText = editor.text, null")
        self.page.close()
        if kind is None:
            expect(faults, [], "the browser logs")


def texts(selector):
    """The texts of elements, as an expression."""
    return f"[...document.querySelectorAll({selector!r})].map(one => one.textContent)"


def ran(page, count):
    """Waits until so many statements have been answered."""
    page.wait(f"/^{count} statement/.test({STATUS}) && !database().isBusy")


def write(page, text):
    """Puts a text in place of the script, by typing."""
    page.click("#script textarea")
    page.value("editor.area.select(), null")
    page.type(text)


def run_all(page, text, count):
    write(page, text)
    page.press("Enter", CONTROL | SHIFT)
    ran(page, count)
    return page.value(ANSWERS)


# ---- lessons

def the_first_chapter_is_clicked_through():
    _, wanted = script("tour/01-relations.td")
    with Opened() as page:
        page.click("#to-lessons")
        page.wait("!!document.querySelector('article .runs')")
        expect(page.value("document.querySelectorAll('#chapters button').length"), 10, "chapters:")
        page.click("article .runs")
        ran(page, 10)
        cards = page.value(texts("article .answers > *"))
        expect(len(cards), wanted.count("\n"), "answers:")
        assert "LeedsS1YorkS22 tuples" in cards[0], cards[0]
        assert "0 tuples" in cards[1] and "TRUE" in cards[2], cards[:3]
        assert "REFUSED 6 HEADING" in cards[4] and "line 8, column 49" in cards[4], cards[4]
        assert "TABLE_DEE" in cards[5] and "TABLE_DUM" in cards[6], cards[5:7]
        assert "it's a text" in cards[8].replace("''", "'"), cards[8]
        expect(page.value(FAULTS), ["TUPLE"], "underlined:")
        # The exercise: an answer of one's own, and then the solution.
        page.click(".exercise textarea")
        page.type("WRITE RELATION {TUPLE {A 1}, TUPLE {A 1}} = RELATION {TUPLE {A 1}};")
        page.press("Enter", CONTROL)
        ran(page, 1)
        expect(page.value("document.querySelector('.exercise .answers pre').textContent"), "TRUE")
        assert not page.value(SOLUTION), "the solution is shown unasked"
        page.click(".exercise > details > summary")
        page.wait(SOLUTION)
        page.click(".exercise details .runs")
        ran(page, 3)
        page.value("[...document.querySelectorAll('article > .row button')].at(-1).click()")
        page.wait("document.querySelector('article h2').textContent.startsWith('2.')")


def a_chapters_script_has_a_database_of_its_own():
    # The page's database has an S; that of a lesson begins empty.
    with Opened() as page:
        page.click("#to-lessons")
        page.wait("chapters !== null")
        page.value("showChapter(1)")
        page.click("article .runs")
        ran(page, 8)
        expect(page.value("document.querySelector('article .card .good').textContent"), "OK")
        page.click(".exercise textarea")
        page.type("WRITE COUNT(S);")
        page.press("Enter", CONTROL)
        ran(page, 1)
        expect(page.value("document.querySelector('.exercise .answers pre').textContent"), "4")


# ---- scripts

def a_refusal_is_placed():
    with Opened() as page:
        answers = run_all(page, "WRITE COUNT(S);\nWRITE S WHERE TOWN = 'York';\nWRITE 2;\n", 3)
        expect(answers, ["4", "REFUSED 3 NAME_UNKNOWN", "2"])
        expect(page.value(FAULTS), ["TOWN"], "underlined:")
        expect(page.value("document.querySelector('.refused mark').textContent"), "TOWN")
        page.click(".refused .body button")
        marked = "editor.text.slice(editor.area.selectionStart, editor.area.selectionEnd)"
        expect(page.value(marked), "TOWN", "marked:")
        # A change before it moves the place, and one of it ends the line below.
        page.value("editor.area.setSelectionRange(0, 0)")
        page.type("// first\n")
        expect(page.value(FAULTS), ["TOWN"], "underlined:")
        page.click(".refused .body button")
        expect(page.value(marked), "TOWN", "marked:")
        page.type("CITY")
        expect(page.value(FAULTS), [], "underlined:")
        page.press("Enter", CONTROL)
        ran(page, 1)
        expect(page.value(ANSWERS)[-1], "S2|York|Bray")


def why_is_told_beneath_a_broken_key():
    with Opened() as page:
        text = "INSERT S RELATION {TUPLE {SNO 'S1', SNAME 'Amos', CITY 'Bath'}};"
        run_all(page, text, 1)
        wanted = run("tools/refusals", "--why", str(DATABASE), "-", given=text.encode())[0].decode()
        # Behind the place, the line and the caret.
        told = page.value("document.querySelector('.refused .why')?.textContent ?? ''")
        expect(told.strip(), wanted.split("^\n", 1)[1].strip(), "why:")


def a_runaway_query_is_ended():
    with Opened() as page:
        write(page, numbers(1000) + "\nDELETE SP;\n" + RUNAWAY + "\nWRITE COUNT(SP);\n"
              "WRITE COUNT(N TIMES N RENAME (I AS J) TIMES N RENAME (I AS K));\nWRITE COUNT(N);")
        page.press("Enter", CONTROL | SHIFT)
        ran(page, 6)
        answers = page.value(ANSWERS)
        expect([answers[1], answers[3], answers[5]], ["OK", "0", "1000"])
        assert "which is the limit" in answers[2] and "the limit" in answers[4], answers
        # And one is stopped by a key.
        page.value("answers.clear()")
        write(page, RUNAWAY + "\nWRITE 8;")
        page.value("editor.area.setSelectionRange(0, 0)")
        page.press("Enter", CONTROL)
        page.wait("database().isBusy")
        time.sleep(0.3)
        page.press("Escape")
        page.wait("!database().isBusy")
        assert "stopped" in page.value(ANSWERS)[0], page.value(ANSWERS)


def two_tabs_do_not_see_each_other():
    with Opened() as one, Opened() as other:
        run_all(one, "VAR MINE BASE RELATION {A INTEGER} KEY {A}; DELETE S;", 2)
        expect(run_all(other, "WRITE MINE; WRITE COUNT(S);", 2), ["REFUSED 3 NAME_UNKNOWN", "4"])
        one.wait("/MINE/.test(document.querySelector('#defined').textContent)")
        expect(other.value("/MINE/.test(document.querySelector('#defined').textContent)"), False)


def keys_run_parts_of_a_script():
    text = "DELETE SP;\nWRITE COUNT(SP);\nWRITE COUNT(S);"
    with Opened() as page:
        write(page, text)
        page.value("editor.area.setSelectionRange(15, 15)")
        page.press("Enter", CONTROL)
        ran(page, 1)
        expect(page.value(ANSWERS), ["5"])
        page.press("Enter", ALT)
        ran(page, 2)
        expect(page.value(ANSWERS), ["OK", "0"])
        page.value("editor.area.setSelectionRange(28, 43)")
        page.press("Enter", CONTROL)
        ran(page, 1)
        expect(page.value(ANSWERS), ["OK", "0", "4"])
        # Back to before the DELETE.
        page.click("#answers .card button.small")
        page.wait(f"/as it was before/.test({STATUS}) && !document.querySelector('#answers .card')")
        page.value("editor.area.setSelectionRange(15, 15)")
        page.click("#run-marked")
        ran(page, 1)
        expect(page.value(ANSWERS), ["5"])


def what_is_written_is_never_html():
    with Opened() as page:
        text = "'<img src=x onerror=window.broken=1><b>'"
        relation = f"RELATION {{TUPLE {{A {text}}}}}"
        answers = run_all(page, f"WRITE {text};\nWRITE {relation};\nWRITE {text} + 1;", 3)
        expect(answers[0], text)
        expect(answers[1], text[1:-1])
        expect(page.value("document.querySelectorAll('main img, main b').length"), 0)
        expect(page.value("window.broken === undefined"), True)


def keys_of_relvars_stand_first():
    with Opened() as page:
        grouped = "SP GROUP ({ALL BUT PNO} AS T) WHERE PNO = 'P1'"
        answers = run_all(page, f"WRITE SP;\nWRITE {grouped};", 2)
        expect(answers[0], "P1|S1|200/P2|S1|300/P2|S2|300/P2|S3|100/P3|S1|40")
        heads = page.value(texts("#answers thead th"))[:3]
        expect(heads, ["PNOkeyCHAR", "SNOkeyCHAR", "QTYINTEGER"])
        expect(page.value("document.querySelectorAll('#answers td table tbody tr').length"), 1)
        # The head of a column sorts: numbers as numbers.
        page.click("#answers th:nth-child(3) button")
        rows = texts("#answers .card:first-child tbody td:nth-child(3)")
        expect(page.value(rows), ["40", "100", "200", "300", "300"])
        page.click("#answers th:nth-child(3) button")
        expect(page.value(rows)[0], "300")
        order = "document.querySelectorAll('#answers th')[2].getAttribute('aria-sort')"
        expect(page.value(order), "descending")


def ten_thousand_tuples_are_scrolled_through():
    with Opened() as page:
        page.value(f"take({numbers(10_000)!r} + '\\nWRITE N;'), null")
        page.click("#run-all")
        ran(page, 2)
        shown = "document.querySelectorAll('.scroll.long tbody tr').length"
        assert page.value(shown) < 300, page.value(shown)
        page.value("document.querySelector('.scroll.long').scrollTop = 1e9, null")
        last = "[...document.querySelectorAll('.scroll.long td.number')].at(-1)?.innerText"
        page.wait(f"{last} === '9999'")
        for _ in range(2):
            page.value("document.querySelector('.scroll.long th button').click()")
        page.value("document.querySelector('.scroll.long').scrollTop = 0, null")
        page.wait("document.querySelector('.scroll.long td.number').innerText === '9999'")
        assert page.value(shown) < 300, page.value(shown)


def a_querys_steps_are_a_tree():
    with Opened() as page:
        run_all(page, "WRITE (S JOIN SP WHERE QTY > 250) {SNAME};", 1)
        page.click("#answers summary")
        page.wait("!!document.querySelector('#answers .step')")
        steps = page.value(texts(".step > pre"))
        expect(steps[0], "S JOIN SP WHERE QTY > 250")
        assert "S JOIN SP" in steps, steps


# ---- the page

def definitions_are_listed_and_shown():
    with Opened() as page:
        run_all(page, "VAR LEEDS VIRTUAL (S WHERE CITY = 'Leeds');\n"
                "TYPE GRAMS POSSREP {N INTEGER};\nCONSTRAINT C SP {SNO} <= S {SNO};", 3)
        page.wait("/GRAMS/.test(document.querySelector('#defined').textContent)")
        wanted = "Relvars S 4 tuples P 3 tuples SP 5 tuples Virtual relvars LEEDS Types GRAMS"
        listed = page.value("document.querySelector('#defined').innerText")
        expect(listed.split(), [*wanted.split(), "Constraints", "C"])
        page.click("#defined li button")
        page.wait("document.querySelector('dialog').open")
        told = page.value("document.querySelector('dialog').innerText")
        for word in ("base relvar S", "{SNO}", "virtual relvar LEEDS", "constraint C", "4 tuples"):
            assert word in told, f"{word} is not in {told}"
        page.press("Escape")
        page.click("#diagram")
        page.wait("document.querySelector('dialog img')?.naturalWidth > 0")


def led_by_tab(page):
    """What takes the focus, one after the other, when Tab is pressed, up to the editor."""
    seen = []
    while len(seen) < 14 and seen[-1:] != ["TEXTAREA"]:
        page.press("Tab")
        seen.append(page.value(FOCUS))
    return seen


def f6_leads_to(page, wanted):
    page.press("F6")
    expect(page.value(FOCUS), wanted, "F6 leads to")


def the_keyboard_alone_suffices():
    with Opened() as page:
        page.value("document.activeElement.blur()")
        seen = led_by_tab(page)
        expect(seen[:2], ["to-script", "to-lessons"], "the order of Tab:")
        expect(seen[-1], "TEXTAREA", "Tab leads to")
        page.type("WRITE 1;")
        page.press("Enter", CONTROL | SHIFT)
        ran(page, 1)
        for _ in range(3):
            page.type("x")
        page.press("z", CONTROL)
        assert len(page.value("editor.text")) < 11, "what is typed is not undone"
        page.press("Tab")
        assert page.value(FOCUS) != "TEXTAREA", "Tab does not leave the editor"
        page.click("#script textarea")
        f6_leads_to(page, "answers-pane")
        f6_leads_to(page, "database")
        f6_leads_to(page, "TEXTAREA")


def a_script_is_saved_opened_and_linked():
    text = "// \u00e9\U0001d4b3\nWRITE COUNT(S);"
    with tempfile.TemporaryDirectory() as folder, Opened() as page:
        write(page, text)
        browser().ask("Browser.setDownloadBehavior", behavior="allow", downloadPath=folder)
        page.click("#save")
        saved = Path(folder, "script.td")
        assert soon(saved.exists), "nothing is saved"
        expect(saved.read_text(encoding="utf-8"), text, "saved is")
        link = page.value("packed(editor.text).then(one => location.href + '#script=' + one)")
        with Opened(address=link) as other:
            other.wait("editor.text !== ''")
            expect(other.value("editor.text"), text, "the link opens")
            expect(other.value("location.hash"), "", "the address keeps")
        other = Path(folder, "other.td")
        other.write_text("\ufeffWRITE 3;\r\n", encoding="utf-8")
        root = page.ask("DOM.getDocument")["root"]["nodeId"]
        field = page.ask("DOM.querySelector", nodeId=root, selector="#file")["nodeId"]
        page.ask("DOM.setFileInputFiles", nodeId=field, files=[str(other)])
        page.wait("editor.text === 'WRITE 3;\\n'")
        page.value("savedText = editor.text")
        page.reload()
        page.wait(f"document.readyState === 'complete' && {READY}")
        expect(page.value("editor.text"), "WRITE 3;\n", "behind a reload there is")


def a_closed_tab_ends_its_td():
    before = served().runs()
    with Opened() as page:
        run_all(page, "WRITE 1;", 1)
        assert soon(lambda: len(served().runs() - before) == 2), "a tab has not two runs of td"
        own = served().runs() - before
    assert soon(lambda: not any(map(is_there, own))), "td goes on when its tab is closed"


def fits_each_window(page, view):
    for width, height in ((1200, 800), (900, 700), (400, 800), (320, 256)):
        page.size(width, height)
        expect(page.value(WIDER), False, f"{view} at {width}:")


def nothing_is_wider_than_the_window():
    with Opened() as page:
        run_all(page, "WRITE S;\nWRITE S WHERE TOWN = 'York';\nWRITE SP GROUP ({SNO} AS T);", 3)
        for view in ("script", "lessons"):
            page.click(f"#to-{view}")
            page.wait(f"view === 'script' || !!document.querySelector('article')")
            fits_each_window(page, view)


def each_has_a_name(nodes):
    for node in nodes:
        known = {one["name"]: one["value"] for one in node.get("properties", [])}
        role = node["role"]["value"]
        if known.get("focusable", {}).get("value") and role not in NAMELESS:
            assert node.get("name", {}).get("value"), node


def all_that_takes_the_focus_has_a_name():
    with Opened() as page:
        run_all(page, "WRITE S;\nWRITE S WHERE TOWN = 'York';", 2)
        for view in ("script", "lessons"):
            page.click(f"#to-{view}")
            page.wait("view === 'script' || !!document.querySelector('article')")
            each_has_a_name(page.ask("Accessibility.getFullAXTree")["nodes"])


def luminance(colour):
    parts = [int(colour[at : at + 2], 16) / 255 for at in (1, 3, 5)]
    linear = [one / 12.92 if one <= 0.04045 else ((one + 0.055) / 1.055) ** 2.4 for one in parts]
    return sum(share * one for share, one in zip((0.2126, 0.7152, 0.0722), linear))


def contrast(one, other):
    high, low = sorted((luminance(one), luminance(other)), reverse=True)
    return (high + 0.05) / (low + 0.05)


def texts_can_be_read(name, colours):
    pairs = [(one, ground) for one in TEXTS for ground in ("ground", "raised", "bad-ground")]
    for one, ground in [*pairs, ("on-accent", "accent"), ("on-mark", "mark")]:
        told = contrast(colours[one], colours[ground])
        assert told >= LEAST, f"{name}: {one} on {ground} has a contrast of {told:.2f}"


def colours_can_be_told_apart():
    text = (TOP / "tools" / "td_tools" / "page.html").read_text(encoding="utf-8")
    found = re.findall(r":root \{(.*?)\}", text, re.DOTALL)
    themes = [dict(re.findall(r"--([\w-]+): (#[0-9a-f]{6})", one)) for one in found]
    expect(len(themes), 2, "themes:")
    for name, colours in zip(("light", "dark"), themes):
        texts_can_be_read(name, colours)
        assert contrast(colours["edge"], colours["ground"]) >= 3, f"{name}: edge"


def what_was_begun_is_ended():
    browser().leave()
    expect(served().end(), 0, "the page's status:")


CHECKS = [
    the_first_chapter_is_clicked_through, a_chapters_script_has_a_database_of_its_own,
    a_refusal_is_placed, why_is_told_beneath_a_broken_key, a_runaway_query_is_ended,
    two_tabs_do_not_see_each_other, keys_run_parts_of_a_script, what_is_written_is_never_html,
    keys_of_relvars_stand_first, ten_thousand_tuples_are_scrolled_through,
    a_querys_steps_are_a_tree, definitions_are_listed_and_shown, the_keyboard_alone_suffices,
    a_script_is_saved_opened_and_linked, a_closed_tab_ends_its_td,
    nothing_is_wider_than_the_window, all_that_takes_the_focus_has_a_name,
    colours_can_be_told_apart, what_was_begun_is_ended,
]
