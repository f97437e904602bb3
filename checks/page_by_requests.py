"""What tools/page answers to requests, and to which it gives no answer."""
import functools
import re
import socket
import threading
import time
from pathlib import Path

from reading import TOP, run
from td_tools.page_tabs import Tabs
from served import Served, bare, exchanged, is_there, numbers, script, soon

DATABASE = TOP / "examples" / "tour" / "00-database.td"
SECONDS, MEMORY, OUTPUT = 1, 128, 1
RUNAWAY = (
    "WRITE COUNT(N WHERE 3 < COUNT(N RENAME (I AS J) WHERE I * J > "
    "COUNT(N RENAME (I AS K) WHERE I * J * K > 5)));"
)
HUGE = "WRITE COUNT(N TIMES N RENAME (I AS J) TIMES N RENAME (I AS K));"
LONG = "WRITE N TIMES (N WHERE I < 80) RENAME (I AS J);"
OK = "OK\n"


@functools.cache
def page():
    """The page of all checks but those of how it starts and ends."""
    return Served(
        str(DATABASE), "--seconds", str(SECONDS), "--memory", str(MEMORY), "--output", str(OUTPUT)
    )


def expect(given, wanted, what=""):
    assert given == wanted, f"{what} {given!r} in place of {wanted!r}".strip()


def expect_of_each(status, ask, every):
    """What is asked of each of these is answered with the status."""
    for one in every:
        expect(ask(one)[0], status, one)


# ---- whose request it is

def the_secret_is_asked_for():
    secret = page().secret
    for path in ("/", "/x/", f"/{secret}", f"/{secret[:-1]}/", f"/{secret}x/", "//"):
        status, told = page().asked(path)
        expect(status, 403, path)
        assert b"<" not in told.partition(b"\r\n\r\n")[2], "a page is shown without the secret"
    expect(page().asked("/wrong/begin", {})[0], 403)
    expect(page().asked("/begin", {})[0], 403)
    expect(page().asked(f"/{page().secret}/")[0], 200)


def only_names_of_this_machine_are_answered():
    home = f"/{page().secret}/"
    own = f"127.0.0.1:{page().port}"
    for host in ("evil.example", f"evil.example:{page().port}", "127.0.0.1", "localhost:1", "",
                 None, f"{own}.evil.example", f"{own}@evil.example"):
        expect(page().asked(home, Host=host)[0], 403, f"Host {host}")
        expect(page().asked(home + "begin", {}, Host=host)[0], 403, f"Host {host}")
    twice = f"GET {home} HTTP/1.1\r\nHost: 127.0.0.1:{page().port}\r\nHost: evil\r\n\r\n"
    expect(page().raw(twice.encode())[0], 403, "two hosts")
    expect(page().asked(home, Host=f"localhost:{page().port}")[0], 200)


def no_other_page_is_answered():
    home = f"/{page().secret}/"
    own = f"127.0.0.1:{page().port}"
    for origin in ("http://evil.example", "null", f"https://{own}", "http://127.0.0.1:1",
                   f"http://{own}.evil.example", ""):
        expect(page().asked(home + "begin", {}, Origin=origin)[0], 403, f"Origin {origin}")
        expect(page().asked(home, Origin=origin)[0], 403, f"Origin {origin}")
    expect_of_each(403, lambda site: page().asked(home + "begin", {}, Sec_Fetch_Site=site),
                   ("cross-site", "same-site"))
    own = {"Origin": f"http://{own}", "Sec_Fetch_Site": "same-origin"}
    expect(page().asked(home + "listed", {"tab": "x"}, **own)[0], 410)


def what_is_too_long_is_refused():
    home = f"/{page().secret}/"
    body = b'{"tab": "' + b"x" * (1 << 20) + b'"}'
    expect(page().asked(home + "begin", body)[0], 413)
    expect(page().asked(home + "begin", b"{}", Content_Length="999999999999")[0], 411)
    expect(page().asked(home + "begin", b"{}", Content_Length="-1")[0], 411)
    expect(page().asked(home + "begin", b"{}", Content_Length=None)[0], 411)
    expect(page().asked(home + "x" * 1000)[0], 414)
    expect(page().asked("/" + "x" * 70_000)[0], 414)
    expect(page().asked(home, X="x" * 70_000)[0], 431)
    many = b"GET " + home.encode() + b" HTTP/1.1\r\n" + b"X: y\r\n" * 200 + b"\r\n"
    expect(page().raw(many)[0], 431)


def what_is_not_there_is_refused():
    home = f"/{page().secret}/"
    inner = ("../", "../../etc/passwd", "..%2f..%2fetc/passwd", "page.html", "tools/page",
             "begin", "?x", "/", "\\..\\", "//etc/passwd")
    expect_of_each(404, lambda path: page().asked(home + path), inner)
    outer = ("/../", "/../../etc/passwd", "/etc/passwd", "http://evil.example/")
    expect_of_each(403, page().asked, outer)
    names = ("nothing", "", "../begin", "begin/", "__init__", "answers")
    expect_of_each(404, lambda name: page().asked(home + name, {}), names)


def what_is_no_question_is_refused():
    home = f"/{page().secret}/"
    for body in (b"", b"[]", b"{", b"\xff", b"[" * 100_000, b'{"a": NaN'):
        expect(page().asked(home + "begin", body)[0], 400, body[:20])
    expect(page().asked(home + "begin", {}, Content_Type="text/plain")[0], 415)
    form = "application/x-www-form-urlencoded"
    expect(page().asked(home + "begin", {}, Content_Type=form)[0], 415)
    tabs = ({}, {"tab": 1}, {"tab": None}, {"tab": []})
    expect_of_each(400, lambda fields: page().posted("run", **fields), tabs)
    tab = page().tab()
    scripts = ({}, {"script": 1}, {"script": None}, {"script": "", "at": "1"},
               {"script": "", "anew": 1})
    expect_of_each(400, lambda fields: page().posted("run", tab=tab, **fields), scripts)
    methods = ("PUT", "DELETE", "OPTIONS", "HEAD", "CONNECT")
    expect_of_each(501, lambda method: page().asked(home, method=method), methods)
    nonsense_is_refused()
    expect(page().posted("run", tab="no tab", script="WRITE 1;")[0], 410)


def nonsense_is_refused():
    for data in (b"\r\n\r\n", b"nonsense\r\n\r\n", b"GET\r\n\r\n", b"\x16\x03\x01\x02\r\n\r\n"):
        assert page().raw(data)[0] in (0, 400), data


def a_browser_is_told_what_it_may_do():
    head = page().asked(f"/{page().secret}/")[1].partition(b"\r\n\r\n")[0].decode()
    for line in ("X-Content-Type-Options: nosniff", "Referrer-Policy: no-referrer",
                 "Cache-Control: no-store", "X-Frame-Options: DENY",
                 "Content-Security-Policy: default-src 'none'"):
        assert line in head, f"{line} is missing"
    policy = re.search("Content-Security-Policy: (.*)", head).group(1)
    assert "frame-ancestors 'none'" in policy, policy
    assert "unsafe" not in policy and "*" not in policy, policy
    assert "Python" not in head, "the version of Python is told"


def a_fault_of_the_page_is_told():
    front = "def lines():\n    yield {'number': 1}\n    raise ValueError('broken')\n"
    answers = "{'one': lambda asked: asked['x'], 'lines': lambda asked: lines()}"
    with bare(front, answers) as (process, port, secret, _):
        told = []
        for name in ("one", "lines"):
            head = f"POST /{secret}/{name} HTTP/1.1\r\nHost: 127.0.0.1:{port}\r\n"
            head += "Content-Type: application/json\r\nContent-Length: 2\r\n\r\n{}"
            told.append(exchanged(port, head))
        process.kill()
        said = process.stderr.read()
    assert " 500 " in told[0] and "the page failed: KeyError" in told[0], told[0]
    assert " 200 " in told[1] and told[1].endswith("ValueError('broken')\"}\n"), told[1]
    assert said.count("\n") == 2 and "Traceback" not in said, said


def nobody_beyond_this_machine_is_answered():
    listening = "".join(Path(f"/proc/net/{kind}").read_text("ascii") for kind in ("tcp", "tcp6"))
    places = re.findall(rf"\d: ([0-9A-F]+):{page().port:04X} 0+:0000 0A", listening)
    expect(places, ["0100007F"], "it listens at")
    own = socket.gethostbyname_ex(socket.gethostname())[2]
    for address in [one for one in own if not one.startswith("127.")]:
        try:
            socket.create_connection((address, page().port), 2).close()
        except OSError:
            continue
        raise AssertionError(f"{address} answers")


# ---- what td answers

def statements_are_answered():
    tab = page().tab()
    expect(page().answers(tab, "WRITE 1 + 1; WRITE COUNT(S);"), ["2\n", "4\n"])
    # What a `;` is in, and what is not whole.
    every = page().run(tab, "WRITE 'a;b'; /* ; */ WRITE 2; // end\n WRITE 3")
    expect([one["answer"] for one in every], ["'a;b'\n", "2\n", "REFUSED 2 SYNTAX\n"])
    expect([(one["begins"], one["ends"]) for one in every], [(0, 12), (21, 29), (38, 45)])
    expect(page().answers(tab, "WRITE 'open;"), ["REFUSED 1 SCAN\n"])
    expect(page().answers(tab, " // nothing\n"), [])
    expect(page().answers(tab, "\ufeffWRITE 1;\r\nWRITE 'a\r\nb';\r\n"), ["1\n", "'a\r\nb'\n"])
    expect(page().answers(tab, "WRITE '\ud800';"), ["'\ufffd'\n"])


def places_are_those_of_a_page():
    # A character beyond 16 bits takes two places there.
    text = "/* \U0001d4b3 */ WRITE '\U0001d4b3\u00e9' || S2;"
    (one,) = page().run(page().tab(), text)
    units = text.encode("utf-16-le")
    begins, ends = one["fault"]
    expect(units[2 * begins : 2 * ends].decode("utf-16-le"), "S2", "the fault is at")
    statement = units[2 * one["begins"] : 2 * one["ends"]].decode("utf-16-le")
    expect(statement, text[8:], "the statement is")


def refusals_are_placed_and_explained():
    tab = page().tab()
    (one,) = page().run(tab, "\n\nWRITE S WHERE TOWN = 'York';")
    expect((one["refused"], one["answer"]), (True, "REFUSED 3 NAME_UNKNOWN\n"))
    expect(one["fault"], [16, 20])
    assert "TOWN" in one["says"], one["says"]
    (one,) = page().run(tab, "WRITE S WHERE;")
    expect(one["fault"], [13, 14])
    (one,) = page().run(tab, "INSERT S RELATION {TUPLE {SNO 'S1', SNAME 'Ames', CITY 'Bath'}};")
    expect(one["answer"], "REFUSED 30 KEY S\n")
    wanted = run("tools/refusals", "--why", str(DATABASE), "-", given=b"INSERT S RELATION "
                 b"{TUPLE {SNO 'S1', SNAME 'Ames', CITY 'Bath'}};")[0].decode().split("^\n", 1)[-1]
    expect(one["why"], wanted, "why:")


def keys_are_told_of_a_relvars_tuples():
    tab = page().tab()
    def keys(text):
        return page().run(tab, text)[-1].get("keys")
    expect(keys("WRITE SP;"), [["PNO", "SNO"]])
    expect(keys("WRITE SP WHERE QTY > 100;"), [["PNO", "SNO"]])
    expect(keys("WRITE SP {SNO};"), None)
    expect(keys("WRITE (SP) JOIN S;"), None)
    expect(keys("VAR V VIRTUAL (S {SNO, CITY}) KEY {SNO}; WRITE V;"), [["SNO"]])
    anew = "DROP VAR V; VAR V VIRTUAL (S {SNO, CITY}) KEY {CITY, SNO}; WRITE V;"
    expect(keys(anew), [["CITY", "SNO"]])
    expect(keys("BEGIN TRANSACTION; DROP VAR V; VAR V VIRTUAL (S) KEY {SNO}; WRITE V;"), [["SNO"]])
    expect(keys("ROLLBACK; WRITE V;"), [["CITY", "SNO"]])


def the_tours_scripts_are_answered_as_by_td():
    chapters = page().told("lessons")["chapters"]
    expect(len(chapters), 10, "chapters:")
    tour = (TOP / "docs" / "tour.md").read_text(encoding="utf-8").split("\n## 1. ", 1)[1]
    names = re.findall(r"examples/(tour/\S+\.td)(?: -->|\))", tour)
    shown = [one["script"] for chapter in chapters for one in chapter["blocks"] if one["script"]]
    expect(len(shown), len(names), "scripts:")
    tab = page().tab(empty=True)
    for name, given in zip(names, shown):
        text, wanted = script(name)
        expect(given.strip(), text.strip(), name)
        expect("".join(page().answers(tab, given, anew=True)), wanted, name)


def tabs_do_not_see_each_other():
    one, other = page().tab(), page().tab()
    expect(page().answers(one, "VAR MINE BASE RELATION {A INTEGER} KEY {A}; DELETE SP;"), [OK, OK])
    unknown = "REFUSED 3 NAME_UNKNOWN\n"
    expect(page().answers(other, "WRITE MINE; WRITE COUNT(SP);"), [unknown, "5\n"])
    names = [one["name"] for one in page().told("listed", tab=other)["definitions"]]
    expect(names, ["S", "P", "SP"])
    expect(page().answers(page().tab(empty=True), "WRITE S;"), [unknown])


def a_part_of_a_script_is_run():
    text = ("VAR R BASE RELATION {A INTEGER} KEY {A};\nINSERT R RELATION {TUPLE {A 1}};\n"
            "WRITE COUNT(R);")
    tab = page().tab()
    expect(len(page().run(tab, text, anew=True, at=45)), 2, "statements up to a place:")
    expect(page().answers(tab, text, at=80, alone=True), ["1\n"])
    expect(page().answers(tab, text, anew=True), [OK, OK, "1\n"])
    expect(page().answers(tab, text), ["REFUSED 4 NAME_TAKEN\n", OK, "1\n"])
    expect(page().answers(tab, "WRITE COUNT(R);", anew=True, before=text), ["1\n"])
    expect(page().answers(tab, text, at=0, alone=True), ["REFUSED 4 NAME_TAKEN\n"])
    expect(page().answers(tab, text, at=10_000, alone=True), ["1\n"])


def the_database_goes_back():
    tab = page().tab()
    every = page().run(tab, "DELETE SP; BEGIN TRANSACTION; DELETE S; WRITE COUNT(S); COMMIT;")
    page().told("back", tab=tab, number=every[2]["number"])
    expect(page().answers(tab, "WRITE COUNT(S); ROLLBACK; WRITE COUNT(SP);"), ["4\n", OK, "0\n"])
    page().told("back", tab=tab, number=every[0]["number"])
    expect(page().answers(tab, "WRITE COUNT(SP); COMMIT;"), ["5\n", "REFUSED 11 TRANSACTION\n"])


def definitions_are_shown():
    tab = page().tab()
    page().run(tab, "VAR LEEDS VIRTUAL (S WHERE CITY = 'Leeds'); CONSTRAINT C SP {SNO} <= S {SNO};"
               "TYPE GRAMS POSSREP {N INTEGER};")
    listed = page().told("listed", tab=tab)["definitions"]
    expect([(one["kind"], one["name"], one["count"]) for one in listed],
           [("type", "GRAMS", ""), ("base relvar", "S", "4"), ("base relvar", "P", "3"),
            ("base relvar", "SP", "5"), ("virtual relvar", "LEEDS", ""), ("constraint", "C", "")])
    shown = page().told("shown", tab=tab, kind="base relvar", name="S")
    expect([one["name"] for one in shown["mentioned"]], ["LEEDS", "C"])
    expect((shown["keys"], shown["heading"][0]), ([["SNO"]], ["CITY", "CHAR"]))
    expect(shown["answer"], page().answers(tab, "WRITE S;")[0])
    expect(page().told("shown", tab=tab, kind="constraint", name="C")["statement"],
           "CONSTRAINT C SP { SNO } <= S { SNO };")
    expect(page().posted("shown", tab=tab, kind="type", name="S")[0], 410)
    expect(page().told("dump", tab=tab)["dump"], page().answers(tab, "DUMP;")[0])
    assert page().told("diagram", tab=tab)["diagram"].startswith("<svg"), "the diagram is no SVG"


def a_querys_steps_are_of_its_own_database():
    tab = page().tab()
    text = "WRITE (S WHERE CITY = 'Leeds') {SNAME};"
    number = page().run(tab, text)[0]["number"]
    page().run(tab, "DELETE S;")
    (step,) = page().told("steps", tab=tab, number=number, statement=text)["steps"]
    expect(step["text"], "(S WHERE CITY = 'Leeds') {SNAME}")
    assert "'Ames'" in step["answer"] and step["parts"], step
    expect(page().answers(tab, "WRITE COUNT(S);"), ["0\n"])


# ---- limits

def goes_on_behind(statement, told):
    """That a statement is ended, with these words, and that the next ones have the database."""
    tab = page().tab()
    front = numbers(1000) + "BEGIN TRANSACTION; DELETE SP;"
    expect(page().answers(tab, front), [OK] * 3)
    behind = "WRITE COUNT(N); WRITE COUNT(SP); ROLLBACK; WRITE COUNT(SP);"
    every = page().run(tab, statement + behind)
    assert told in every[0].get("ended", ""), f"{every[0]} in place of {told!r}"
    expect([one["answer"] for one in every[1:]], ["1000\n", "0\n", OK, "5\n"])


def a_runaway_query_is_ended():
    goes_on_behind(RUNAWAY, f"{SECONDS} seconds of processor time, which is the limit")


def too_much_memory_is_refused():
    goes_on_behind(HUGE, f"more than {MEMORY} MiB of memory, the limit")


def too_long_an_answer_is_cut():
    goes_on_behind(LONG, f"longer than {OUTPUT} MiB, the limit of output")


def seconds_are_of_each_statement():
    # Together the statements take longer than one of them may.
    tab = page().tab()
    page().run(tab, numbers(1000))
    one = "WRITE COUNT(N TIMES N RENAME (I AS J) WHERE I * J > 3);"
    began = time.monotonic()
    every = [page().answers(tab, one)[0] for _ in range(4)]
    while time.monotonic() - began < 3 * SECONDS:
        every += page().answers(tab, one)
    assert len(set(every)) == 1 and every[0].strip().isdigit(), set(every)


def a_statement_is_stopped():
    tab = page().tab()
    page().run(tab, numbers(1000))
    told = []
    running = threading.Thread(target=lambda: told.extend(page().run(tab, RUNAWAY + "WRITE 7;")))
    running.start()
    time.sleep(0.2)
    began = time.monotonic()
    page().told("stop", tab=tab)
    running.join()
    assert told[0].get("ended", "").startswith("stopped"), told
    expect(len(told), 1, "statements behind the one that is stopped:")
    expect(page().answers(tab, "WRITE COUNT(N);"), ["1000\n"])
    assert time.monotonic() - began < 30, "it takes too long to go on"


# ---- tabs and their ends

def a_tabs_run_of_td_ends_with_it():
    with Served("--seconds", "600") as own:
        tab = own.tab()
        own.run(tab, numbers(1000))
        runs = own.runs()
        expect(len(runs), 2, "runs of td of a tab:")
        threading.Thread(target=lambda: own.posted("run", tab=tab, script=RUNAWAY)).start()
        time.sleep(0.3)
        own.told("end", tab=tab)
        assert soon(lambda: not any(map(is_there, runs))), "td goes on when its tab has ended"
        expect(own.posted("run", tab=tab, script="WRITE 1;")[0], 410)


def there_are_at_most_32_tabs():
    with Served() as own:
        tabs = [own.tab() for _ in range(32)]
        status, told = own.posted("begin")
        expect(status, 503)
        assert "32 tabs are open" in told, told
        own.told("end", tab=tabs[0])
        own.tab()
        runs = own.runs()
        expect(len(runs), 64, "runs of td:")
        expect(own.end(), 0, "its status:")
        assert soon(lambda: not any(map(is_there, runs))), "td goes on when the page has ended"


def an_idle_tab_goes_on_where_it_was():
    tabs = Tabs(b"", idle=60)
    word = tabs.open()
    tab = tabs.tab(word)
    for _ in tab.run(numbers(10) + "BEGIN TRANSACTION; DELETE N;", is_anew=False):
        pass
    tabs.rest()
    assert tab.runs is not None, "a tab that is not idle rests"
    tab.asked_at -= 61
    tabs.rest()
    assert tab.runs is None, "the td of an idle tab is not ended"
    (told,) = tabs.tab(word).run("ROLLBACK; WRITE COUNT(N);", is_anew=False, at=20, is_alone=True)
    expect(told["answer"], "0\n")
    tabs.close_all()


def the_browsers_link_leads_once():
    with bare() as (_, port, secret, once):
        asked = f"GET /{once} HTTP/1.1\r\nHost: 127.0.0.1:{port}\r\n\r\n"
        first, second = exchanged(port, asked), exchanged(port, asked)
    assert " 303 " in first and f"Location: /{secret}/\n" in first, first
    assert " 403 " in second and secret not in second, second


def the_command_line_is_told():
    for words, status in ((["--nope"], 2), (["--port", "x"], 2), (["--seconds", "0"], 2),
                          (["a", "b"], 2), (["missing.td"], 3), (["--port", str(page().port)], 3)):
        told = run("tools/page", "--no-browser", *words)
        expect(told[1], status, words)
        expect(told[2].count(b"\n"), 1, f"lines on standard error for {words}:")
    shown = run("tools/page", "--help")
    assert shown[1] == 0 and b"tools/page db.td" in shown[0], "--help has no example"


def a_database_that_is_refused_in_part_is_told():
    with Served(str(TOP / "examples" / "tools" / "refused.td")) as own:
        assert "refused.td:3:1: REFUSED 30 KEY S" in own.said(), own.said()
        expect(own.answers(own.tab(), "WRITE COUNT(S);"), ["1\n"])


def nothing_is_said_of_requests():
    said = [line for line in page().said().splitlines() if "is not built" not in line]
    expect(said, [], "on standard error:")
    expect(page().end(), 0, "its status:")


CHECKS = [
    the_secret_is_asked_for, only_names_of_this_machine_are_answered, no_other_page_is_answered,
    what_is_too_long_is_refused, what_is_not_there_is_refused, what_is_no_question_is_refused,
    a_browser_is_told_what_it_may_do, a_fault_of_the_page_is_told,
    nobody_beyond_this_machine_is_answered,
    statements_are_answered, places_are_those_of_a_page, refusals_are_placed_and_explained,
    keys_are_told_of_a_relvars_tuples, the_tours_scripts_are_answered_as_by_td,
    tabs_do_not_see_each_other, a_part_of_a_script_is_run, the_database_goes_back,
    definitions_are_shown, a_querys_steps_are_of_its_own_database, a_runaway_query_is_ended,
    too_much_memory_is_refused, too_long_an_answer_is_cut, seconds_are_of_each_statement,
    a_statement_is_stopped, a_tabs_run_of_td_ends_with_it, there_are_at_most_32_tabs,
    an_idle_tab_goes_on_where_it_was, the_browsers_link_leads_once, the_command_line_is_told,
    a_database_that_is_refused_in_part_is_told, nothing_is_said_of_requests,
]
