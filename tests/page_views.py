"""What the page shows and does, as a user presses and types."""

import functools
import http.server
import json
import pathlib
import re
import threading
import time
import urllib.parse

from browser import BrowserError

WIDE = (1440, 900)
NARROW = (390, 844)
VIEWS = ["run", "outcomes", "why", "chart", "step", "language", "about"]
# The page answers its first example within so many milliseconds of its loading.
SOON = 1000
# The page has at most so many bytes.
LARGEST = 800_000
# Nothing that an earlier page kept is there.
FRESH = "try { localStorage.clear(); sessionStorage.clear(); } catch {}\n"
# The browser lets a page have no store.
NO_STORES = """
for (const name of ["localStorage", "sessionStorage"]) {
  Object.defineProperty(window, name, { get() { throw new DOMException("refused", "SecurityError"); } });
}
"""
# Notes when the first answer is there.
NOTE_ANSWER = """
const noting = setInterval(() => {
  if (!document.getElementById("answer")?.hasChildNodes()) return;
  window.answered = performance.now();
  clearInterval(noting);
}, 2);
"""
# Two that send to and fro without end, beside four who do the same: far more configurations than are seen in a second.
LONG = "".join(f"channel c{n}; " for n in range(6)) + "".join(
    f"process a{n} {{ forever {{ sync choose [send c{n} (1), send c{(n + 1) % 6} (2)]; }} }}\n"
    f"process b{n} {{ let k = 0; forever {{ x <- sync recv c{n}; let k = k + x; }} }}\n"
    for n in range(6)
)
# The first search sees few states, as each of these commits stands alone, and the second sees all.
LONG_BESIDE = "channel c; channel d; channel e;\nprocess clock { forever { sync always (); } }\n" + "".join(
    f"process to_{it} {{ loop 100 {{ sync send {it} (1); }} }}\n"
    f"process of_{it} {{ loop 100 {{ x <- sync recv {it}; }} }}\n"
    for it in "cde"
)
# The same, where one may end at once and leave all others waiting.
LONG_OR_SHORT = (
    "channel go; channel on; "
    + re.sub(r"(process \w+ \{)", r"\1 go_on <- sync recv on;", LONG)
    + "process boss { sync choose [send go (1), always ()]; }\n"
    + "process starter { x <- sync recv go; loop 12 { sync send on (1); } }\n"
)
# Nine that make many commits: wider than a narrow screen, and longer.
MANY = "channel c;\n" + "".join(
    f"process process_{n} {{ loop 4 {{ sync always (); }} sync send c ({n}); print {n}; }}\n" for n in range(8)
) + "process gathering { loop 8 { x <- sync recv c; } }\n"
STOPPED = "document.querySelector('#told').textContent.startsWith('Stopped after ')"
WRONG = "channel c;\nprocess a {\n  x = 1;\n}\n"
# Who faults beside a clock, behind a commit.
FAULTY = "process clock { forever { sync always (); } }\nprocess bad { sync always (); let x = x; }\n"
# Two and a clock: nobody takes what dead sends, and late waits for ever behind a commit.
BESIDE = (
    "channel c;\nprocess clock { forever { sync always (); } }\n"
    "process dead { sync send c (1); }\nprocess late { sync always (); sync never; }\n"
)


def wait_until(page, expression, what, seconds=20):
    """Waits until an expression holds in the page."""
    ends = time.monotonic() + seconds
    while time.monotonic() < ends:
        try:
            if page.evaluate(f"Boolean({expression})"):
                return
        except BrowserError:
            pass
        time.sleep(0.02)
    raise AssertionError(f"never came: {what}")


def wait_answer(page):
    rest = "!playground.caller.open.size && document.querySelector('#busy').hidden"
    wait_until(page, f"{rest} && document.querySelector('#answer').hasChildNodes()", "an answer")
    # A view may make several calls, one after another.
    time.sleep(0.15)
    wait_until(page, rest, "an answer")


def opened(driven, address, size=WIDE, before=FRESH + NOTE_ANSWER):
    page = driven.page(*size, before)
    page.open(address)
    wait_until(page, "Boolean(window.playground)", "the page")
    wait_answer(page)
    return page


def load_again(page):
    """What the browser's own button for it does."""
    page.evaluate("window.is_old = true")
    page.call("Page.reload")
    wait_until(page, "!window.is_old && Boolean(window.playground)", "the page once more")
    wait_answer(page)


def text_of(page, selector):
    return page.evaluate(f"document.querySelector({json.dumps(selector)}).textContent")


def choose(page, selector, value):
    page.evaluate(
        f"(() => {{ const it = document.querySelector('{selector}'); it.value = '{value}';"
        " it.dispatchEvent(new Event('change', { bubbles: true })); })()"
    )


def choose_example(page, name):
    choose(page, "#example", name)
    wait_answer(page)


def fill(page, selector, text):
    """Puts a text in the place of what stands in a field, as a user types it."""
    page.evaluate(f"(() => {{ const it = document.querySelector('{selector}'); it.focus(); it.select(); }})()")
    page.write(text)


def press_view(page, view):
    page.click(f"[data-view={view}]")
    if view not in ("language", "about"):
        wait_answer(page)


def meets(found, *wanted):
    for it in wanted:
        assert it in found, f"{it!r} is not in {found!r}"


# TRIALS: each is given the browser and the page's address.


def answers_soon(driven, address):
    """The best of three counts, since other work on the machine may take the first ones' time."""
    spent = []
    for _ in range(3):
        page = opened(driven, address)
        spent.append(page.evaluate("window.answered"))
        meets(text_of(page, "#told"), "6 commits. Every process ended.")
        wait_until(page, "document.querySelector('#state').textContent", "what is told of the script")
        meets(text_of(page, "#state"), "A script: 2 processes and 2 channels.")
        page.close()
    print(f"the first answer is there {min(spent):.0f} ms after the page began to load")
    assert min(spent) < SOON, f"it took {min(spent):.0f} ms"


def views_show(driven, address):
    page = opened(driven, address)
    choose_example(page, "fan_in")
    press_view(page, "outcomes")
    meets(text_of(page, "#told"), "6 outcomes, and that is all. Every run ends within 8 commits.")
    meets(text_of(page, "#answer"), "pcml outcomes script.pcml", "1 2 4 3", "2 4 1 3")
    page.click("#answer tbody tr:nth-child(3) button")
    wait_answer(page)
    meets(text_of(page, "#told"), "The chart of the 8 commits of outcome 3.")
    press_view(page, "why")
    meets(text_of(page, "#told"), "the 8 commits of outcome 3")
    meets(text_of(page, "#answer"), "merge waits at line 23", "recv left: nobody offers")
    assert page.evaluate("document.querySelectorAll('#lines .waits').length") == 2
    page.click("#answer button.here")
    assert page.evaluate("document.activeElement.id") == "script"
    press_view(page, "chart")
    inside = "document.querySelector('.picture').shadowRoot.querySelectorAll('path.a').length"
    assert page.evaluate(inside) == 8


def options_count(driven, address):
    page = opened(driven, address)
    choose_example(page, "dining_philosophers")
    press_view(page, "outcomes")
    choose(page, "#extent", "within")
    wait_answer(page)
    meets(text_of(page, "#told"), "24 outcomes, and that is all within 8 syncs a process.")
    page.click("#waiting")
    wait_answer(page)
    meets(text_of(page, "#told"), "outcomes that leave somebody waiting")
    meets(text_of(page, ".asked"), "--waiting --rows 8")
    # A fork may be spent before who waits for it.
    needs_end(page, "plato , kant", "--need plato,kant --rows 8", "in which one of these has not ended", "fault")
    needs_end(page, "nobody", "--need nobody --rows 8", "The program refuses this.", "fault")
    meets(text_of(page, "#answer"), "no process is named 'nobody'")
    choose_example(page, "ordered_philosophers")
    press_view(page, "outcomes")
    assert page.evaluate("document.querySelector('#waiting').disabled"), "the program takes one of the two"
    needs_end(page, "plato,kant,hume", "--need plato,kant,hume", "Each of these ends in each run. Every run ends within 12 commits.", "met")
    needs_end(page, "all", "--need all", "1 outcome in which one of these has not ended, and that is all.", "fault")
    fill(page, "#script", "process a { forever { sync always (); } }\n")
    press_view(page, "outcomes")
    needs_end(page, "a", "--need a", "None of these is ever stranded. Some runs go on for ever.", "met")
    choose(page, "#extent", "within")
    fill(page, "#rows", "9")
    needs_end(page, "a", "--need a --rows 9", "1 outcome in which one of these has not ended, and that is all within 9 syncs", "open")


def bound_is_told(driven, address):
    """Outcomes is asked without a bound and with one, which each time is told; other views have one always."""
    page = opened(driven, address)
    choose_example(page, "dining_philosophers")
    meets(text_of(page, ".asked"), "pcml run script.pcml --workers 1 --rows 8")
    bounds_are(page, True, "The run stops a process there.")
    press_view(page, "outcomes")
    assert text_of(page, ".asked") == "pcml outcomes script.pcml"
    bounds_are(page, False, "No bound on syncs.")
    meets(text_of(page, "#told"), "1 outcome, and that is all. Some runs go on for ever.")
    meets(text_of(page, "#answer"), "75 states seen in ", "in runs of any length.")
    # The journal of an outcome may have more syncs than the field says.
    page.click("#answer tbody button")
    wait_answer(page)
    meets(text_of(page, "#told"), "commits of outcome 1.")
    fill(page, "#script", "process long { loop 1100 { sync always (); } }\n")
    press_view(page, "outcomes")
    meets(text_of(page, "#told"), "1 outcome, and that is all. Every run ends within 1100 commits.")
    page.click("#answer tbody button")
    wait_answer(page)
    meets(text_of(page, "#told"), "In this run a process makes more than 1,024 syncs. So only its journal is shown.")
    meets(text_of(page, "#answer"), "1100 long.1099.0 always ()")
    choose_example(page, "fan_in")
    press_view(page, "outcomes")
    choose(page, "#extent", "within")
    wait_answer(page)
    # As many as always are a bound too, once that is asked for.
    assert text_of(page, ".asked") == "pcml outcomes script.pcml --rows 256"
    bounds_are(page, True, "Longer runs are not searched.")
    meets(text_of(page, "#answer"), "in runs within 256 syncs a process.")
    fill(page, "#rows", "2")
    page.press("Enter")
    wait_answer(page)
    meets(text_of(page, "#told"), "2 outcomes, and that is all within 2 syncs a process.")
    choose(page, "#never", "--faults")
    wait_answer(page)
    bounds_are(page, False, "No bound on syncs.")
    assert not is_seen(page, "#extent")
    press_view(page, "step")
    bounds_are(page, True, "Bounds your run.")


def bounds_are(page, is_bounded, told):
    assert is_seen(page, "#rows") == is_bounded
    assert text_of(page, "#bounds") == told


def only_and_first_are_asked(driven, address):
    page = opened(driven, address)
    choose_example(page, "fan_in")
    press_view(page, "outcomes")
    fill(page, "#only", "odd , merge")
    page.press("Enter")
    wait_answer(page)
    meets(text_of(page, ".asked"), "pcml outcomes script.pcml --only odd,merge")
    meets(text_of(page, "#told"), "1 outcome, and that is all.")
    meets(text_of(page, "#answer"), "Outcomes that differ in other processes alone are one.")
    heads = page.evaluate("[...document.querySelectorAll('#answer thead th')].map((it) => it.textContent)")
    assert heads == ["Outcome", "odd", "merge"], heads
    fill(page, "#only", "reader")
    page.click("#first")
    wait_answer(page)
    meets(text_of(page, ".asked"), "--only reader --first")
    is_told(page, "1 outcome, the first that was found. The search stopped there.", "")
    page.click("#answer tbody button")
    wait_answer(page)
    meets(text_of(page, "#told"), "The chart of the 8 commits of outcome 1.")
    press_view(page, "outcomes")
    needs_end(page, "reader", "--need reader --only reader --first", "the first that was found", "fault")
    needs_end(page, "odd", "--need odd --only reader --first", "Each of these ends in each run.", "met")
    fill(page, "#only", "nobody")
    page.press("Enter")
    wait_answer(page)
    meets(text_of(page, "#answer"), "no process is named 'nobody'")


def runs_for_ever_are_shown(driven, address):
    """Where nothing else is told, a run that goes round; where an outcome or who is stranded is, those."""
    page = opened(driven, address)
    fill(page, "#script", "process a { sync always (); forever { sync always (); } }\n")
    press_view(page, "outcomes")
    meets(text_of(page, "#told"), "0 outcomes, and that is all. Some runs go on for ever.")
    page.click("#answer .moves button")
    wait_answer(page)
    meets(text_of(page, "#told"), " commits of a run that goes round for ever from commit ")
    press_view(page, "step")
    meets(text_of(page, "#told"), "1 may come next.")
    for script in (BESIDE, WRONG.replace("x = 1;", "end;")):
        fill(page, "#script", script)
        press_view(page, "outcomes")
        assert page.evaluate("document.querySelector('#answer .moves') === null"), script


def charts_are_of_some(driven, address):
    page = opened(driven, address)
    fill(page, "#script", MANY)
    press_view(page, "outcomes")
    assert not is_seen(page, "#columns")
    press_view(page, "chart")
    fill(page, "#columns", "process_1 , gathering")
    page.press("Enter")
    wait_answer(page)
    meets(text_of(page, ".asked"), "pcml chart script.pcml script.journal --only process_1,gathering")
    names = "[...document.querySelector('.picture').shadowRoot.querySelectorAll('.names text')]"
    heads = page.evaluate(f"{names}.map((it) => it.textContent)")
    assert heads == ["process_1", "gathering", "others"], heads
    assert page.evaluate("document.querySelector('.has-right > .picture') === null"), "it is as wide as before"
    fill(page, "#columns", "nobody")
    page.press("Enter")
    wait_answer(page)
    meets(text_of(page, "#answer"), "no process is named 'nobody'")


def needs_end(page, names, words, told, kind):
    """These names in the field ask by these words."""
    fill(page, "#need", names)
    page.press("Enter")
    wait_answer(page)
    meets(text_of(page, ".asked"), words)
    assert "--waiting" not in text_of(page, ".asked")
    is_told(page, told, kind)


def is_told(page, told, kind):
    """What is told has this kind, by which it has its colour."""
    meets(text_of(page, "#told"), told)
    assert page.evaluate("document.querySelector('#told').className") == f"told {kind}".strip()


def colour_of(page, selector):
    return page.evaluate(f"getComputedStyle(document.querySelector({json.dumps(selector)})).color")


def stranded_is_told(driven, address):
    """Who is stranded has a line and a colour of its own, and its run is shown."""
    page = opened(driven, address)
    fill(page, "#script", BESIDE)
    press_view(page, "outcomes")
    meets(text_of(page, "#told"), "0 outcomes, and that is all. Some runs go on for ever. May be stranded: dead, late.")
    lines = page.evaluate("[...document.querySelectorAll('#stranded tr')].map((it) => it.textContent)")
    assert lines == ["deadstranded after 0 commitsShow", "latestranded after 1 commitShow"], lines
    colour = colour_of(page, "#stranded .stranded")
    needs_end(page, "dead,clock", "--need dead,clock", "dead may be stranded, though others go on. Some runs go on for ever.", "fault")
    assert text_of(page, "#stranded .stranded") == "stranded"
    needs_end(page, "clock", "--need clock", "None of these is ever stranded. Some runs go on for ever.", "met")
    meets(text_of(page, "#answer"), "One that could move and is never chosen is not stranded")
    assert page.evaluate("document.querySelector('#stranded') === null")
    fill(page, "#need", "")
    page.press("Enter")
    wait_answer(page)
    page.click("#stranded tr:nth-child(2) button")
    wait_answer(page)
    meets(text_of(page, "#told"), "The chart of the 1 commit of a run that leaves late stranded.")
    press_view(page, "why")
    meets(text_of(page, "#answer"), "late waits at line 4", "dead waits at line 3")
    choose_example(page, "crossed_sends")
    press_view(page, "outcomes")
    assert colour not in (colour_of(page, "#answer .waiting"), colour_of(page, "#told")), f"{colour} is that of others"


def is_seen(page, selector):
    return page.evaluate(f"document.querySelector({json.dumps(selector)}).offsetParent !== null")


def ask_never(page, question, field="", text=""):
    """Chooses what must never happen, and writes who and what where the cursor is then."""
    choose(page, "#never", question)
    if field:
        assert page.evaluate("document.activeElement.id") == field
        fill(page, f"#{field}", text)
        page.press("Enter")
    asked = f"{question} {text.replace(' ', '')}".strip()
    wait_until(page, f"document.querySelector('.asked')?.textContent.includes('{asked}')", question)
    wait_answer(page)


def never_printed_is_told(driven, address):
    """A value that no run prints, the run that leads to one, and a text that names none."""
    page = opened(driven, address)
    choose_example(page, "peterson")
    fill(page, "#rows", "9")
    press_view(page, "outcomes")
    choose(page, "#never", "--never")
    is_told(page, "Fill in a process, = and a value", "")
    ask_never(page, "--never", "printed", "observer=99")
    is_told(page, "observer never prints 99.", "met")
    assert text_of(page, ".asked") == "pcml outcomes script.pcml --never observer=99", "it is of runs of any length"
    assert not is_seen(page, "#rows"), "the syncs do not count, and are seen"
    meets(text_of(page, "#answer"), "runs of any length", "42 states seen")
    meets(page.evaluate("document.querySelector('#printed').title"), "Several stand with commas between.")
    fill(page, "#printed", "observer=98 , observer=99")
    page.press("Enter")
    wait_answer(page)
    assert text_of(page, ".asked") == "pcml outcomes script.pcml --never observer=98 --never observer=99"
    lines = "never observer 98 states 42 all\\nprinted observer 99 states 7\\n"
    told = page.evaluate(f"read_never('{lines}').map(told_of_never)")
    assert told == ["observer never prints 98.", "observer prints 99 in some run."], told
    fill(page, "#printed", "observer=99")
    fill(page, "#script", page.evaluate("playground.editor.text").replace("set_turn (turn_b)", "set_turn (turn_a)"))
    press_view(page, "outcomes")
    is_told(page, "observer prints 99 in some run.", "fault")
    page.click("#answer .moves button")
    wait_answer(page)
    meets(text_of(page, "#told"), "The chart of the ", " commits of a run to where observer prints 99.")
    commits = text_of(page, "#told").split()[4]
    press_view(page, "step")
    meets(text_of(page, "#told"), f"{commits} commits taken.")
    press_view(page, "outcomes")
    ask_never(page, "--never", "printed", "observer=07")
    is_told(page, "The program refuses this.", "fault")
    meets(text_of(page, "#answer"), "'observer=07' is no process's name, = and a value as print writes it")
    ask_never(page, "--never", "printed", "nobody=1")
    meets(text_of(page, "#answer"), "'nobody=1' is no process's name, = and a value as print writes it")


def never_else_is_told(driven, address):
    """Who faults and who is left behind, in some run and in none; and that it is not asked any more."""
    page = opened(driven, address)
    fill(page, "#script", FAULTY)
    press_view(page, "outcomes")
    ask_never(page, "--faults")
    is_told(page, "bad faults in some run.", "fault")
    assert page.evaluate("document.querySelector('.asked').textContent") == "pcml outcomes script.pcml --faults"
    page.click("#answer .moves button")
    wait_answer(page)
    meets(text_of(page, "#told"), "The chart of the 1 commit of a run to where bad faults.")
    press_view(page, "why")
    meets(text_of(page, "#answer"), "bad faulted")
    # Its run has more syncs than a process may make.
    fill(page, "#script", "process bad { loop 12 { sync always (); } let x = x; }\n")
    fill(page, "#rows", "9")
    press_view(page, "outcomes")
    page.click("#answer .moves button")
    wait_answer(page)
    meets(text_of(page, "#told"), "The chart of the 12 commits of a run to where bad faults.")
    fill(page, "#script", FAULTY)
    press_view(page, "outcomes")
    ask_never(page, "--left", "behind", "clock , bad")
    is_told(page, "clock is left behind in some run.", "fault")
    meets(text_of(page, "#answer"), "--left clock,bad", "whatever follows", "that never ends by itself is always left behind")
    ask_never(page, "--left", "behind", "bad")
    is_told(page, "None of these is ever left behind.", "met")
    ask_never(page, "--left", "behind", "nobody")
    meets(text_of(page, "#answer"), "no process is named 'nobody'")
    choose_example(page, "client_server")
    press_view(page, "outcomes")
    ask_never(page, "--faults")
    is_told(page, "No process ever faults.", "met")
    choose(page, "#never", "")
    wait_until(page, "document.querySelector('#told').textContent.includes('and that is all')", "all outcomes")
    assert is_seen(page, "#extent"), "it is asked again which runs are searched, and is not seen"


def steps_go_and_come(driven, address):
    page = opened(driven, address)
    choose_example(page, "client_server")
    press_view(page, "step")
    meets(text_of(page, "#told"), "4 commits taken. No commit may come next.")
    press_move(page, "Start over")
    meets(text_of(page, "#told"), "0 commits taken. 1 may come next.")
    meets(text_of(page, "#answer .commits"), "1 client.0.0 -> server.0.0 request (#reply, !client.0)")
    page.evaluate("document.querySelector('.commits button').focus()")
    for count in range(1, 5):
        page.press("Enter")
        wait_answer(page)
        meets(text_of(page, "#told"), f"{count} commit{'s' * (count > 1)} taken.")
    meets(text_of(page, "#told"), "No commit may come next.")
    page.click(".moves button")
    wait_answer(page)
    meets(text_of(page, "#told"), "3 commits taken. 1 may come next.")
    assert page.evaluate("document.activeElement.textContent") == "Take back", "the keyboard lost its place"
    press_view(page, "why")
    meets(text_of(page, "#told"), "the 3 commits of your own run")


def press_move(page, label):
    page.evaluate(f"[...document.querySelectorAll('.moves button')].find((it) => it.textContent === '{label}').click()")
    wait_answer(page)


def steps_and_runs_are_one(driven, address):
    """Step begins with the run's commits, and Why and Chart show the steps."""
    page = opened(driven, address)
    choose_example(page, "fan_in")
    press_view(page, "run")
    journal = "document.querySelector('#answer [aria-label=Journal]').textContent"
    ran = page.evaluate(journal)
    press_view(page, "step")
    meets(text_of(page, "#told"), "8 commits taken. No commit may come next.")
    meets(text_of(page, "#answer"), "These are the commits of the run.")
    assert page.evaluate(journal) == ran
    # Each press counts, though the answer to the one before has not come yet.
    back = "[...document.querySelectorAll('.moves button')].find((it) => it.textContent === 'Take back')"
    page.evaluate(f"(() => {{ const it = {back}; it.click(); it.click(); }})()")
    wait_answer(page)
    meets(text_of(page, "#told"), "6 commits taken.")
    # A choice is taken once.
    page.evaluate("(() => { const it = document.querySelector('.commits button'); it.click(); it.click(); })()")
    wait_answer(page)
    meets(text_of(page, "#told"), "7 commits taken.")
    press_move(page, "Take back")
    meets(text_of(page, "#told"), "6 commits taken.")
    assert "commits of the run" not in text_of(page, "#answer")
    stepped = page.evaluate(journal)
    assert ran.startswith(stepped) and stepped.count("\n") == 6
    press_view(page, "why")
    meets(text_of(page, "#told"), "the 6 commits of your own run")
    press_view(page, "chart")
    meets(text_of(page, "#told"), "the 6 commits of your own run")
    assert page.evaluate(journal) == stepped
    # Neither other views nor another number of syncs make a run.
    press_view(page, "outcomes")
    press_view(page, "about")
    press_view(page, "step")
    fill(page, "#rows", "100")
    page.press("Enter")
    wait_answer(page)
    meets(text_of(page, ".asked"), "--rows 100")
    meets(text_of(page, "#told"), "6 commits taken.")
    assert page.evaluate(journal) == stepped
    # Whoever has made more syncs than that has made no such run.
    fill(page, "#rows", "1")
    page.press("Enter")
    wait_answer(page)
    meets(text_of(page, "#told"), "0 commits taken.")
    fill(page, "#rows", "256")
    press_view(page, "run")
    press_view(page, "chart")
    meets(text_of(page, "#told"), "the 8 commits of the run")
    fill(page, "#rows", "200")
    page.press("Enter")
    wait_answer(page)
    meets(text_of(page, "#told"), "the 8 commits of an earlier run")


def offered(page):
    """The journals that one may choose from; None where that is not seen."""
    if not is_seen(page, "#journal"):
        return None
    return page.evaluate("[...document.querySelectorAll('#journal option')].map((it) => it.textContent)")


def choose_journal(page, told):
    choose(page, "#journal", str(offered(page).index(told)))
    wait_answer(page)


def no_journal_is_lost(driven, address):
    """Neither a run, nor an outcome, nor other steps, nor an edit takes away what the user has made step by step."""
    page = opened(driven, address)
    choose_example(page, "fan_in")
    press_view(page, "chart")
    meets(text_of(page, "#told"), "the 8 commits of the run")
    assert offered(page) is None, "there is one alone"
    press_view(page, "step")
    for _ in range(3):
        press_move(page, "Take back")
    assert offered(page) == ["the run: 8 commits", "your own run: 5 commits"], offered(page)
    press_view(page, "run")
    assert offered(page) is None, "a run shows no other"
    press_view(page, "step")
    meets(text_of(page, "#told"), "8 commits taken.")
    assert sorted(offered(page)) == ["the run: 8 commits", "your own run: 5 commits"], offered(page)
    choose_journal(page, "your own run: 5 commits")
    meets(text_of(page, "#told"), "5 commits taken.")
    press_view(page, "chart")
    meets(text_of(page, "#told"), "the 5 commits of your own run")
    press_view(page, "outcomes")
    page.click("#answer tbody tr:nth-child(2) button")
    wait_answer(page)
    meets(text_of(page, "#told"), "the 8 commits of outcome 2")
    # Steps from there are another run of his own.
    press_view(page, "step")
    press_move(page, "Start over")
    page.click("#answer .commits button")
    wait_answer(page)
    own = ["your own run 2: 1 commit", "your own run: 5 commits"]
    assert sorted(offered(page)) == ["outcome 2: 8 commits", "the run: 8 commits", *own], offered(page)
    # An edit has no journal, and taken back has its own again. So has a number of syncs that is too small.
    text = page.evaluate("playground.editor.text")
    fill(page, "#script", text + "process another { }\n")
    press_view(page, "step")
    meets(text_of(page, "#told"), "0 commits taken.")
    assert offered(page) is None
    fill(page, "#script", text)
    fill(page, "#rows", "1")
    press_view(page, "why")
    assert "your own run: 5 commits" not in (offered(page) or []), offered(page)
    fill(page, "#rows", "256")
    page.press("Enter")
    wait_answer(page)
    choose_journal(page, "your own run: 5 commits")
    meets(text_of(page, "#told"), "the 5 commits of your own run")
    # Nor does an example.
    choose_example(page, "swap")
    press_view(page, "chart")
    assert offered(page) is None
    choose_example(page, "fan_in")
    press_view(page, "chart")
    assert sorted(offered(page)) == ["the run: 8 commits", *own], offered(page)


def faults_are_told(driven, address):
    page = opened(driven, address)
    fill(page, "#script", WRONG)
    wait_until(page, "document.querySelector('#state .fault')", "the fault")
    meets(text_of(page, "#state"), "Line 3, column 5: the grammar does not allow this here.", "set by let", "<-")
    assert text_of(page, "#colours .fault") == "="
    assert text_of(page, "#lines .faulty") == "3"
    assert page.evaluate("!document.querySelector('#old').hidden"), "the answer is old, and nothing says so"
    page.click("#state button")
    assert page.evaluate("document.querySelector('#script').selectionStart") == WRONG.index("=")
    press_view(page, "run")
    meets(text_of(page, "#told"), "This text is no script.")
    fill(page, "#script", "")
    wait_until(page, "document.querySelector('#state').textContent.startsWith('A script: 0')", "the empty script")


def long_search_stops(driven, address):
    page = opened(driven, address)
    fill(page, "#script", LONG)
    page.click("[data-view=outcomes]")
    wait_until(page, "!document.querySelector('#busy').hidden", "that it takes long")
    fill(page, "#script", WRONG)
    wait_until(page, "document.querySelector('#state .fault')", "a fault while the search is under way", 2)
    assert page.evaluate("playground.caller.open.size") == 1, "the search had ended before"
    states = r"/Under way for [0-9]+ s: [0-9,]+ states seen, [0-9,]+ of them still to look at/"
    wait_until(page, f"{states}.test(document.querySelector('#busy-text').textContent)", "how far it is")
    seen = int(text_of(page, "#busy-text").split()[5].replace(",", ""))
    began = time.monotonic()
    page.click("#stop")
    wait_until(page, STOPPED, "the stop", 2)
    print(f"a long search is stopped in {1000 * (time.monotonic() - began):.0f} ms")
    # What was told last stays.
    meets(text_of(page, ".asked"), "pcml outcomes script.pcml")
    last = [int(number.replace(",", "")) for number in re.findall(r"[0-9,]+[0-9]", text_of(page, "#answer .hint"))]
    assert last[0] >= seen > 0 and last[0] > last[1] > 0, (last, seen)
    meets(text_of(page, "#answer"), "The search had seen ", "still to look at. The answer is not known.", "or within")
    fill(page, "#script", LONG)
    page.click("[data-view=outcomes]")
    wait_until(page, "!document.querySelector('#busy').hidden", "that it takes long")
    # What is asked for later counts.
    choose_example(page, "ping_pong")
    meets(text_of(page, "#told"), "6 commits.")
    fill(page, "#script", LONG)
    page.click("[data-view=outcomes]")
    wait_until(page, "!document.querySelector('#busy').hidden", "that it takes long")
    page.press("Escape")
    wait_until(page, STOPPED, "the stop by a key", 2)
    meets(text_of(page, "#answer"), "The answer is not known.")
    # Behind the first search the second is told.
    fill(page, "#script", LONG_BESIDE)
    page.click("[data-view=outcomes]")
    wait_until(page, "document.querySelector('#busy-text').textContent.includes('seen in the second search')", "it")
    page.click("#stop")
    wait_until(page, STOPPED, "the stop of the second search", 2)
    meets(text_of(page, "#answer"), "The second search, for who is stranded, had seen ")
    # No line of these is left in an answer.
    fill(page, "#script", BESIDE)
    press_view(page, "outcomes")
    assert "a state takes" not in text_of(page, "#answer")


def stop_keeps_what_was_found(driven, address):
    """The outcomes that a search had found, each with its run, and the answer that was there before."""
    page = opened(driven, address)
    fill(page, "#script", LONG_OR_SHORT)
    search_until(page, "1 outcome found so far")
    page.click("#stop")
    wait_until(page, STOPPED, "the stop", 2)
    assert re.search("Found in the first [0-9,]+ states: 1 outcome", text_of(page, "#answer"))
    meets(text_of(page, "#answer"), "The answer before, of the script as it was then", "6 commits.")
    assert page.evaluate("document.querySelector('.before').inert"), "the other script's answer can be pressed"
    page.click("#answer tbody button")
    wait_answer(page)
    meets(text_of(page, "#told"), "The chart of the 1 commit of outcome 1.")
    meets(text_of(page, "#answer"), "1 boss.0.1 always ()")
    # That is the answer before, now. Of two stops there is one.
    for _ in range(2):
        page.click("[data-view=outcomes]")
        wait_until(page, "!document.querySelector('#busy').hidden", "that it takes long")
        page.click("#stop")
        wait_until(page, STOPPED, "the stop", 2)
        before = "[...document.querySelectorAll('.before')].map((it) => [it.inert, it.querySelector('p').textContent])"
        assert page.evaluate(before) == [[False, "The chart of the 1 commit of outcome 1."]]
        assert page.evaluate("document.querySelector('.before .picture').shadowRoot.querySelector('svg') !== null")
    # Within a bound, and of whom it is asked, what was found has the same words.
    choose(page, "#extent", "within")
    wait_until(page, "!document.querySelector('#busy').hidden", "that it takes long")
    fill(page, "#only", "boss")
    search_until(page, "1 outcome found so far")
    page.press("Escape")
    wait_until(page, STOPPED, "the stop by a key", 2)
    page.click("#answer tbody button")
    wait_answer(page)
    meets(text_of(page, "#told"), "The chart of the 1 commit of outcome 1.")
    press_view(page, "about")
    assert page.evaluate("playground.search.gathering.is_wanted") is False
    # Where the first alone is asked for, it is told as soon as it is found.
    page.click("[data-view=outcomes]")
    page.click("#first")
    wait_answer(page)
    meets(text_of(page, "#told"), "1 outcome, the first that was found.")


def found_outlives_the_memory(driven, address):
    """A search that ends for want of memory tells the outcomes that it had found. The worker's answer is made up."""
    page = opened(driven, address)
    fill(page, "#script", LONG_OR_SHORT)
    search_until(page, "1 outcome found so far")
    page.evaluate(
        "(({ worker, number }) => worker.onmessage({ data: { number, status: 1, broke: '', out: new Uint8Array(),"
        " err: new TextEncoder().encode('fault 1\\n'), files: {}, milliseconds: 1 } }))(playground.caller)"
    )
    wait_until(page, "document.querySelector('#told').textContent === 'The program refuses this.'", "the fault")
    meets(text_of(page, "#answer"), "gave the program no more memory", "Found in the first ", ": 1 outcome")
    page.close()


def search_until(page, told):
    page.click("[data-view=outcomes]")
    wait_until(page, f"document.querySelector('#busy-text').textContent.includes('{told}')", told)


def links_hold_scripts(driven, address):
    page = opened(driven, address)
    text = "channel c;\nprocess a { sync send c (7); }\nprocess b { x <- sync recv c; print x; }\n"
    fill(page, "#script", text)
    fill(page, "#rows", "9")
    page.click("#copy-link")
    wait_until(page, "location.hash.includes('script=')", "the link")
    link = page.evaluate("location.href")
    other = opened(driven, link)
    assert page.evaluate("playground.editor.text") == text
    assert other.evaluate("playground.editor.text") == text
    assert other.evaluate("document.querySelector('#rows').value") == "9"
    meets(text_of(other, "#answer"), "1 a.0.0 -> b.0.0 c (7)")
    meets(text_of(other, ".asked"), "--rows 9")
    assert not other.evaluate("playground.is_within")
    # Those of earlier pages do not say which runs are searched: within the syncs where these are not as always.
    early = opened(driven, link.replace("&runs=any", ""))
    assert early.evaluate("playground.is_within")
    damaged = opened(driven, address + "#script=nonsense!")
    meets(text_of(damaged, "#notes"), "The link holds no script that can be read.")


def reload_keeps_script(driven, address):
    """Its text, its syncs, and which runs are searched: a link's first, then this tab's, then what was written last."""
    opened(driven, address).close()
    page = opened(driven, address, before=NOTE_ANSWER)
    fill(page, "#script", BESIDE)
    fill(page, "#rows", "9")
    press_view(page, "outcomes")
    choose(page, "#extent", "within")
    other = opened(driven, address, before=NOTE_ANSWER)
    assert other.evaluate("playground.editor.text") == BESIDE, "a new tab begins with what was written last"
    choose_example(other, "swap")
    load_again(other)
    assert other.evaluate("document.querySelector('#example').value") == "swap"
    load_again(page)
    assert page.evaluate("playground.held") == {"text": BESIDE, "rows": 9, "is_within": True}
    page.click("#copy-link")
    wait_until(page, "location.hash.includes('script=')", "the link")
    link = page.evaluate("location.href")
    load_again(other)
    linked = opened(driven, link, before=NOTE_ANSWER)
    assert linked.evaluate("playground.held") == {"text": BESIDE, "rows": 9, "is_within": True}
    assert linked.evaluate("location.hash") != "", "a link that is there stays"
    third = opened(driven, address, before=NOTE_ANSWER)
    assert third.evaluate("playground.editor.text") == BESIDE, "an example is in the way of what was written"
    # Neither the syncs that are chosen then nor the script that is written are of the link any more.
    fill(linked, "#rows", "12")
    linked.press("Enter")
    load_again(linked)
    assert linked.evaluate("playground.held") == {"text": BESIDE, "rows": 12, "is_within": True}
    fill(linked, "#script", "process other { }\n")
    load_again(linked)
    assert linked.evaluate("playground.editor.text") == "process other { }\n"
    damaged = opened(driven, address, before=NOTE_ANSWER)
    damaged.evaluate("sessionStorage.puttolive = localStorage.puttolive = '{\"text\": 3'")
    load_again(damaged)
    meets(text_of(damaged, "#told"), "6 commits. Every process ended.")


def stores_may_be_refused(driven, address):
    page = opened(driven, address, before=NO_STORES + NOTE_ANSWER)
    meets(text_of(page, "#told"), "6 commits. Every process ended.")
    fill(page, "#script", BESIDE)
    press_view(page, "outcomes")
    meets(text_of(page, "#told"), "May be stranded: dead, late.")
    load_again(page)
    meets(text_of(page, "#told"), "6 commits. Every process ended.")


def keyboard_reaches_all(driven, address):
    page = opened(driven, address)
    page.evaluate("document.querySelector('#example').focus()")
    reached = []
    for _ in range(12):
        page.press("Tab")
        reached.append(page.evaluate("document.activeElement.dataset.view ?? document.activeElement.id"))
    assert reached[:2] == ["copy-link", "script"], reached
    assert [it for it in reached if it in VIEWS] == VIEWS, reached
    choose_example(page, "crossed_sends")
    page.evaluate("document.querySelector('#script').focus()")
    press_view(page, "language")
    page.press("Enter", control=True)
    wait_answer(page)
    meets(text_of(page, "#told"), "0 commits. Not ended: a, b.")


def all_is_named(driven, address):
    """Whatever can be reached has a name for a screen reader."""
    page = opened(driven, address)
    choose_example(page, "fan_in")
    for view in VIEWS:
        press_view(page, view)
        page.call("Accessibility.enable")
        for node in page.call("Accessibility.getFullAXTree")["nodes"]:
            role = node.get("role", {}).get("value")
            if role in ("button", "textbox", "combobox", "spinbutton", "checkbox", "image", "navigation"):
                assert node.get("name", {}).get("value"), f"a {role} has no name in {view}"


def fits_a_narrow_screen(driven, address):
    page = opened(driven, address, NARROW)
    choose_example(page, "dining_philosophers")
    for view in VIEWS:
        press_view(page, view)
        wide = page.evaluate("document.documentElement.scrollWidth")
        assert wide <= NARROW[0], f"{view} is {wide} wide"


def wide_answers_scroll(driven, address):
    """A table shows on which side there is more, and a chart keeps the names of its processes in view."""
    page = opened(driven, address, NARROW)
    fill(page, "#script", MANY)
    press_view(page, "outcomes")
    table = "document.querySelector('#answer .wide')"
    assert sides_of(page) == {"left": False, "right": True, "told": True}
    page.evaluate(f"{table}.scrollBy(50, 0)")
    wait_until(page, f"{table}.closest('.has-left')", "the shade at the left")
    assert sides_of(page) == {"left": True, "right": True, "told": True}
    number = page.evaluate("document.querySelector('#answer tbody th').getBoundingClientRect().left")
    assert number == page.evaluate(f"{table}.getBoundingClientRect().left"), "the outcome's number is out of view"
    page.evaluate(f"{table}.scrollBy(5000, 0)")
    wait_until(page, f"!{table}.closest('.has-right')", "the end of the table")
    assert sides_of(page) == {"left": True, "right": False, "told": False}
    press_view(page, "chart")
    wait_until(page, "document.querySelector('.has-right > .picture')", "that the chart is wider")
    names = "[...document.querySelector('.picture').shadowRoot.querySelectorAll('.names text')]"
    assert page.evaluate(f"{names}.map((it) => it.textContent)") == [f"process_{n}" for n in range(8)] + ["gathering"]
    page.evaluate("document.querySelector('.picture').scrollBy(120, 500)")
    above = page.evaluate(
        "document.querySelector('.picture').shadowRoot.querySelector('.names').getBoundingClientRect().top"
        " - document.querySelector('.picture').getBoundingClientRect().top"
    )
    assert page.evaluate("document.querySelector('.picture').scrollTop") > 100, "the chart does not scroll"
    assert above == 0, f"the names are {above} below the top of the chart"
    # A name stands over its line.
    over = page.evaluate(f"{names}.at(-1).getBoundingClientRect().left")
    below = page.evaluate(
        "[...document.querySelector('.picture').shadowRoot.querySelectorAll('svg:not(.names) > text')]"
        ".find((it) => it.textContent === 'gathering').getBoundingClientRect().left"
    )
    assert over == below, (over, below)
    # A step leads to the end of the chart, and no further to the left.
    press_view(page, "step")
    page.evaluate("document.querySelector('.picture').scrollBy(50, 0)")
    press_move(page, "Take back")
    at = page.evaluate("(({ scrollLeft, scrollTop, clientHeight, scrollHeight }) =>"
                       " [scrollLeft, scrollHeight - clientHeight - scrollTop])(document.querySelector('.picture'))")
    assert at[0] == 50 and at[1] < 1, at
    choose_example(page, "ping_pong")
    assert sides_of(page) == {"left": False, "right": False, "told": False}


def charts_fit(driven, address):
    """A chart is drawn as wide as there is room where that is asked for, and never wider than it is."""
    page = opened(driven, address, NARROW)
    fill(page, "#script", MANY)
    press_view(page, "chart")
    wait_until(page, "document.querySelector('.has-right > .picture')", "that the chart is wider")
    number = page.evaluate("playground.caller.number")
    page.click("#fit")
    wait_until(page, "!document.querySelector('.has-right > .picture')", "that the chart fits")
    assert page.evaluate("playground.caller.number") == number, "the program was asked anew"
    chart = "document.querySelector('.picture').shadowRoot.querySelector('svg:not(.names)')"
    names = "document.querySelector('.picture').shadowRoot.querySelector('.names')"
    box = page.evaluate(f"{chart}.getBoundingClientRect().toJSON()")
    drawn = page.evaluate(f"(({{ width, height }}) => [width, height])({chart}.viewBox.baseVal)")
    assert box["width"] < drawn[0] and abs(box["height"] / box["width"] - drawn[1] / drawn[0]) < 0.01, (box, drawn)
    # Its names lie over those of the chart, and stay.
    last = "[...{}.querySelectorAll('text')].find((it) => it.textContent === 'gathering')"
    last += ".getBoundingClientRect().toJSON()"
    over, below = page.evaluate(last.format(names)), page.evaluate(last.format(chart))
    assert all(abs(over[it] - below[it]) < 0.5 for it in ("left", "top", "height")), (over, below)
    page.evaluate("document.querySelector('.picture').scrollBy(0, 150)")
    top = "document.querySelector('.picture').getBoundingClientRect().top"
    if page.evaluate("document.querySelector('.picture').scrollTop") > 60:
        assert abs(page.evaluate(f"{names}.getBoundingClientRect().top - {top}")) < 0.5, "the names went away"
    press_view(page, "step")
    assert page.evaluate(f"{chart}.getBoundingClientRect().width") == box["width"], "the next chart does not fit"
    choose_example(page, "ping_pong")
    press_view(page, "chart")
    wide = page.evaluate(f"[{chart}.getBoundingClientRect().width, {chart}.viewBox.baseVal.width]")
    assert wide[0] == wide[1], f"a chart that fits is changed: {wide}"
    press_view(page, "outcomes")
    assert not is_seen(page, "#fit")
    fill(page, "#script", MANY)
    press_view(page, "chart")
    page.click("#fit")
    wait_until(page, "document.querySelector('.has-right > .picture')", "that the chart is wider again")
    # Where it is as tall as before, too.
    page.size(*WIDE)
    page.click("#fit")
    wait_until(page, "!document.querySelector('.has-right > .picture')", "that the wide chart fits")


def nothing_lies_over_a_name(driven, address):
    """The button of an outcome stands beside its number, and is in view with it."""
    page = opened(driven, address, NARROW)
    fill(page, "#script", MANY)
    press_view(page, "outcomes")
    button = "document.querySelector('#answer tbody button')"
    page.evaluate(f"{button}.scrollIntoView({{ block: 'center' }})")
    for _ in range(2):
        box = page.evaluate(f"{button}.getBoundingClientRect().toJSON()")
        head = page.evaluate("document.querySelector('#answer th').getBoundingClientRect().toJSON()")
        assert head["left"] <= box["left"] and box["right"] <= head["right"], (head, box)
        edge = page.evaluate("document.querySelector('#answer .wide').getBoundingClientRect().right")
        at = f"document.elementFromPoint({edge - 4}, {(box['top'] + box['bottom']) / 2})"
        assert page.evaluate(f"{at}.closest('td') !== null && {at}.closest('button') === null"), "no outcome is there"
        page.evaluate("document.querySelector('#answer .wide').scrollBy(70, 0)")
    page.click("#answer tbody button")
    wait_answer(page)
    meets(text_of(page, "#told"), "commits of outcome 1.")


def sides_of(page):
    return page.evaluate(
        "(() => { const frame = document.querySelector('#answer .sideways');"
        " const has = (it) => frame.classList.contains(it);"
        " return { left: has('has-left'), right: has('has-right'),"
        " told: getComputedStyle(frame.querySelector('.more')).visibility === 'visible' }; })()"
    )


def old_browsers_are_told(driven, address):
    page = driven.page(*WIDE, FRESH + "WebAssembly.validate = () => false;")
    page.open(address)
    wait_until(page, "!document.querySelector('#lacks').hidden", "what the browser lacks")
    meets(text_of(page, "#lacks"), "memory64", "Chrome", "Firefox")
    assert page.evaluate("document.querySelector('[data-view=run]').disabled")
    assert page.evaluate("document.querySelector('#script').value.startsWith('channel ping')")
    assert page.evaluate("!document.querySelector('#language').hidden")


def language_can_be_tried(driven, address):
    page = opened(driven, address)
    press_view(page, "language")
    meets(text_of(page, "#language"), "The language", "may be taken")
    page.size(1000, 800)
    wait_until(page, "document.querySelector('#language .has-right > .wide table')", "that a table is wider")
    if page.evaluate("Boolean(document.querySelector('#language .try button'))"):
        page.evaluate("document.querySelector('#language .try button').click()")
        wait_answer(page)
        meets(text_of(page, "#told"), "commit")
    press_view(page, "about")
    meets(text_of(page, "#about"), "What is proved", "What is trusted", "memory.c", "SHA-256")


def path_of(address):
    return pathlib.Path(urllib.parse.unquote(urllib.parse.urlparse(address).path))


def is_small(driven, address):
    size = path_of(address).stat().st_size
    assert size <= LARGEST, f"the page has {size:,} bytes"


class Host(http.server.SimpleHTTPRequestHandler):
    """A static host that tells nothing of its requests."""

    def log_message(self, *_):
        pass


def any_host_serves_it(driven, address):
    path = path_of(address)
    host = http.server.ThreadingHTTPServer(("127.0.0.1", 0), functools.partial(Host, directory=path.parent))
    threading.Thread(target=host.serve_forever, daemon=True).start()
    try:
        page = opened(driven, f"http://127.0.0.1:{host.server_port}/{urllib.parse.quote(path.name)}")
        meets(text_of(page, "#told"), "6 commits. Every process ended.")
        page.close()
    finally:
        host.shutdown()


TRIALS = [
    is_small,
    answers_soon,
    any_host_serves_it,
    views_show,
    options_count,
    bound_is_told,
    only_and_first_are_asked,
    runs_for_ever_are_shown,
    charts_are_of_some,
    stranded_is_told,
    never_printed_is_told,
    never_else_is_told,
    steps_go_and_come,
    steps_and_runs_are_one,
    no_journal_is_lost,
    faults_are_told,
    long_search_stops,
    stop_keeps_what_was_found,
    found_outlives_the_memory,
    links_hold_scripts,
    reload_keeps_script,
    stores_may_be_refused,
    keyboard_reaches_all,
    all_is_named,
    fits_a_narrow_screen,
    wide_answers_scroll,
    charts_fit,
    nothing_lies_over_a_name,
    old_browsers_are_told,
    language_can_be_tried,
]


def told_wrong(driven):
    """What pages asked for from elsewhere, and the errors that they told."""
    wrong = []
    own = (*driven.addresses, "blob:", "data:")
    for message in driven.told:
        told = message.get("params", {})
        if message.get("method") == "Network.requestWillBeSent":
            asked = told["request"]["url"]
            if not asked.startswith(own):
                wrong.append(f"the page asked for {asked}")
        elif message.get("method") == "Runtime.exceptionThrown":
            wrong.append(f"an error was thrown: {json.dumps(told['exceptionDetails'])[:400]}")
        elif message.get("method") == "Log.entryAdded" and told["entry"]["level"] == "error":
            wrong.append(f"the browser told {told['entry']['text']}")
    return wrong


def take_picture(page, folder, view, shape, is_dark):
    name = f"{view}-{shape}-{'dark' if is_dark else 'light'}.png"
    page.picture(folder / name, whole=shape == "narrow")


def take_pictures(driven, address, folder):
    """A picture of each view, of many processes, of a search and its stop, of what must never happen and of a fault."""
    folder.mkdir(parents=True, exist_ok=True)
    for (width, height), shape in ((WIDE, "wide"), (NARROW, "narrow")):
        for is_dark in (False, True):
            page = opened(driven, address, (width, height))
            page.dark(is_dark)
            choose_example(page, "client_server")
            for view in VIEWS:
                press_view(page, view)
                take_picture(page, folder, view, shape, is_dark)
            press_view(page, "outcomes")
            ask_never(page, "--never", "printed", "client=42")
            take_picture(page, folder, "never", shape, is_dark)
            choose(page, "#never", "")
            fill(page, "#script", MANY)
            for view in ("outcomes", "chart", "step"):
                press_view(page, view)
                take_picture(page, folder, f"many-{view}", shape, is_dark)
            page.click("#fit")
            take_picture(page, folder, "fit-step", shape, is_dark)
            press_view(page, "chart")
            take_picture(page, folder, "fit-chart", shape, is_dark)
            fill(page, "#script", LONG_OR_SHORT)
            search_until(page, "1 outcome found so far")
            take_picture(page, folder, "search", shape, is_dark)
            page.click("#stop")
            wait_until(page, STOPPED, "the stop")
            take_picture(page, folder, "stopped", shape, is_dark)
            press_view(page, "run")
            fill(page, "#script", WRONG)
            wait_until(page, "document.querySelector('#state .fault')", "the fault")
            take_picture(page, folder, "fault", shape, is_dark)
            page.close()


def try_views(driven, address, pictures):
    """Makes each trial. It answers what was wrong."""
    wrong = []
    for trial in TRIALS:
        try:
            trial(driven, address)
            print(f"{trial.__name__}: as wanted", flush=True)
        except (AssertionError, BrowserError) as error:
            wrong.append(f"{trial.__name__}: {error}")
    wrong += told_wrong(driven)
    if pictures:
        take_pictures(driven, address, pictures)
    return wrong
