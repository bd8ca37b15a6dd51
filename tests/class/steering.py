"""Checks how one moves in the story's page: keys, buttons, slider, chapters, playing, focus, paper; and that the page fetches nothing."""
import time

STEP = "return Number(at('slider').value)"
# The controls in the order in which Tab comes to them, where the page is at its second step.
ORDER = ["chapter", "told", "shown", "first", "chapterback", "back", "play", "next", "chapternext", "last", "slider", "speed", "help"]
FOCUS = "const found = document.activeElement; return [found.id, getComputedStyle(found).outlineStyle];"
PRINTED = """const all = what => [...document.querySelectorAll('#printed ' + what)].map(found => found.textContent);
return [all('.line'), all('.answer'), all('h2'), all('.reading'), all('.point').length + all('.gap').length];"""
BLOCKED = """const found = document.createElement('script'); found.textContent = 'window.ran = true'; document.body.append(found); found.remove();
return window.ran || false;"""


class Wrong(list):
    """What is wrong; each thing that is looked at is counted."""
    count = 0

    def same(self, what, found, right):
        """Notes where something is not as it must be."""
        self.count += 1
        if found != right:
            self.append(f"{what}: {found!r}, not {right!r}")


def keys(browser, wrong, steps, chapters):
    """Each key, from a fresh page."""
    moves = [(("ArrowRight",), 2), (("ArrowRight", "ArrowRight"), 4), (("ArrowLeft",), 3), (("End",), steps), (("ArrowRight",), steps), (("Home",), 1),
             (("ArrowLeft",), 1), (("PageDown",), chapters[1]), (("PageDown",), chapters[2]), (("ArrowRight", "PageUp"), chapters[2]),
             (("PageUp",), chapters[1]), (("PageUp", "PageUp", "PageUp"), 1), (("End", "PageDown"), steps), (("PageUp",), chapters[-1])]
    for pressed, step in moves:
        browser.press(*pressed)
        wrong.same(f"the step behind {' '.join(pressed)}", browser.run(STEP), step)


def helped(browser, wrong):
    """The list of keys comes and goes; while it is there, other keys rest."""
    browser.press("Home", "?")
    wrong.same("the list of keys behind ?", browser.run("return at('keys').open"), True)
    browser.press("ArrowRight")
    wrong.same("the step while the keys are shown", browser.run(STEP), 1)
    browser.press("Escape")
    wrong.same("the list of keys behind Escape", browser.run("return at('keys').open"), False)


def focus(browser, wrong):
    """Tab comes to every control, each with a frame that is seen; a key on the slider moves by one step, and a button obeys Space."""
    browser.press("Home", "ArrowRight")
    for control in ORDER:
        browser.press("Tab")
        wrong.same("the control behind Tab, and its frame", browser.run(FOCUS), [control, "solid"])
    browser.run("at('slider').focus()")
    browser.press("ArrowRight")
    wrong.same("the step behind Right on the slider", browser.run(STEP), 3)
    browser.run("at('back').focus()")
    browser.press(" ")
    wrong.same("the step behind Space on Back", browser.run(STEP), 2)
    browser.run("document.activeElement.blur()")


def chosen(browser, wrong, chapters):
    """The slider and the list of chapters."""
    browser.run("at('slider').value = 20; at('slider').dispatchEvent(new Event('input'))")
    wrong.same("the step behind the slider", [browser.run(STEP), browser.run("return at('position').textContent.split(' ')[1]")], [20, "20"])
    for number, step in enumerate(chapters):
        browser.run("at('chapter').value = arguments[0]; at('chapter').dispatchEvent(new Event('change'))", str(number))
        wrong.same("the step behind a chapter", browser.run(STEP), step)


def played(browser, wrong, steps):
    """Space plays and stops, and playing ends at the last step."""
    browser.run("at('speed').value = '0.2'")
    browser.press("Home", " ")
    end = time.monotonic() + 10
    while browser.run(STEP) < 2 and time.monotonic() < end:
        time.sleep(0.05)
    wrong.same("whether it plays", browser.run("return [at('play').textContent, now > 0]"), ["Stop", True])
    browser.press(" ")
    step = browser.run(STEP)
    time.sleep(0.7)
    wrong.same("the step while it does not play", [browser.run(STEP), browser.run("return at('play').textContent")], [step, "Play"])
    browser.run("show(steps.length - 2); at('play').click()")
    end = time.monotonic() + 10
    while browser.run("return at('play').textContent") == "Stop" and time.monotonic() < end:
        time.sleep(0.05)
    wrong.same("where playing ends", browser.run(STEP), steps)


def on_paper(browser, wrong, wanted):
    """All steps are printed with their answers, and nothing of them stays in the page."""
    browser.run("window.addEventListener('beforeprint', () => { window.printing = at('printed').childElementCount })")
    wrong.same("a PDF", browser.printed()[:5], b"%PDF-")
    wrong.same("whether the printer gets all steps", browser.run("return window.printing >= steps.length"), True)
    wrong.same("what stays in the page", browser.run("return at('printed').childElementCount"), 0)
    lines, answers, chapters, readings, marks = browser.run("print();" + PRINTED)
    browser.run("at('printed').replaceChildren()")
    wrong.same("the printed lines", lines, [f"{step.line}{' (put in)' if step.put else ''}  {step.command}" for step in wanted])
    wrong.same("the printed answers", answers, [answer for step in wanted for answer in step.answers])
    wrong.same("the printed chapters", len(chapters), browser.run("return chapters.length"))
    wrong.same("the printed readings", readings, [text for step in wanted for _, _, text in step.records])
    wrong.same("the printed points and gaps", marks, browser.run("return plots.reduce((sum, plot) => sum + plot.records.length, 0)"))


def fetched(browser, wrong):
    """Nothing is fetched, and the policy of the page lets no other script run."""
    policy = "return document.querySelector('meta[http-equiv]').content"
    wrong.same("the policy", browser.run(policy).split(";")[0], "default-src 'none'")
    wrong.same("what the page fetched", browser.run("return performance.getEntriesByType('resource').map(each => each.name)"), [])
    asked = [entry["message"] for entry in browser.log("performance") if "Network.requestWillBeSent" in entry["message"]]
    wrong.same("what the browser asked for", [text for text in asked if '"url":"file://' not in text and '"url":"about:' not in text], [])
    wrong.same("what the browser complained of", [entry["message"] for entry in browser.log("browser")], [])
    wrong.same("whether a script that was put in runs", browser.run(BLOCKED), False)
    browser.log("browser")


def steered(browser, page, wanted):
    """All of it on one page: what is wrong, and how much was looked at."""
    browser.log("performance")
    browser.open(page)
    wrong, steps = Wrong(), len(wanted)
    chapters = browser.run("return chapters.map(each => each.step + 1)")
    keys(browser, wrong, steps, chapters)
    helped(browser, wrong)
    focus(browser, wrong)
    chosen(browser, wrong, chapters)
    played(browser, wrong, steps)
    on_paper(browser, wrong, wanted)
    fetched(browser, wrong)
    return list(wrong), f"{wrong.count} things of keys, focus, paper and fetching"
