"""Goes through a page in the browser, forwards and backwards, and compares each step with what it must show."""
import re

from expected import visible, wanted

# What one step shows, as it stands in the page.
SEEN = """
const all = (what, from = document) => [...from.querySelectorAll(what)], text = found => found.textContent;
const kinds = found => all('.place', found).map(place => place.classList[1]);
function seen() {
  return { where: text(at('where')), kind: text(at('kind')), words: text(at('words')), sentence: text(at('sentence')), command: text(at('command')),
    answers: all('#answers p').map(text), said: all('#said p').map(text).join(' '), forwarded: text(at('forwarded')),
    messages: all('main .message').map(found => ({ own: found.classList.contains('own'), who: text(found.querySelector('b')), state: text(found),
      places: kinds(found) })),
    readings: all('main .reading').map(found => [found.classList[1], text(found)]), unheard: all('main .unheard').length,
    plots: all('main .plot').map(found => ({ head: text(found.querySelector('h3')), label: found.lastElementChild.getAttribute('aria-label'),
      marks: all('.point, .gap', found).map(mark => [mark.classList[0] === 'point' ? 'value' : mark.classList[1], text(mark)]) })),
    holes: all('main .place.missing').map(found => getComputedStyle(found).borderTopStyle), wide: document.documentElement.scrollWidth };
}
"""
FORTH = SEEN + "const found = [seen()]; while (!at('next').disabled) { at('next').click(); found.push(seen()); } return found;"
BACK = SEEN + "const found = [seen()]; while (!at('back').disabled) { at('back').click(); found.push(seen()); } return found.reverse();"
WIDE = 1280


def told_apart(step, shown, sentences):
    """What is wrong with the texts of a step."""
    where = f"put in behind line {step.line}" if step.put else f"line {step.line}"
    pairs = [("number", shown["where"], where), ("line", shown["command"], visible(step.command)), ("answers", shown["answers"], step.answers),
             ("narration", shown["said"], step.said), ("forwarded PDU", shown["forwarded"], step.forwarded and f"forwarded: {step.forwarded}"),
             ("sentence", shown["sentence"], sentences[step.refused] if step.refused else "")]
    if step.refused:
        pairs += [("kind", shown["kind"], f"refused {step.refused}"), ("refusal in words", f"refused {step.refused}: " in shown["words"], True)]
    if step.src:
        pairs += [("source in words", step.src in shown["words"], True), ("forwarding in words", "forwarded" in shown["words"], bool(step.forwarded))]
    if step.is_vetted:
        fault = re.fullmatch(r"refused 26 at (\w+)", step.answers[0])
        pairs += [("verdict", shown["kind"], f"refused {step.refused}" if step.refused else "vetted: approved"),
                  ("word that nothing was heard", shown["words"].endswith(" vetted, not heard"), True),
                  ("place in words", f", at place {int(fault[1], 16)};" in shown["words"] if fault else "at place" in shown["words"], bool(fault))]
    if step.answers == ["unread"]:
        pairs += [("kind", shown["kind"], "unread"), ("reason", shown["words"].startswith("unread: "), True)]
    return [f"the {what} is {found!r}, not {right!r}" for what, found, right in pairs if found != right]


def filled(message):
    """The places of a message in the page that are no holes."""
    return {number for number, kind in enumerate(message["places"]) if kind != "missing"}


def placed(step, shown):
    """What is wrong with the places of the messages in a step."""
    own, wrong = [message for message in shown["messages"] if message["own"]], []
    if step.filled is not None and [filled(message) for message in own] != [step.filled]:
        wrong.append(f"the places filled are {[filled(message) for message in own]}, not {step.filled}")
    for kind, right in (("new", step.new), ("again", step.again), ("named", step.filled if step.is_acknowledgement else None)):
        found = {number for message in own for number, each in enumerate(message["places"]) if each == kind}
        if right is not None and found != right:
            wrong.append(f"the places marked {kind} are {found}, not {right}")
    if step.sessions is not None:
        found = {message["who"].rpartition("(")[2].strip(")"): filled(message) for message in shown["messages"] if "session open" in message["state"]}
        if found != step.sessions:
            wrong.append(f"the open sessions are {found}, not {step.sessions}")
    if step.is_vetted and own:
        wrong.append("a list that was vetted is shown as a message that comes")
    if set(shown["holes"]) - {"dashed"}:
        wrong.append("a hole has no dashed frame")
    return wrong


def read(step, shown):
    """What is wrong with the readings and the plots of a step: each text is the console's, and what is no number has no digit."""
    wrong = []
    if [tuple(each) for each in shown["readings"]] != [(kind, text) for _, kind, text in step.records]:
        wrong.append(f"the readings are {shown['readings']}, not {step.records}")
    if bool(shown["unheard"]) != (step.unheard and bool(step.records)):
        wrong.append(f"the message is {'' if shown['unheard'] else 'not '}marked as one that nobody sent")
    found = {tuple(plot["head"].split(" (")[0].replace(", property", "").split()): [tuple(mark) for mark in plot["marks"]] for plot in shown["plots"]}
    right = {(name, of): records for (of, name), records in step.plots.items()}
    if found != right:
        wrong.append(f"the plots are {found}, not {right}")
    for plot in shown["plots"]:
        if plot["label"] != ", ".join(text for _, text in plot["marks"]):
            wrong.append(f"a plot is called {plot['label']}, and shows {plot['marks']}")
    marks = shown["readings"] + [mark for plot in shown["plots"] for mark in plot["marks"]]
    wrong += [f"{kind} shows {text}" for kind, text in marks if kind in ("unknown", "prohibited") and any(map(str.isdigit, text))]
    return wrong


def compared(steps, shown, sentences):
    """What is wrong with a page, with the number of the line that it is about."""
    if len(steps) != len(shown):
        return [f"there are {len(shown)} steps, not {len(steps)}"]
    wrong = []
    for step, each in zip(steps, shown):
        found = told_apart(step, each, sentences) + placed(step, each) + read(step, each)
        found += ["the page is wider than the screen"] if each["wide"] > WIDE else []
        wrong += [f"line {step.line}: {text}" for text in found]
    return wrong


def walked(browser, page, log, answers, numbers, sentences):
    """Goes through one page: what is wrong, and the steps that it must have."""
    steps = wanted(log, answers, numbers)
    browser.open(page)
    forth = browser.run(FORTH)
    wrong = compared(steps, forth, sentences)
    if browser.run(BACK) != forth:
        wrong.append("backwards it shows something else than forwards")
    return wrong, steps
