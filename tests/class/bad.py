"""Checks what is said of input that is no good log: in words, with no page or on the page, and never with a number that nobody sent."""
import random

from own_name import own_name
from pages import ROOT, STORY, asked, page_of

STATION = b"""netkey 7dd7364cd842ad18c17c2b820c84c3d6
appkey 0 63964771734fbd76e3b40519d1d94a48
elements 1 40
ivindex 12345678 0
property 76 humidity
setup
"""
SEGMENT = b"hear 68d86fe01a41312bb5f3cd1e2bf4d54e82e51cdadb9d1e416ac422b14c\n"
READING = b"hear 689e66e4b59f5fb5507385acedf1950e137dd4aa35170f\n"
EVIL = "# <!--<script ></script ><script>window.ran = 1</script><img src=x onerror='window.ran = 1'> \u6c17 \u00b0\n".encode()
# What a page says on all its steps, which readings it shows, and whether a script ran that is not its own.
WHOLE = """const found = [], marks = new Set();
for (let index = 0; index < steps.length; index += 1) {
  show(index);
  found.push(document.querySelector('main').innerText);
  for (const mark of document.querySelector('main').querySelectorAll('.reading, .point, .gap')) marks.add(mark.textContent);
}
return [found.join('\\n'), [...marks], window.ran || false];"""
# The log, words that the page must have, and all readings that it may have.
PAGES = {
    "no setup": (SEGMENT + READING, ("No receiver was set up", "2 lines are unread (1 to 2)", "needs a receiver"), []),
    "a refused setup": (b"group ff05\nsetup\n" + SEGMENT, ("No receiver was set up", "refused 14", "the setup before it was refused"), []),
    "rubbish": (random.Random(1).randbytes(4000), ("The console reads none of the", "no log of the console"), []),
    "unread lines": (STATION + b"Hear 68\nhear 6\nreadings 52c20ec01\n" + READING,
                     ("1 line is unread (7)", "an odd number of hex digits", "unread: a word with capital letters", "1 Sensor Status message without asking"),
                     ["48.00 %"]),
    "a capture cut in a message": (STATION + SEGMENT,
                                   ("The log ends here, and 0201, message 000a10 is not complete: place 0 came", "how many more is not known"), []),
    "a capture cut in a line": (STATION + SEGMENT + READING[:-8], ("unread: an odd number of hex digits", "The log ends here"), []),
    "a cut status": (STATION + b"readings 52c20ec0\n", ("refused 20", "the list of a Sensor Status message ends inside a header or a value"), []),
    "written by hand": (STATION + b"readings 52c20ec012\n", ("Nobody sent this message",), ["48.00 %"]),
    "vetted and read": (STATION + b"vet 0 c000000052c20ec012\nreadings 52c20ec012\nvet 0 c000000152c20ec012\nvet 0\n",
                        ("approved: an access message of 5 octets", "Nobody sent this message", "refused 26: ", ", at place 0; 1 PDU vetted, not heard",
                         "refused 27: "), ["48.00 %"]),
    "not known": (STATION + b"readings 52c20effffc20e3c86\n", ("not known", "prohibited"), ["not known", "prohibited"]),
    "a byte order mark and carriage returns": (b"\xef\xbb\xbf" + (STATION + READING).replace(b"\n", b"\r\n"),
                                               ("Taken off the log: a byte order mark", "carriage returns at line ends, 7 of them"), ["48.00 %"]),
    "marks of a page": (EVIL + EVIL.replace(b"#", b"# 1.") + STATION + EVIL + b"</script>" + EVIL[1:] + EVIL.replace(b"#", b"# box 0201:") + SEGMENT,
                        ("<img src=x onerror='window.ran = 1'>", "</script> <!--<script ></script ><script>window.ran"), []),
    "a line that is too long": (STATION + b"hear " + b"68" * 5000 + b"\n" + READING, ("octets more", "more than 4,095 octets"), ["48.00 %"]),
}
# Logs that have no page.
NONE = {"empty": b"", "one empty line": b"\n", "comments alone": b"# 1. Nothing\n\n# box 0201: lamp\n", "a mark alone": b"\xef\xbb\xbf"}


def shown(browser, folder):
    """The pages of bad logs."""
    wrong = []
    for name, (octets, words, marks) in PAGES.items():
        log = folder / f"{name}.log"
        log.write_bytes(octets)
        browser.open(page_of(log, folder))
        text, found, ran = browser.run(WHOLE)
        wrong += [f"{name}: the page does not say {word!r}" for word in words if word not in text]
        wrong += [f"{name}: the page shows {found}, not {marks}"] if sorted(found) != sorted(marks) else []
        wrong += [f"{name}: a script of the log ran"] if ran else []
    complaints = [entry["message"] for entry in browser.log("browser")]
    return wrong + [f"the browser complains: {text}" for text in complaints], f"{len(PAGES)} bad logs with a page"


def refused(_, folder):
    """Input of which there is no page: one line says so, and the status is 2."""
    wrong, cases = [], {"two logs": ("a", "b"), "an option": ("--help",), "no file": (str(folder / "none.log"),), "a folder": (str(folder),)}
    for name, octets in NONE.items():
        log = folder / f"{name}.log"
        log.write_bytes(octets)
        cases[name] = (str(log),)
    for name, arguments in cases.items():
        status, said, fault = asked(*arguments)
        if status != 2 or said or fault.count("\n") != 1 or "Traceback" in fault:
            wrong.append(f"{name}: status {status}, {said!r}, {fault!r}")
    return wrong, f"{len(cases)} inputs without one"


def named(_, folder):
    """Each log has a page of its own: another log of the same name gets another, and the same log the same again."""
    logs = [folder / side / "one.log" for side in ("here", "there")]
    for log in logs:
        log.parent.mkdir()
        log.write_bytes(STATION)
    pages = [own_name(log, folder / "pages", ".html") for log in logs + logs]
    right = [folder / "pages" / name for name in ("one.log.html", "one.log-2.html")] * 2
    wrong = [f"the pages of two logs are {pages}"] if pages != right else []
    before = STORY.read_bytes()
    status, said, _ = asked(own=True)
    if status or said != f"The page of it: {ROOT / 'target' / 'class.html'}\n" or STORY.read_bytes() != before:
        wrong.append(f"bin/class without a log: status {status}, {said!r}")
    return wrong, "5 names"
