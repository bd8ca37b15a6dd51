"""A log with its answers, to be read: each line with its number, its answers indented under it, a refusal's words beside its number."""
import re

from exchange import exchanged
from refusals import WORDS

REFUSED = re.compile(r"^refused (\d+)")


def explained(answer):
    """An answer, with a refusal's words in brackets behind its number."""
    found = REFUSED.match(answer)
    if not found or int(found[1]) not in WORDS:
        return answer
    return f"{found[0]} ({WORDS[int(found[1])]}){answer[found.end():]}"


def shown(log, answers, numbers=None, mark=""):
    """The octets that are shown. A line that has the number of the one before it was put in, and has a + for it; a mark stands before each answer."""
    numbers, under = numbers or range(1, len(log) + 1), {at: found for at, _, found in exchanged(log, answers)}
    width, found, before = len(str(max(numbers, default=0))), [], None
    for at, (number, line) in enumerate(zip(numbers, log), 1):
        found.append(f"{'+' if number == before else number:>{width}}" + (f"  {line}" if line else ""))
        found += [f"{'':{width}}      {mark}{explained(answer)}" for answer in under.get(at, ())]
        before = number
    return "".join(f"{line}\n" for line in found).encode("latin-1")
