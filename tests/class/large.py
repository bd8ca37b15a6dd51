"""Checks the page of a long log: it is there soon, and a step takes no time that one sees."""
from pages import STORY, page_of

LINES, LOADED, STEP, WORST, ELEMENTS = 10_000, 3000, 50, 250, 2500
# Steps of one page: how long each took, with the page laid out behind it, and how many elements there were at most.
TIMED = """let most = 0;
const took = [];
for (const far of [0, 1000, 2500, 5000, 7500, steps.length - 60]) {
  show(far);
  for (let count = 0; count < 50; count += 1) {
    const before = performance.now();
    at('next').click();
    at('shown').getBoundingClientRect();
    took.push(performance.now() - before);
    most = Math.max(most, document.getElementsByTagName('*').length);
  }
}
print();
const printed = at('printed').querySelectorAll('.step').length, warned = at('printed').querySelector('.warn').textContent;
took.sort((one, other) => one - other);
return [performance.getEntriesByType('navigation')[0].loadEventEnd, took[took.length >> 1], took[took.length - 1], most, steps.length,
  printed, warned];"""
PAPER, WARNED = 2000, "Printed are the steps"


def loaded(browser, folder):
    """What is wrong with the page of the story told again and again, and its figures in words."""
    lines = STORY.read_bytes().splitlines(keepends=True)
    spoken = [line for line in lines if line.strip() and not line.startswith(b"#")]
    log = folder / "large.log"
    log.write_bytes(b"".join(lines + spoken * (LINES // len(spoken) + 1)))
    browser.open(page_of(log, folder))
    load, step, worst, most, steps, printed, warned = browser.run(TIMED)
    figures = (("its load in ms", load, LOADED), ("a step in ms", step, STEP), ("the longest step in ms", worst, WORST), ("its elements", most, ELEMENTS))
    wrong = [f"the long log: {what} is {found:.0f}, not below {limit}" for what, found, limit in figures if found >= limit]
    wrong += [] if steps > LINES else [f"the long log has only {steps} steps"]
    wrong += [] if printed <= PAPER and warned.startswith(WARNED) else [f"the long log prints {printed} steps and says {warned!r}"]
    return wrong, f"a page of {steps:,} steps is there in {load:.0f} ms and a step takes {step:.1f} ms"
