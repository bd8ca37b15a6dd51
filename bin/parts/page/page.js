// Goes through the steps of a log: forwards and backwards, by keys, buttons and a slider, or by itself. Only the step that is looked at is in the page.
"use strict";

const data = JSON.parse(document.getElementById("data").textContent);
const { steps, chapters, plots } = data;
const WHAT = { n: "new", f: "filled", m: "missing", a: "again", d: "named", w: "whole" };
// What stands under a place's number, and what the list of marks says of it.
const WORD = { new: "new", filled: "came", missing: "hole", again: "again", named: "named", whole: "whole" };
const MEANS = { new: "comes with this PDU", filled: "came before", missing: "a hole: missing", again: "repeated: nothing new",
  named: "named by an acknowledgement", whole: "handed up" };
const KIND = { stored: "stored", handed: "handed up", repeat: "repeat", acknowledging: "acknowledgement sent", acknowledged: "acknowledgement heard",
  readings: "readings", vetted: "vetted: approved", unread: "unread" };
// The marks of what was read.
const READ = [["value", "a number", "with its unit, as the box wrote it"], ["unknown", "not known", "the box itself says so: a gap in the plot"],
  ["prohibited", "prohibited", "no box may write this: a gap in the plot"], ["raw", "raw", "octets of a property that nobody has named: not plotted"]];
// A plot shows so many records. A sender's sign is one of these forms, in one of so many colours.
const WINDOW = 12, COLOURS = 5, SIGNS = ["M-5 -5h10v10h-10z", "M0 -6l6 11h-12z", "M0 -7l6 7l-6 7l-6 -7z", "M0 6l6 -11h-12z",
  "M-6 0a6 6 0 1 0 12 0a6 6 0 1 0 -12 0z", "M-2 -6h4v4h4v4h-4v4h-4v-4h-4v-4h4z", "M-7 -3h14v6h-14z", "M-3 -7h6v14h-6z", "M-6 -6h12l-12 12h12z",
  "M-6 -6v12l12 -12v12z", "M-5 -6l11 6l-11 6z", "M5 -6l-11 6l11 6z"];
const WIDE = 720, HIGH = 162, TOP = 46, BOTTOM = 148;
// Paper gets so many steps at most.
const PAPER = 2000;
// Playing shows a step for so many milliseconds at least and at most, and for so many for each letter of it.
const LEAST = 2500, MOST = 20000, LETTER = 45;

const at = id => document.getElementById(id);
let now = -1, timer = 0;

// An element with a class and what is inside; text stays text.
function made(tag, style, ...inside) {
  const found = document.createElement(tag);
  if (style) found.className = style;
  found.append(...inside);
  return found;
}

// An element of a drawing, with its attributes.
function drawn(tag, attributes, ...inside) {
  const found = document.createElementNS("http://www.w3.org/2000/svg", tag);
  for (const [name, value] of Object.entries(attributes)) found.setAttribute(name, value);
  found.append(...inside);
  return found;
}

// A box by its name and address.
function called(src) {
  const name = data.boxes[src];
  return src === "own" ? name : name ? `${name} (${src})` : src;
}

// The tag over a step's words: what became of it, or the line's own word.
function kindOf(step) {
  return step.refused ? `refused ${step.refused}` : KIND[step.kind] || step.command.split(" ")[0];
}

// A place of a message, with its number and a word.
function place(kind, number) {
  const found = made("li", `place ${kind}`, String(number), made("span", "what", WORD[kind]));
  found.title = MEANS[kind];
  return found;
}

// A message: whose it is, and each of its places; behind them, where the number of its segments is not known, that there may be more.
function message(each) {
  const places = made("ul", "places", ...[...each.places].map((letter, number) => place(WHAT[letter], number)));
  if (each.more) places.append(made("li", "more", each.own ? "how many more is not known" : "more?"));
  const head = made("div", "head", made("b", "", called(each.src)));
  if (each.auth) head.append(made("span", "", `message ${each.auth}`));
  if (each.state) head.append(made("span", "state", each.state));
  return made("div", each.own ? "message own" : "message", head, places);
}

// The messages of a step: those of open sessions, and the one that the line is about.
function messages(step) {
  return step.messages ? [made("h3", "", "Messages in segments"), ...step.messages.map(message)] : [];
}

// A record: its place in the list and its property, and apart from these what it says.
function record(cell, number) {
  const of = cell.name ? `${number + 1}. ${cell.name} ${cell.property}` : `${number + 1}. ${cell.property}`;
  return made("li", "record", made("span", "of", of), made("span", `reading ${cell.kind}`, cell.unit ? `${cell.words} ${cell.unit}` : cell.words));
}

// What the line read, record by record; a message that nobody sent is marked.
function readings(step) {
  if (!step.cells) return [];
  const found = [made("h3", "", "Readings of this line")];
  if (step.unheard) found.push(made("p", "warn", "Nobody sent this message: it was written by hand. It is in no plot."));
  found.push(made("ul", step.unheard ? "records unheard" : "records", ...step.cells.map(record)));
  return found;
}

// The senders of a plot, each with a number for its sign.
function numbered(plot) {
  plot.senders = new Map();
  for (const [, src] of plot.records) if (!plot.senders.has(src)) plot.senders.set(src, plot.senders.size);
}

// The sign of a sender in a plot, at a place of the drawing.
function sign(plot, src, x, y) {
  const number = plot.senders.get(src), form = number % SIGNS.length, colour = (number + Math.floor(number / SIGNS.length)) % COLOURS;
  return drawn("path", { class: `sign s${colour}`, d: SIGNS[form], transform: `translate(${x} ${y})` });
}

// How many of a plot's records are heard up to a step: they stand in the order of their steps.
function heard(records, step) {
  let low = 0, high = records.length;
  while (low < high) {
    const middle = (low + high) >> 1;
    if (records[middle][0] <= step) low = middle + 1; else high = middle;
  }
  return low;
}

// Where a value stands: only the picture's height is reckoned with the number, what is written is the console's own text.
function heights(shown) {
  const values = shown.filter(each => each[2] === "value").map(each => Number(each[3]));
  const low = Math.min(...values), high = Math.max(...values);
  return text => high > low ? BOTTOM - (Number(text) - low) / (high - low) * (BOTTOM - TOP) : (TOP + BOTTOM) / 2;
}

// A number: its sender's sign, with the value as the console wrote it and its unit over it.
function point(plot, each, x, y, isNow) {
  const text = drawn("text", { x, y: y - 25 }, each[3], drawn("tspan", { class: "unit", x, dy: 14 }, ` ${plot.unit}`));
  return drawn("g", { class: isNow ? "point now" : "point" }, sign(plot, each[1], x, y), text);
}

// A record that is no number: an empty frame over the whole height, with its word. No sign stands there that could be taken for a point.
function gap(each, x, wide, isNow) {
  const middle = HIGH / 2;
  return drawn("g", { class: `gap ${each[2]}${isNow ? " now" : ""}` },
    drawn("rect", { x: x - wide / 2 + 9, y: 6, width: wide - 18, height: HIGH - 12 }),
    drawn("text", { x, y: middle, transform: `rotate(-90 ${x} ${middle})`, dy: 6 }, each[3]));
}

// The records from one to another as a drawing: a point for each number, a gap with its word for each that is none, and no line across a gap.
function drawing(plot, from, to, step) {
  const shown = plot.records.slice(from, to), height = heights(shown), wide = WIDE / WINDOW, last = new Map();
  const svg = drawn("svg", { viewBox: `0 0 ${WIDE} ${HIGH}`, role: "img" }), threads = [], marks = [];
  shown.forEach((each, index) => {
    const x = (index + .5) * wide, isNow = each[0] === step, y = each[2] === "value" ? height(each[3]) : null;
    const before = last.get(each[1]);
    if (y !== null && before) threads.push(drawn("line", { class: "thread", x1: before[0], y1: before[1], x2: x, y2: y }));
    last.set(each[1], y === null ? null : [x, y]);
    marks.push(y === null ? gap(each, x, wide, isNow) : point(plot, each, x, y, isNow));
  });
  svg.setAttribute("aria-label", shown.map(each => each[2] === "value" ? `${each[3]} ${plot.unit}` : each[3]).join(", "));
  svg.append(...threads, ...marks);
  return svg;
}

// One plot, with who sent what.
function plotted(plot, from, to, step) {
  const whose = [...new Set(plot.records.slice(from, to).map(each => each[1]))];
  const names = whose.map(src => made("li", "", drawn("svg", { viewBox: "-9 -9 18 18" }, sign(plot, src, 0, 0)), ` ${called(src)}`));
  const count = to - from === 1 ? `(record ${to})` : `(records ${from + 1} to ${to})`;
  const head = made("h3", "", `${plot.name}, property ${plot.property} `, made("span", "", count));
  return made("div", "plot", made("div", "top", head, made("ul", "senders", ...names)), drawing(plot, from, to, step));
}

// The plots behind a step: those of the properties that it reads first.
function allPlots(step) {
  const found = [];
  for (const plot of plots) {
    const to = heard(plot.records, step);
    if (to) found.push([plot.records[to - 1][0] === step ? 0 : 1, plotted(plot, Math.max(0, to - WINDOW), to, step)]);
  }
  return found.sort((one, other) => one[0] - other[0]).map(each => each[1]);
}

// The boxes by name, where there is nothing else to look at.
function boxes() {
  const named = Object.keys(data.boxes).filter(src => src !== "own").sort();
  return named.length ? [made("h3", "", "The boxes"), made("ul", "", ...named.map(src => made("li", "", called(src))))] : [];
}

// A paragraph for each text.
function lines(texts) {
  return texts.map(text => made("p", "", text));
}

// What there is to say about the whole log, at its first step.
function about(index) {
  return index === 0 && data.notes.length ? [made("h3", "", "About this log"), ...lines(data.notes)] : [];
}

// What there is to say about its end, at the last step.
function ending(index) {
  return index === steps.length - 1 && data.after.length ? [made("h3", "", "At the end"), ...lines(data.after)] : [];
}

// The line's number in the log.
function where(step) {
  return step.put ? `put in behind line ${step.line}` : `line ${step.line}`;
}

// Puts one step into the page.
function show(index) {
  index = Math.max(0, Math.min(steps.length - 1, index));
  if (index === now) return;
  now = index;
  const step = steps[now], said = step.said || [];
  at("kind").className = step.refused ? "refused" : step.kind;
  at("kind").textContent = kindOf(step);
  at("where").textContent = where(step);
  at("words").textContent = step.words;
  at("sentence").textContent = step.refused ? data.sentences[step.refused] || "" : "";
  at("said").className = said.join("").length > 600 ? "long" : "";
  at("said").replaceChildren(...lines(said));
  at("command").textContent = step.command;
  at("answers").replaceChildren(...lines(step.answers));
  at("forwarded").textContent = step.forwarded ? `forwarded: ${step.forwarded}` : "";
  at("about").replaceChildren(...about(now));
  at("ending").replaceChildren(...ending(now));
  look(step);
  steer(step);
}

// The right half: what is read, messages, plots.
function look(step) {
  const found = messages(step), pictures = allPlots(now), read = readings(step);
  at("readings").replaceChildren(...read);
  at("messages").replaceChildren(...found);
  at("plots").replaceChildren(...pictures);
  at("boxes").replaceChildren(...(found.length || pictures.length || read.length ? [] : boxes()));
  at("messages").style.order = read.length ? 2 : 0;
  at("plots").style.order = 1;
  at("told").scrollTop = at("shown").scrollTop = 0;
}

// Buttons, slider and chapters as they are at a step.
function steer(step) {
  at("slider").value = now + 1;
  at("slider").setAttribute("aria-valuetext", `step ${now + 1} of ${steps.length}, ${where(step)}`);
  at("position").textContent = `step ${now + 1} of ${steps.length}`;
  at("chapter").value = String(step.chapter);
  for (const id of ["first", "chapterback", "back"]) at(id).disabled = now === 0;
  for (const id of ["next", "last"]) at(id).disabled = now === steps.length - 1;
  at("chapternext").disabled = step.chapter >= chapters.length - 1;
}

// The beginning of this chapter, or of the one before where the step is at the beginning.
function chapterBack() {
  const before = chapters.filter(each => each.step < now);
  show(before.length ? before[before.length - 1].step : 0);
}

// The beginning of the next chapter, where there is one.
function chapterNext() {
  const next = chapters.find(each => each.step > now);
  if (next) show(next.step);
}

// Plays from this step on, or stops: the next step comes when this one can be read.
function playing(on) {
  clearTimeout(timer);
  timer = 0;
  at("play").setAttribute("aria-pressed", String(on));
  at("play").textContent = on ? "Stop" : "Play";
  if (!on) return;
  const step = steps[now], letters = step.words.length + (step.said || []).join("").length;
  timer = setTimeout(() => {
    show(now + 1);
    playing(now < steps.length - 1);
  }, Math.min(MOST, Math.max(LEAST, letters * LETTER)) * Number(at("speed").value));
}

// Plays or stops; at the end it plays from the beginning.
function play() {
  if (!timer && now === steps.length - 1) show(0);
  playing(!timer);
}

// A step that the reader takes: playing goes on from there.
function go(move) {
  move();
  if (timer) playing(now < steps.length - 1);
}

const ACTS = { first: () => show(0), chapterback: chapterBack, back: () => show(now - 1), next: () => show(now + 1), chapternext: chapterNext,
  last: () => show(steps.length - 1) };
const KEYS = { Home: "first", PageUp: "chapterback", ArrowLeft: "back", ArrowRight: "next", PageDown: "chapternext", End: "last" };

// Shows the list of keys, or takes it away.
function help() {
  if (at("keys").open) at("keys").close(); else at("keys").showModal();
}

// A key that has a meaning here; in a list to choose from, and on a button, keys mean what they always do.
function pressed(event) {
  if (event.ctrlKey || event.altKey || event.metaKey) return;
  if (event.key === "?") help();
  else if (at("keys").open || event.target.tagName === "SELECT") return;
  else if (KEYS[event.key]) go(ACTS[KEYS[event.key]]);
  else if (event.key === " " && event.target.tagName !== "BUTTON") play();
  else return;
  event.preventDefault();
}

// A step on paper.
function printedStep(step, index) {
  const found = made("div", "step", ...about(index));
  found.append(...lines(step.said || []), made("p", "line", `${step.line}${step.put ? " (put in)" : ""}  ${step.command}`));
  found.append(...step.answers.map(text => made("p", "answer", text)), made("p", "words", step.words));
  if (step.refused) found.append(made("p", "", `refused ${step.refused}: ${data.sentences[step.refused] || ""}`));
  found.append(...(step.messages || []).filter(each => each.own).map(message), ...readings(step), ...ending(index));
  return found;
}

// All steps, and all records of each plot, for the printer alone; of a long log as many as paper is good for, from this step on.
function print() {
  const from = steps.length > PAPER ? now : 0, to = Math.min(steps.length, from + PAPER), found = [made("h1", "", data.title), ...boxes()];
  if (to - from < steps.length) found.push(made("p", "warn", `Printed are the steps ${from + 1} to ${to} of ${steps.length}.`));
  for (let index = from; index < to; index += 1)
    found.push(...chapters.filter(each => each.step === index).map(each => made("h2", "", each.words)), printedStep(steps[index], index));
  for (const plot of plots) {
    const end = heard(plot.records, to - 1);
    for (let first = heard(plot.records, from - 1); first < end; first += WINDOW) found.push(plotted(plot, first, Math.min(first + WINDOW, end), -1));
  }
  at("printed").replaceChildren(...found);
}

// What each mark means.
function legend() {
  const places = Object.keys(MEANS).map((kind, number) => made("ul", "places own", place(kind, number), made("li", "", MEANS[kind])));
  const cells = READ.map(([kind, words, means]) => made("ul", "places", made("li", `reading ${kind}`, words), made("li", "", means)));
  return [...places, ...cells, made("p", "", "In a plot a full sign is of this line, an empty one of a line before. Each sender has a sign of its own.")];
}

// The step that the address names by its line, else the first.
function started() {
  const line = Number(location.hash.slice(1)) || 0;
  const found = steps.findIndex(step => step.line >= line);
  return found < 0 ? steps.length - 1 : found;
}

// Fills what stays, says what each control does, and shows the first step.
function start() {
  plots.forEach(numbered);
  at("title").textContent = data.title;
  at("slider").max = steps.length;
  at("chapter").append(...chapters.map((each, number) => new Option(each.words, String(number))));
  at("chaptered").hidden = !chapters.length;
  at("legend").append(...legend());
  for (const [id, move] of Object.entries(ACTS)) at(id).addEventListener("click", () => go(move));
  at("play").addEventListener("click", play);
  at("help").addEventListener("click", help);
  at("close").addEventListener("click", help);
  at("slider").addEventListener("input", () => go(() => show(Number(at("slider").value) - 1)));
  at("chapter").addEventListener("change", () => go(() => show(chapters[Number(at("chapter").value)].step)));
  at("speed").addEventListener("change", () => { if (timer) playing(true); });
  document.addEventListener("keydown", pressed);
  window.addEventListener("hashchange", () => go(() => show(started())));
  window.addEventListener("beforeprint", print);
  window.addEventListener("afterprint", () => at("printed").replaceChildren());
  show(started());
}

start();
