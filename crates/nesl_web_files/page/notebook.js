/** The notebook: the inputs that were run, each with its reply, and the field in which the next ones are written. */
import { announce, asked, button, find, make } from "./dom.js";
import { editorOf, painted } from "./editor.js";
import { inputsOf } from "./forms.js";
import { ownAnswer } from "./help.js";
import { book } from "./kept.js";
import { FAULTS, MOST, bytesOf, grouped, placesOf, readReply } from "./language.js";
import { ownNames } from "./left.js";
import { session } from "./session.js";

/**
 * @typedef {object} Cell
 * @property {string} form what is shown
 * @property {string} line what is sent: places in it are those in the form
 * @property {?string} [reply] null where none came, and nothing before the cell is run
 * @property {?string} [own] the answer of the page itself, where the session isn't asked
 * @property {object} [hint] a sentence on an error, with `span` and maybe `second`
 * @property {boolean} [isOlder] whether an input above was changed since
 */

const FOLDED = 360;
const KEPT = 3000;
const SPOKEN = 240;
const LOST = "The connection ended before a reply came. The input may have been carried out.";
const OTHER = "This session isn’t the one that answered what is shown here, or it was reset elsewhere.";
const GOES_ON = "The input goes on until its “;”. Ctrl-Enter runs it as it is.";
const NOTES = {
  ok: "There are only blanks and comments in it.",
  more: "The input goes on in what is sent next.",
  reset: "Names and lines are forgotten. The work that was used stays used.",
};
const EXAMPLES = ["2 * 3 + 1;", "sum(index(1000));", "{a * a : a in [1, 2, 3]};", "function twice(x) = 2 * x;",
  ":help"];

/** @type {Cell[]} */
let cells = [];
const items = new Map();
const field = find("field");
let editor = null;
let recalled = null;
let draft = "";
let isRunning = false;
let isStopped = false;
let isWhole = false;
let afterRun = () => {};
let seat = async () => session.seated;

/** Makes the notebook ready, with what is to be done after a run, and how a seat is taken that was lost. */
export function openNotebook(then, takeSeat) {
  afterRun = then;
  seat = takeSeat;
  editor = editorOf(field, { run: runField, changed: changedField, goesOn: () => tellField(GOES_ON), key: recall });
  find("say").addEventListener("submit", (event) => {
    event.preventDefault();
    if (isRunning) isStopped = true;
    else runField();
  });
  find("break").addEventListener("click", breakLine);
  find("again-all").addEventListener("click", () => runCells(cells));
  find("empty-book").addEventListener("click", emptyBook);
  find("examples").append(...EXAMPLES.map((form) => button("button.code", form, () => write(form))));
  session.addEventListener("hint", ({ detail }) => takeHint(detail));
  session.addEventListener("other", () => cells.some(({ reply }) => reply) && notice(OTHER, true));
  book.addEventListener("changed", () => isRunning || document.querySelector(".cell textarea") || showBook());
  book.addEventListener("kept", () => tellRoom());
}

/** Shows the cells that are kept, and the draft. */
export function showBook() {
  cells = book.words.cells ?? [];
  items.clear();
  find("cells").replaceChildren();
  cells.forEach(draw);
  if (!field.value && book.words.draft) editor.put(book.words.draft);
  drawState();
}

export const cellsShown = () => cells;

/** Puts a program into the field. */
export function write(program) {
  recalled = null;
  editor.put(program);
  field.focus();
}

/** Shows all of each value, as on paper, or what fits the screen. */
export function showWhole(whole) {
  isWhole = whole;
  cells.forEach(draw);
}

/** Tells something above the cells, maybe with a button that runs all again; nothing hides it. */
function notice(text, isOffered = false) {
  find("notice").hidden = !text;
  const acts = [button("button.quiet", "Hide", () => notice(""))];
  if (isOffered) acts.unshift(button("button", "Run all again", () => runCells(cells)));
  find("notice").replaceChildren(make("span", text), ...acts);
}

function tellRoom() {
  const text = "The browser has no room for all of this notebook. Save it as a file: what is new is lost with the tab.";
  notice(book.isKept ? "" : text);
}

window.addEventListener("beforeunload", (event) => {
  if (isRunning || !book.isKept) event.preventDefault();
});

async function emptyBook() {
  const sure = "Empty the notebook";
  const text = `The ${count(cells.length, "input")} shown here will be forgotten. What the session has bound stays.`;
  if ((await asked(text, [sure, "Keep it"])) !== sure) return;
  cells = [];
  book.keep({ cells });
  showBook();
  field.focus();
}

export const count = (number, noun) => `${grouped(number)} ${noun}${number === 1 ? "" : "s"}`;

function changedField() {
  recalled = null;
  tellField("");
  book.keep({ draft: field.value });
  find("stopping").hidden = !field.value.includes("\n") || inputsOf(field.value).length < 2;
}

function breakLine() {
  field.setRangeText("\n", field.selectionStart, field.selectionEnd, "end");
  field.dispatchEvent(new Event("input"));
  field.focus();
}

/** Tells below the field what is wrong, or nothing. */
export function tellField(text) {
  find("field-fault").textContent = text;
  return false;
}

/** Whether inputs can be run: there is a connection, and none is too long. */
async function isReady(inputs) {
  if (isRunning || !inputs.length) return false;
  if (inputs.some(({ line }) => bytesOf(line) > MOST)) return tellField(`Not run. ${FAULTS.long}`);
  return (await seat()) || tellField("There is no connection, so nothing was run.");
}

/** Runs the inputs in the field, each as a cell. What isn't run comes back into the field. */
async function runField() {
  const inputs = inputsOf(field.value);
  if (!(await isReady(inputs))) return;
  editor.put("");
  const left = await runEach(inputs, ({ form, line }) => add({ form, line }));
  if (left.length) editor.put([...left.map(({ form }) => form), field.value].join("\n").trimEnd());
  find("notebook").scrollIntoView({ block: "end" });
}

/** Runs cells again, each in its place. */
async function runCells(list) {
  if (!(await isReady(list))) return;
  notice("");
  const left = await runEach([...list], (cell) => cell);
  left.filter(({ reply }) => reply !== undefined).forEach((cell) => outdate(cell));
}

/** Runs one after another, until the first new error if that is asked for; gives those that are left. */
async function runEach(list, cellOf) {
  setRunning(true);
  let left = [];
  for (const [at, one] of list.entries()) {
    const cell = cellOf(one);
    const wasWrong = isWrong(cell);
    await runOne(cell);
    const isEnd = isStopped || cell.reply === null || (find("stops").checked && isWrong(cell) && !wasWrong);
    if (isEnd) left = list.slice(at + 1);
    if (isEnd) break;
  }
  setRunning(false);
  afterRun();
  return left;
}

const isWrong = ({ reply }) => reply === null || /^fault /.test(reply ?? "");

function setRunning(is) {
  isRunning = is;
  isStopped = false;
  find("run").textContent = is ? "Stop" : "Run";
}

async function runOne(cell) {
  const { form, line } = cell;
  for (const name of Object.keys(cell)) delete cell[name];
  Object.assign(cell, { form, line, isRunning: true, own: ownAnswer(line, ownNames()) });
  draw(cell);
  const isLast = cell === cells.at(-1);
  if (isLast) find("notebook").scrollIntoView({ block: "end" });
  cell.reply = cell.own === null ? await session.ask(line) : "";
  delete cell.isRunning;
  draw(cell);
  announce(spoken(cell));
  if (isLast) find("notebook").scrollIntoView({ block: "end" });
  keepCells();
}

function spoken({ reply, own }) {
  if (own !== null) return own.slice(0, SPOKEN);
  return reply === null ? LOST : `${reply.slice(0, SPOKEN)} ${FAULTS[readReply(reply).word] ?? ""}`;
}

/** A hint comes after the answer to a line. */
function takeHint({ line, hint, span, second }) {
  const cell = cells.findLast((one) => one.line === line && isWrong(one) && !one.hint);
  if (!cell || !hint) return;
  cell.hint = { hint, span, second };
  draw(cell);
  announce(hint);
  keepCells();
}

const keepCells = () => book.keep({ cells: cells.map(shortened) });

/** A cell as it is kept: a long value is cut, and its type and costs stay. */
function shortened(cell) {
  if (!(cell.reply?.length > KEPT + 200)) return cell;
  const { kind, value, type, work, depth, name } = readReply(cell.reply);
  if (kind !== "value" || value.length <= KEPT + 100) return cell;
  const told = `of ${grouped(value.length)} characters the first ${grouped(KEPT)} are kept`;
  const cutOff = `${value.slice(0, KEPT)} … (${told})`;
  return { ...cell, reply: `${name} = ${cutOff} : ${type} (work ${work}, depth ${depth})` };
}

function add(cell, after = cells.length - 1) {
  cells.splice(after + 1, 0, cell);
  draw(cell);
  drawState();
  return cell;
}

function outdate(cell) {
  cell.isOlder = true;
  draw(cell);
}

function drawState() {
  find("empty").hidden = cells.length > 0;
  find("tools").hidden = cells.length === 0;
}

function draw(cell) {
  const change = button("button.quiet", "Edit", () => edit(cell));
  change.ariaLabel = `Edit: ${cell.form.slice(0, FOLDED)}`;
  const said = make("div.said", make("pre", painted(cell.form, marksOf(cell))), change);
  place(cell, make(`li.cell.is-${kindOf(cell)}`, said, make("div.reply", ...drawReply(cell))));
}

const kindOf = ({ reply, own }) => (own ? "own" : readReply(reply ?? "").kind);

/** Shows an item as that of a cell. */
function place(cell, item) {
  const before = items.get(cell);
  items.set(cell, item);
  if (before) before.replaceWith(item);
  else find("cells").insertBefore(item, find("cells").children[cells.indexOf(cell)] ?? null);
}

/** What is marked in a form: where a hint points, or the place of the error. */
function marksOf({ form, reply, hint }) {
  const told = readReply(reply ?? "");
  const own = told.from === undefined ? null : [Number(told.from), Number(told.to ?? Number(told.from) + 1)];
  const spans = hint ? [[hint.span, "first"], [hint.second, "second"]] : [[own, "first"]];
  return spans.filter(([span]) => span).map(([span, kind]) => {
    const [from, to] = placesOf(form, ...span);
    return { from, to, kind };
  });
}

/** Changes a cell in its place. */
function edit(cell) {
  const area = Object.assign(make("textarea.code"), { value: cell.form, rows: 1, spellcheck: false });
  area.id = `edit-${cells.indexOf(cell)}`;
  area.ariaLabel = "Input";
  const run = (isBelow) => runEdited(cell, area.value, isBelow);
  const cancel = () => {
    draw(cell);
    items.get(cell).querySelector("button").focus();
  };
  const acts = [button("button.main", "Run", () => run(false)), button("button", "Run with all below", () => run(true)),
    button("button.quiet", "Cancel", cancel), button("button.quiet", "Remove", () => remove(cell))];
  const item = make("li.cell.is-edited", area, make("p.row.acts", ...acts));
  editorOf(area, { run: () => run(false), key: (event) => event.key === "Escape" && cancel() });
  place(cell, item);
  area.focus();
}

async function runEdited(cell, text, isBelow) {
  const inputs = inputsOf(text);
  if (!(await isReady(inputs))) return;
  const at = cells.indexOf(cell);
  const below = cells.slice(at + 1);
  Object.assign(cell, inputs[0]);
  delete cell.reply;
  const more = inputs.slice(1).map(({ form, line }, step) => add({ form, line }, at + step));
  if (!isBelow) below.filter(({ reply }) => reply).forEach(outdate);
  await runCells([cell, ...more, ...(isBelow ? below : [])]);
  items.get(cell).querySelector("button").focus();
}

function remove(cell) {
  items.get(cell).remove();
  items.delete(cell);
  cells.splice(cells.indexOf(cell), 1);
  drawState();
  keepCells();
  field.focus();
}

/** What a cell shows below its form. */
function drawReply(cell) {
  const { reply, own, isOlder } = cell;
  const older = isOlder ? [make("p.soft", "From before an input above was run again.")] : [];
  if (own) return [make("pre.own", own)];
  if (cell.isRunning) return [make("p.soft", "…")];
  const again = button("button.quiet", "Run it", () => runCells([cell]));
  if (!reply) return [make("p.soft", reply === undefined ? "Not run." : LOST), again];
  return [...drawAnswer(cell, readReply(reply)), ...older];
}

function drawAnswer({ reply, hint }, told) {
  const { kind, name, type, work } = told;
  const costs = { work: work && grouped(work), depth: told.depth && grouped(told.depth) };
  if (kind === "fault") return [drawError(reply, told, hint)];
  if (kind === "value") return [...drawValue(`${name} = `, told.value), facts({ type, ...costs })];
  if (kind === "function") return [...drawValue("", name), facts({ type })];
  return [...drawValue("", reply), ...(NOTES[kind] ? [make("p.soft", NOTES[kind])] : [])];
}

/** An error: its sentence, and the reply folded. */
function drawError(reply, { word }, hint) {
  const raw = make("details.raw", make("summary.soft", `fault ${word}`), make("code", reply));
  return make("div.told", make("p", make("b.wrong", "Error"), ` ${hint?.hint ?? FAULTS[word] ?? ""}`), raw);
}

/** The beginning of a value, without a number that is cut in it. */
const beginning = (value) => value.slice(0, FOLDED).replace(/-?\b\d{1,19}$/, "").trimEnd();

/** A value, of which only the beginning is shown where it is long. */
function drawValue(name, value) {
  const code = make("code");
  const line = make("p", make("span.code.soft", name), code);
  const more = button("button.quiet", "", () => show(more.ariaExpanded === "false"));
  const show = (whole) => {
    code.textContent = whole || value.length <= FOLDED ? value : `${beginning(value)} …`;
    more.textContent = whole ? "Show less" : `Show all ${grouped(value.length)} characters`;
    more.ariaExpanded = String(whole);
    line.className = whole && !isWhole ? "value whole" : "value";
    line.role = whole ? "group" : null;
    line.ariaLabel = whole ? "The whole value" : null;
    if (whole) line.tabIndex = 0;
    else line.removeAttribute("tabindex");
  };
  show(isWhole);
  return value.length > FOLDED ? [more, line] : [line];
}

/** Facts in a row: each that is known, with its name. */
function facts(told) {
  const known = Object.entries(told).filter(([, fact]) => fact !== undefined);
  return make("dl.facts", ...known.map(([name, fact]) => make(`div.${name}`, make("dt", name), make("dd", fact))));
}

/** The arrow keys go through the earlier inputs, from the first and from the last line of the field. */
function recall(event) {
  const step = { ArrowUp: -1, ArrowDown: 1 }[event.key];
  if (!step || event.shiftKey || event.ctrlKey || event.altKey || event.metaKey) return;
  const { value, selectionStart, selectionEnd } = field;
  if ((step < 0 ? value.slice(0, selectionStart) : value.slice(selectionEnd)).includes("\n")) return;
  const forms = cells.map((cell) => cell.form).filter((form, at, all) => form !== all[at + 1]);
  const from = recalled ?? forms.length;
  const at = from + step;
  if (at < 0 || at > forms.length) return;
  event.preventDefault();
  if (recalled === null) draft = value;
  editor.put(at === forms.length ? draft : forms[at]);
  recalled = at === forms.length ? null : at;
}
