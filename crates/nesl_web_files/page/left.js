/** What is left of the session's budget, and its names with their types, at the side of the page. */
import { short } from "./curves.js";
import { find, make } from "./dom.js";
import { book } from "./kept.js";
import { grouped, readReply } from "./language.js";
import { session } from "./session.js";

const WORK = 100000000; // of a whole session, unless its service gives it more
const QUIET = 120; // milliseconds without a form, before the budget is asked for
const MOST_ASKED = 60; // types that are asked for where a session is taken up

/** Each name with its type: "" where it is a function's or a datatype's that this tab never received. */
const names = new Map();
let waiting = 0;
/** The work of a whole session, as far as this page knows: no reply has it, so it is the most that was left. */
let mostWork = WORK;
/** The budget as it was told last. */
let last = null;

/** The names that the session has, each with its type as far as it is known. */
export const ownNames = () => names;

/** The work that is left, as far as it is known. */
export const workLeft = () => Number(last?.work ?? 0);

/** Shows what is kept of a user. */
export function showLeft() {
  names.clear();
  (book.words.names ?? []).forEach(([name, type]) => names.set(name, type));
  mostWork = book.words.mostWork ?? WORK;
  last = book.words.budget ?? null;
  drawNames();
}

/** Listens to replies. */
export function openLeft() {
  session.addEventListener("told", ({ detail }) => learn(detail.line, readReply(detail.reply)));
  find("ask").addEventListener("click", () => askAll(() => true, Infinity));
}

/** Asks for the budget soon, once for all forms that are sent until then. */
export function askSoon() {
  clearTimeout(waiting);
  waiting = setTimeout(() => session.ask(":budget"), QUIET);
}

/** Asks for the names, and for types that this tab doesn't know. Gives false where that ended a form that went on. */
export async function askAll(wanted = (type) => type === undefined, most = MOST_ASKED) {
  const reply = await session.ask(":budget");
  if (reply === null || readReply(reply).kind === "fault") return !reply || /^fault transcript/.test(reply);
  await session.ask(":names");
  const asked = [...names].filter(([, type]) => wanted(type)).slice(0, most);
  for (const [name] of asked) await session.ask(`:type ${name};`);
  return true;
}

/** Whether a type is one that only functions and datatypes have; `:type` shows none of these. */
const isOfFunction = (type) => / -> /.test(type);

function learn(line, told) {
  const asked = /^:type (\w+);$/.exec(line)?.[1];
  if (told.kind === "value" || told.kind === "function") names.set(told.name, told.type);
  else if (told.kind === "reset") [last] = [null, names.clear()];
  else if (told.kind === "names") order(told.names?.split(", ") ?? []);
  else if (names.has(asked) && told.kind === "type") names.set(asked, told.type);
  else if (names.has(asked) && told.word === "unknown" && !isOfFunction(names.get(asked))) names.set(asked, "");
  else if (told.kind === "budget") takeBudget(told);
  book.keep({ names: [...names], mostWork, budget: last });
  drawNames();
}

/** The names that the session has, in its order, each with the type that is known of it. */
function order(told) {
  const known = new Map(names);
  names.clear();
  told.forEach((name) => names.set(name, known.get(name)));
}

function drawNames() {
  const rows = [...names].map(([name, type]) => make("div", make("dt.code", name), drawType(type)));
  find("names").replaceChildren(...rows);
  find("no-names").hidden = names.size > 0;
}

function drawType(type) {
  return type ? make("dd.code", type) : make("dd.soft", type === "" ? "defined elsewhere" : "…");
}

/** Takes a budget. One session has ever more lines, and ever less work, unless it is reset: else this is another. */
function takeBudget(told) {
  const isOther = last && (Number(told.lines) <= Number(last.lines) || Number(told.work) > Number(last.work));
  last = told;
  mostWork = Math.max(mostWork, Number(told.work));
  drawBars(told);
  if (isOther) session.dispatchEvent(new Event("other"));
}

/** What helps where little is left. */
const ADVICE = {
  work: "Used work doesn’t come back. Whoever runs the server can renew the session.",
  elements: "Bind large values no more, or enter :reset, which forgets all names.",
  lines: "The command :reset makes room, and forgets all names.",
  bytes: "The command :reset makes room, and forgets all names.",
};

/** Each part of the budget: its name, what is left of it, and all of it. */
function partsOf(told) {
  const most = { elements: told.mostElements, lines: told.mostLines, bytes: told.mostBytes };
  const rest = Object.entries(most).map(([name, all]) => [name, Number(all) - Number(told[name]), Number(all)]);
  return [["work", Number(told.work), mostWork], ...rest];
}

/** A bar for each part of which a tenth is gone; the others are one line, with their numbers folded. */
function drawBars(told) {
  const parts = partsOf(told);
  const isSeen = ([, left, most]) => left < 0.9 * most;
  const rest = parts.filter((part) => !isSeen(part));
  find("bars").replaceChildren(...parts.filter(isSeen).map((part) => drawBar(...part)));
  const names = rest.map(([name]) => name).join(", ").replace(/, (\w+)$/, " and $1");
  find("rest").textContent = rest.length ? `Over nine tenths of ${names} are left.` : "";
  find("numbers").replaceChildren(...parts.map(([name, left, most]) => Object.assign(make("div", make("dt", name),
    make("dd", `${grouped(left)} of ${grouped(most)}`)), { id: `left-${name}` })));
}

function drawBar(name, left, most) {
  const text = `${grouped(left)} of ${grouped(most)}`;
  const filled = make(left < most / 10 ? "span.filled.low" : "span.filled");
  filled.style.width = `${(100 * left) / most}%`;
  const bar = Object.assign(make("span.bar", filled), {
    role: "meter", ariaLabel: `${name} left`, ariaValueText: text,
    ariaValueMin: "0", ariaValueMax: String(most), ariaValueNow: String(left),
  });
  const parts = [make("dt", name), make("dd", short(left)), make("dd", bar)];
  if (left < most / 10) parts.push(make("dd.soft", ADVICE[name]));
  return Object.assign(make("div", ...parts), { id: `bar-${name}` });
}
