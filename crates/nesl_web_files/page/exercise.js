/** Exercises: their visible tests, in the format of docs/GRADING.md, are run in the user's own session. */
import { drawCurves } from "./curves.js";
import { button, make } from "./dom.js";
import { editorOf, painted } from "./editor.js";
import { inputsOf } from "./forms.js";
import { book } from "./kept.js";
import { FAULTS, grouped, readReply, tokensOf, withNumber } from "./language.js";
import { session } from "./session.js";

const MOST_NUMBERS = 1000;
const MOST_BOUND = 2n ** 128n;
const AFTER = 2; // numbers that are still measured where a cost is above its bound

const fail = (text) => {
  throw new Error(text);
};

/** The two parts of a text at the first of these signs, without blanks around them; null where there is none. */
function split(text, sign) {
  const at = text.indexOf(sign);
  return at < 0 ? null : [text.slice(0, at).trim(), text.slice(at + sign.length).trim()];
}

const number = (text) => (/^\d+$/.test(text) ? Number(text) : fail("a number is expected"));

/** A row of numbers: `1, 2, 4 .. 64` doubles, and `1, 3 .. 99` steps. */
export function rowOf(text) {
  const [front, last] = split(text, "..") ?? fail("a row is as 1, 2, 4 .. 64");
  const [first, second, third] = front.split(",").map((part) => number(part.trim()));
  const isDouble = first > 0 && second === 2 * first && third === 2 * second;
  if (third !== undefined && !isDouble) fail("a row of three doubles");
  const next = third === undefined ? (n) => n + second - first : (n) => 2 * n;
  const row = [];
  for (let n = first; n <= number(last) && row.length <= MOST_NUMBERS; n = next(n)) row.push(n);
  return row.length && row.length <= MOST_NUMBERS ? row : fail("a row has 1 to 1,000 numbers");
}

const bits = (n) => (n > 0n ? BigInt(n.toString(2).length) : 0n);
const OF_ONE = { bits, log2: (n) => (n > 0n ? bits(n) - 1n : fail("the bound has log2(0)")) };
const OF_TWO = {
  "+": (a, b) => a + b, "-": (a, b) => (a < b ? fail("the bound is below 0") : a - b), "*": (a, b) => a * b,
  "/": (a, b) => (b ? a / b : fail("the bound divides by 0")),
  "^": (a, b) => (a > 1n && b > 128n ? fail("the bound is too large") : a ** b),
};
const TIGHT = ["+-", "*/", "^"];

/** A bound, as a function of n in whole numbers without limits but that of 128 bits. */
export function boundOf(text) {
  const tokens = text.match(/\d+|\w+|\S/g) ?? [];
  const bad = () => fail("the bound has numbers, n, + - * / ^, bits, log2 and parentheses");
  const take = (sign) => (tokens[0] === sign ? tokens.shift() : bad());
  const inside = () => [take("("), sum(0), take(")")][1];
  function atom() {
    if (tokens[0] === "(") return inside();
    const token = tokens.shift() ?? bad();
    if (token === "n") return (n) => n;
    if (OF_ONE[token]) {
      const part = inside();
      return (n) => OF_ONE[token](part(n));
    }
    return /^\d+$/.test(token) ? () => BigInt(token) : bad();
  }
  function sum(level) {
    if (level === TIGHT.length) return atom();
    let left = sum(level + 1);
    while (tokens.length && TIGHT[level].includes(tokens[0])) {
      const [one, act, other] = [left, OF_TWO[tokens.shift()], sum(level === 2 ? level : level + 1)];
      left = (n) => {
        const value = act(one(n), other(n));
        return value < MOST_BOUND ? value : fail("the bound is too large");
      };
    }
    return left;
  }
  const whole = sum(0);
  return tokens.length ? bad() : (n) => whole(BigInt(n));
}

/** The test of a line; null for `points`, a comment or nothing. */
export function testOf(line) {
  const text = line.trim();
  if (!text || text[0] === "%" || text.startsWith("points ")) return null;
  const [, wish, name] = /^(with|without) +([a-z]\w*)$/i.exec(text) ?? [];
  if (wish) return { text, kind: "name", isWanted: wish === "with", name: name.toLowerCase() };
  if (text.startsWith("for n in ")) return costTest(text);
  const [exp, wanted] = split(text, "=>") ?? [];
  if (exp && wanted) {
    const [value, type] = split(wanted, ":") ?? [wanted, ""];
    return { text, kind: "value", exp, type, wanted: value === "[]" ? `[] ${type.slice(1, -1)}` : value };
  }
  const [tried, fault] = split(text, " is error ") ?? fail("a test has =>, is error, for, with or without");
  return FAULTS[fault] ? { text, kind: "fault", exp: tried, fault } : fail("no error has this name");
}

function costTest(text) {
  const [row, claim] = split(text.slice("for n in ".length), ":") ?? fail("a colon is expected");
  const what = claim.includes(" work <=") ? "work" : "depth";
  const [exp, bound] = split(claim, ` ${what} <=`) ?? fail("work <= or depth <= is expected");
  return { text, kind: "cost", exp, what, row: rowOf(row), bound: boundOf(bound), claim: `${what} ≤ ${bound}` };
}

/** A run of the tests: replies are asked for once a line. */
class Run {
  replies = new Map();

  async ask(line) {
    if (!this.replies.has(line)) this.replies.set(line, await session.ask(line));
    return this.replies.get(line) ?? fail("the connection ended");
  }

  async try(test, program) {
    if (test.kind === "name") return tryName(test, program);
    if (test.kind === "cost") return this.tryCost(test);
    const got = await this.ask(`${test.exp};`);
    const told = readReply(got);
    if (test.kind === "fault") return { isPassed: told.word === test.fault, got, wanted: `fault ${test.fault}` };
    const wanted = await this.ask(`${test.wanted};`);
    const want = readReply(wanted);
    const isSame = told.kind === "value" && ["name", "value", "type"].every((part) => told[part] === want[part]);
    return { isPassed: isSame && (!test.type || told.type === test.type), got, wanted: valueOf(want) || wanted };
  }

  /** Measures at each n, and not much beyond the first that is above the bound. */
  async tryCost({ exp, what, row, bound }) {
    const points = [];
    let over = null;
    for (const n of row) {
      const got = await this.ask(`${withNumber(exp, n) ?? exp};`);
      const told = readReply(got);
      if (told.depth === undefined) return { isPassed: false, points, got: `n = ${n}: ${got}`, wanted: "" };
      points.push([n, Number(told[what]), Number(bound(n))]);
      if (BigInt(told[what]) > bound(n)) over ??= points.length;
      if (over && points.length >= over + AFTER) break;
    }
    const [n, cost, most] = points[over ? over - 1 : points.length - 1];
    const got = `n = ${grouped(n)}: ${what} ${grouped(cost)}`;
    return { isPassed: !over, points, got, wanted: `at most ${grouped(most)}` };
  }
}

const valueOf = ({ value, type }) => (value === undefined ? "" : `${value} : ${type}`);

function tryName({ isWanted, name }, program) {
  const isThere = tokensOf(program).some((token) => token.toLowerCase() === name);
  return { isPassed: isThere === isWanted, got: `${name} is ${isThere ? "" : "not "}there`, wanted: "" };
}

/** A reply as a person reads it. */
function shown(got) {
  const { kind, value, type, work, depth, word } = readReply(got);
  if (kind === "fault") return `${got}. ${FAULTS[word] ?? ""}`;
  return kind === "value" ? `${value} : ${type} (work ${grouped(work)}, depth ${grouped(depth)})` : got;
}

function drawResult(test, { isPassed, got, wanted, points }) {
  const verdict = make(isPassed ? "b.right" : "b.wrong", isPassed ? "Passed" : "Not passed");
  const parts = [make("p", verdict, " ", make("code", test.text)), make("p.soft", "Got ", make("code", shown(got)))];
  if (wanted) parts[1].append(`, wanted ${isPassed && test.kind === "value" ? "the same" : wanted}`);
  const item = make("li", ...parts);
  if (!points?.length) return [item, () => {}];
  const host = make("div.curve-of");
  item.append(host);
  const of = (at) => points.filter((point) => point[at] > 0).map((point) => [point[0], point[at]]);
  const own = { name: "first", title: test.what, points: of(1) };
  const curves = [own, { name: "second", title: "bound", points: of(2) }];
  return [item, () => drawCurves(host, curves, { n: true, told: true }, `${test.what} over n, and its bound`)];
}

/** Runs what is given, the program, and then each test; draws each result as it comes. */
async function runAll({ given, tests }, program, list) {
  const run = new Run();
  const missed = [];
  for (const { form, line } of [...inputsOf(given), ...inputsOf(program)]) {
    const { word } = readReply((await session.ask(line)) ?? fail("the connection ended"));
    const error = make("p", make("b.wrong", "Error"), ` ${FAULTS[word]} `);
    if (word) missed.push(make("li", error, make("pre", painted(form))));
  }
  list.replaceChildren(...missed);
  let passed = 0;
  for (const line of tests) {
    const test = testOf(line);
    if (!test) continue;
    const result = await run.try(test, program);
    const [item, draw] = drawResult(test, result);
    list.append(item);
    draw();
    passed += result.isPassed ? 1 : 0;
  }
  return `${passed} of ${tests.filter((line) => testOf(line)).length} tests are passed.`;
}

/** An exercise with its field; its program is kept under its name. */
export function drawExercise(exercise, after) {
  const { name, given, tests, solution } = exercise;
  const own = () => book.words.programs ?? {};
  const field = Object.assign(make("textarea.code"), { spellcheck: false });
  field.id = `exercise-${name.replace(/\W+/g, "-")}`;
  field.ariaLabel = `Program for ${name}`;
  field.value = own()[name] ?? "";
  const list = make("ol.tests");
  const told = Object.assign(make("span.soft"), { role: "status" });
  const run = async () => {
    told.textContent = "…";
    act.disabled = true;
    try {
      told.textContent = await runAll(exercise, field.value, list);
    } catch ({ message }) {
      told.textContent = `Not run to the end: ${message}.`;
    }
    act.disabled = false;
    after();
  };
  const act = button("button.main", "Run the tests", run);
  const box = make("div.block.exercise", field, make("p.row.acts", act, told), list);
  editorOf(field, { run, changed: () => book.keep({ programs: { ...own(), [name]: field.value } }) });
  if (given) box.prepend(make("p", "These are defined before your program:"), make("pre", painted(given)));
  box.append(make("details", make("summary", "The tests"), make("pre", tests.join("\n"))));
  if (solution) box.append(make("details", make("summary", "A solution"), make("pre", painted(solution))));
  box.append(make("p.soft", "The tests run in your own session, where what is defined here stays."));
  return box;
}
