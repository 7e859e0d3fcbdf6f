/** The lessons and exercises: their texts, and for each block its replies, with a button for the notebook. */
import { button, find, make } from "./dom.js";
import { painted } from "./editor.js";
import { drawExercise } from "./exercise.js";
import { book } from "./kept.js";

let put = () => {};
let afterRun = () => {};
let fetched = false;

/** Makes the view ready, with what is to be done with the program of a block, and after tests were run. */
export function openLessons(act, then) {
  put = act;
  afterRun = then;
}

/** Shows the view: the lessons are fetched when they are first wanted. */
export async function showLessons() {
  if (fetched) return;
  fetched = true;
  try {
    const lessons = await (await fetch("lessons.json")).json();
    find("lesson-list").replaceChildren(...lessons.map(drawLesson));
  } catch {
    fetched = false;
    find("lesson-list").replaceChildren(make("p.wrong", "The lessons couldn’t be fetched."));
  }
}

/** A lesson is open as it was left. */
function drawLesson({ title, about, parts }, place) {
  const head = make("summary", make("h3", `${place + 1}. ${title}`), " ", make("span.soft", ...worded(about)));
  const lesson = make("details.card.lesson", head, make("div", ...drawParts(parts)));
  const opened = new Set(book.words.lessons);
  lesson.open = opened.has(title);
  lesson.addEventListener("toggle", () => {
    const now = new Set(book.words.lessons);
    if (lesson.open) now.add(title);
    else now.delete(title);
    book.keep({ lessons: [...now] });
  });
  return lesson;
}

/** The parts of a lesson; what comes below the heading of a solution is folded. */
function drawParts(parts) {
  const at = parts.findIndex(([kind, text]) => kind === "h" && text === "Solution");
  const draw = ([kind, what]) => DRAWN[kind](what);
  if (at < 0) return parts.map(draw);
  const folded = make("details.solution", make("summary", make("h4", "Solution")), ...parts.slice(at + 1).map(draw));
  return [...parts.slice(0, at).map(draw), folded];
}

/** How each kind of part is drawn. */
const DRAWN = {
  h: (text) => make("h4", ...worded(text)),
  p: (text) => make("p", ...worded(text)),
  list: (items) => make("ul", ...items.map((item) => make("li", ...worded(item)))),
  code: (text) => make("pre", text),
  table: (rows) => make("div.scroll", make("table", ...rows.map(drawRow))),
  say: (pairs) => {
    const act = button("button", "Put into the notebook", () => put(pairs.map(([form]) => form).join("\n")));
    act.ariaLabel = `Put into the notebook: ${pairs[0][0]} and so on`;
    const rows = pairs.flatMap(([form, reply]) => [make("code", painted(form)), make("samp", reply)]);
    return make("div.block", make("pre", ...rows), act);
  },
  exercise: (exercise) => drawExercise(exercise, () => afterRun()),
};

function drawRow(cells, place) {
  return make("tr", ...cells.map((text) => make(place ? "td" : "th", ...worded(text))));
}

/** A text whose `code` and *emphasis* are elements. */
function worded(text) {
  return text.split(/(`[^`]+`|\*\*[^*]+\*\*|\*(?! )[^*]+\*)/).map((piece, place) => {
    if (place % 2 === 0) return piece;
    if (piece[0] === "`") return make("code", piece.slice(1, -1));
    return piece[1] === "*" ? make("b", piece.slice(2, -2)) : make("em", piece.slice(1, -1));
  });
}
