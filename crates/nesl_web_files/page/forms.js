/** Texts cut into forms, as the prompt and the grading cut them: over several lines, with comments and blank lines. */

/**
 * @typedef {object} Stretch
 * @property {"left out" | "whole" | "line" | "unfinished"} kind a form with its `;`, one that ends with its line, or
 *   the last one without its `;`; blanks, comments and stray `;` between forms are left out
 * @property {number} start
 * @property {number} end
 */

const OPENED = { "(": "bracket", "[": "bracket", "{": "items" };
const isName = (character) => /\w/.test(character);

/** How far a text is cut. Each state is a method, which reads the next character. */
class Cutter {
  state = "between";
  /** What is open in the form, the newest last: "bracket", or "items" and "let", inside which `;` separates. */
  opened = [];
  word = "";
  around = "between";
  start = 0;
  /** @type {Stretch[]} */
  stretches = [];

  read(character, at) {
    if (this.state !== "name") return this[this.state](character, at);
    if (isName(character)) return (this.word += character);
    this.endName();
    return this.form(character, at);
  }

  end(kind, at) {
    if (at > this.start) this.stretches.push({ kind, start: this.start, end: at });
    this.start = at;
  }

  /** Ends a form, after which another may begin. */
  endForm(kind, at) {
    this.end(kind, at);
    this.state = "between";
    this.opened = [];
  }

  endName() {
    const word = this.word.toLowerCase();
    if (word === "let") this.opened.push("let");
    else if (word === "in" && this.opened.at(-1) === "let") this.opened.pop();
  }

  comments(around) {
    this.around = around;
    this.state = "comment";
  }

  between(character, at) {
    if (/[ \t\r\n;]/.test(character)) return;
    this.end("left out", at);
    if (character === "%") this.comments("between");
    else if (character === ":") this.state = "command";
    else this.form(character, at);
  }

  form(character, at) {
    this.state = "form";
    if (character === "%") this.comments("form");
    else if (character === '"') this.state = "text";
    else if (character === "`") this.state = "character";
    else if (character === ":") this.state = "colon";
    else if (character === ";") this.semicolon(at);
    else if (OPENED[character]) this.opened.push(OPENED[character]);
    else if (/[)\]}]/.test(character)) this.close();
    else if (/[a-z]/i.test(character)) [this.state, this.word] = ["name", character];
  }

  semicolon(at) {
    if (!/items|let/.test(this.opened.at(-1))) this.endForm("whole", at + 1);
  }

  /** Closes the newest bracket or brace, and each `let` in it. */
  close() {
    while (this.opened.pop() === "let");
  }

  colon(character, at) {
    if (character === ":") this.state = "members";
    else this.form(character, at);
  }

  members(character, at) {
    if (/[ \t\r\n]/.test(character)) return;
    if (character === "%") this.comments("members");
    else this.form(character, at);
    if (/[([]/.test(character)) this.opened[this.opened.length - 1] = "items";
  }

  text(character, at) {
    if (character === "\n") this.endForm("line", at);
    else if (character === '"') this.state = "form";
  }

  character(character, at) {
    if (character === "\n") this.endForm("line", at);
    else this.state = "form";
  }

  comment(character) {
    if (character === "%") this.state = this.around;
  }

  command(character, at) {
    if (character === "\n") this.endForm("line", at);
    else if (character === "\\") this.state = "continued";
  }

  continued(character) {
    if (!/[ \t\r\\]/.test(character)) this.state = "command";
  }
}

const LINES = ["text", "character", "comment", "command", "continued"];
const lastKind = (state) => (state === "between" ? "left out" : LINES.includes(state) ? "line" : "unfinished");

function readAll(text) {
  const cutter = new Cutter();
  for (let at = 0; at < text.length; at += 1) cutter.read(text[at], at);
  return cutter;
}

/** The stretches of a text. */
export function cut(text) {
  const cutter = readAll(text);
  cutter.end(lastKind(cutter.state), text.length);
  return cutter.stretches;
}

/** Whether a form, a comment or a command goes on after a text. */
export const goesOn = (text) => !/^(between|text|character|command)$/.test(readAll(text).state);

/** The line of a form of a kind, as a session takes it: as long as the form, up to its end. */
export function lineOf(kind, form) {
  const flat = form.replace(/\\(?=[ \t\r]*(\n|$))/g, " ").replace(/\n/g, " ");
  if (kind === "unfinished") return `${flat};`;
  return kind === "line" ? flat.replace(/[ \t\r\\]+$/, "") : flat;
}

/** The lines of a text's forms. */
export const linesOf = (text) => cut(text).filter(({ kind }) => kind !== "left out")
  .map(({ kind, start, end }) => lineOf(kind, text.slice(start, end)));

/** The comments of what is left out between two forms. */
const commentsIn = (text) => (text.match(/%[^%]*%/g) ?? []).join("\n");

/**
 * The inputs of a text: each form with the comments before it, and the last one with those after it.
 * @returns {{ form: string, line: string }[]} what is shown, and what is sent; places in both are the same
 */
export function inputsOf(text) {
  const inputs = [];
  let before = "";
  for (const { kind, start, end } of cut(text)) {
    const piece = text.slice(start, end);
    if (kind === "left out") before += piece;
    else {
      const form = [commentsIn(before), piece].filter(Boolean).join("\n");
      inputs.push({ form: kind === "line" ? form.trimEnd() : form, line: lineOf(kind, form), kind });
      before = "";
    }
  }
  return withLast(inputs, commentsIn(before));
}

function withLast(inputs, comments) {
  if (!comments) return inputs;
  const last = inputs.at(-1)?.kind === "whole" ? inputs.pop() : null;
  const form = last ? `${last.form}\n${comments}` : comments;
  return [...inputs, { form, line: lineOf("whole", form), kind: "whole" }];
}

/** A form as it is in a file, where others come after it: whole. */
export function ended(form) {
  const { state } = readAll(form);
  if (state === "comment") return `${form}%`;
  if (state === "continued") return form.replace(/[ \t\r\\]+$/, "");
  return cut(form).at(-1)?.kind === "unfinished" ? `${form};` : form;
}
