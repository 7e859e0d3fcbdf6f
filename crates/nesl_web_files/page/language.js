/** What the page knows of lines and replies: tokens, places in bytes, replies, errors in words, and numbers for n. */

/** The most bytes that a line may have. */
export const MOST = 65536;

/** What each error means, in a sentence. */
export const FAULTS = {
  long: "An input has at most 65,536 bytes.",
  lexical: "No token begins at this byte.",
  syntax: "An input is one definition, one expression or one command, and this is none of them.",
  nested: "The input is more than 100 high: too many parts are nested in one another.",
  unknown: "This name refers to nothing.",
  type: "There is no type: what a function or sign is given isn’t what it takes.",
  ambiguous: "The expression’s type isn’t determined.",
  retype: "Another function refers to this name, so its type can’t change.",
  taken: "The name is a built-in function’s or a datatype’s, or it can’t be defined so.",
  overflow: "A number doesn’t fit in 64 bits.",
  division: "A number is divided by 0.",
  range: "A place or a number lies outside of what is allowed here.",
  code: "A character’s code is 0 to 255.",
  length: "Sequences that go together differ in length, or a length is below 0.",
  empty: "An empty sequence has no greatest or least element.",
  permutation: "A place is among those that are written to twice.",
  count: "The lengths of the pieces don’t add up to the length of the sequence.",
  stride: "The step of a range is at least 1.",
  deep: "More than 1,000 nodes are nested in one another, those of called bodies included.",
  large: "A pair, literal or record would have more than 1,048,576 nodes.",
  work: "The line needs more work than a line may take, or than the session has left.",
  elements: "What is bound would have more nodes than a session may bind.",
  transcript: "The session has no room for this line. The command :reset makes room, and forgets all names.",
  memory: "Memory ran out. The session is as it was.",
  user: "The server knows no user of this name, or the key is missing or wrong.",
  busy: "Another connection has this user, maybe in another tab or window.",
};

/** The patterns of replies, each with the kind of reply and the names of its groups. */
const REPLIES = [
  ["value", /^(\w+) = (.*) : (.*) \(work (\d+), depth (\d+)\)$/, "name", "value", "type", "work", "depth"],
  ["fault", /^fault ([a-z]+)(?: at (\d+)(?:\.\.(\d+))?)?(?: \(work (\d+)\))?$/, "word", "from", "to", "work"],
  ["names", /^names:(?: (.*))?$/, "names"],
  ["budget", /^budget: work (\d+), elements (\d+) of (\d+), lines (\d+) of (\d+), bytes (\d+) of (\d+)$/,
    "work", "elements", "mostElements", "lines", "mostLines", "bytes", "mostBytes"],
  ["type", /^type: (.*)$/, "type"],
  ["reset", /^reset: lines (\d+)$/, "lines"],
  ["function", /^(\w+) : (.* -> .*)$/, "name", "type"],
];

/** A reply, taken apart: its kind, and what it says. `ok`, `more` and anything else have only their text. */
export function readReply(text) {
  for (const [kind, pattern, ...names] of REPLIES) {
    const found = pattern.exec(text);
    if (found) return Object.fromEntries([["kind", kind], ...names.map((name, place) => [name, found[place + 1]])]);
  }
  return { kind: text, text };
}

/** A number with its digits in groups of three. */
export const grouped = (number) => String(number).replace(/\B(?=(\d{3})+$)/g, ",");

/** How many bytes a text has as UTF-8. */
export const bytesOf = (text) => new TextEncoder().encode(text).length;

const bytesOfOne = (code) => (code < 0x80 ? 1 : code < 0x800 ? 2 : code < 0x10000 ? 3 : 4);

/** The places in a text of the bytes from..to, so that characters are never cut. */
export function placesOf(text, from, to) {
  let [byte, at] = [0, 0];
  let [start, end] = [text.length, text.length];
  for (const character of text) {
    const after = byte + bytesOfOne(character.codePointAt(0));
    if (byte <= from && from < after) start = at;
    if (byte >= to) {
      end = at;
      break;
    }
    at += character.length;
    byte = after;
  }
  return [start, Math.max(start, end)];
}

const TOKENS = /%[^%]*%?|"[^"\n]*"?|`[ -~]|[a-z]\w*|\d+|\s+|[^]/gi;

/** The tokens of a text, with the blanks and comments between them. */
export const tokensOf = (text) => text.match(TOKENS) ?? [];

/** An expression with a number in place of n, as a whole token; null if there is no n in it. */
export function withNumber(expression, number) {
  const tokens = tokensOf(expression);
  const calls = (place) => tokens.slice(place + 1).find((token) => !/^[%\s]/.test(token)) === "(";
  let found = false;
  const put = tokens.map((token, place) => {
    if (token.toLowerCase() !== "n" || calls(place)) return token;
    found = true;
    return /\d$/.test(tokens[place - 1] ?? "") ? ` ${number}` : String(number);
  });
  return found ? put.join("") : null;
}

/** The line that measures an expression for a number. The parentheses cost nothing, and let it bind only `it`. */
export function measuringLine(expression, number) {
  const put = withNumber(expression.trim().replace(/;$/, ""), number);
  return put && `(${put.replace(/\s*\n\s*/g, " ")});`;
}
