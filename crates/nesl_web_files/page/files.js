/** Files of the notebook: its inputs as a program, and all of it as a page to print or to hand in. */
import { find, make, save } from "./dom.js";
import { ended } from "./forms.js";
import { cellsShown, showWhole, tellField, write } from "./notebook.js";
import { session } from "./session.js";

const MOST_BYTES = 1000000; // of a file that is opened

/** The inputs, one after another, as a file that the prompt and the grading read. */
export function program() {
  return cellsShown().filter(({ own }) => !own).map(({ form }) => `${ended(form)}\n`).join("");
}

const nameOf = (ending) => `${session.user || "notebook"}.${ending}`;

async function open(file) {
  if (file.size > MOST_BYTES) return tellField(`${file.name} has more than 1 MB: it isn’t opened.`);
  const text = await file.text();
  write(text.trimEnd().replace(/\r\n?/g, "\n"));
  return tellField(`${file.name} is in the field: “Run” runs it.`);
}

/** A copy of a part of the page without what does something. */
function copyOf(part) {
  const copy = part.cloneNode(true);
  copy.querySelectorAll("button, fieldset, .scroll + .row").forEach((one) => one.remove());
  copy.querySelectorAll("details").forEach((one) => (one.open = true));
  copy.hidden = false;
  return copy;
}

/** The whole notebook as a page of its own. */
async function savePage() {
  const style = await (await fetch("style.css")).text();
  showWhole(true);
  const parts = [find("cells"), find("measured")].filter((part) => !part.hidden && part.children.length).map(copyOf);
  showWhole(false);
  const when = new Date().toLocaleString("en", { dateStyle: "long", timeStyle: "short" });
  const main = make("main.saved", make("h1", `Notebook of ${session.user}`), make("p.soft", when), ...parts);
  const head = `<meta charset="utf-8"><title>Notebook of ${session.user}</title><style>${style}</style>`;
  const page = `<!doctype html><html lang="en"><head>${head}</head><body>${main.outerHTML}</body></html>`;
  save(nameOf("html"), "text/html", page);
}

/** Makes the buttons for files ready, and what is seen on paper. */
export function openFiles() {
  find("open").addEventListener("click", () => find("file").click());
  find("file").addEventListener("change", () => {
    const [file] = find("file").files;
    if (file) open(file);
    find("file").value = "";
  });
  find("save").addEventListener("click", () => save(nameOf("nesl"), "text/plain", program()));
  find("save-page").addEventListener("click", savePage);
  find("print").addEventListener("click", () => window.print());
  window.addEventListener("beforeprint", () => showWhole(true));
  window.addEventListener("afterprint", () => showWhole(false));
}
