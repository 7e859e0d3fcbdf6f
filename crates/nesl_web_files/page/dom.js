/** Elements made and found, and fields that grow. */

/** The element of an id. */
export const find = (id) => document.getElementById(id);

/** An element with these children, of which texts are texts. `what` is a tag, maybe with a class: `p` or `p.soft`. */
export function make(what, ...children) {
  const [tag, ...classes] = what.split(".");
  const element = document.createElement(tag);
  if (classes.length) element.className = classes.join(" ");
  element.append(...children);
  return element;
}

/** A button that does something; `what` is as in `make`. */
export function button(what, text, act) {
  const made = Object.assign(make(what, text), { type: "button" });
  made.addEventListener("click", act);
  return made;
}

/** Announces a text to users who listen to the page, even if it is the same as before. */
export function announce(text) {
  const again = find("spoken").textContent === text;
  find("spoken").textContent = again ? `${text}\u00a0` : text;
}

/** Makes a field grow with its text; its Enter does something, and Shift-Enter breaks the line. Gives how to set it. */
export function growing(field, enter) {
  const fit = () => {
    if (!field.offsetParent) return;
    field.style.height = "auto";
    field.style.height = `${field.scrollHeight + field.offsetHeight - field.clientHeight}px`;
  };
  field.addEventListener("input", fit);
  window.addEventListener("resize", fit);
  field.addEventListener("keydown", (event) => {
    if (event.key !== "Enter" || event.shiftKey || event.isComposing) return;
    event.preventDefault();
    enter();
  });
  return (text) => {
    field.value = text;
    fit();
  };
}

/** Has the browser save a text as a file. */
export function save(name, kind, text) {
  const href = URL.createObjectURL(new Blob([text], { type: kind }));
  const link = Object.assign(make("a"), { href, download: name });
  link.click();
  setTimeout(() => URL.revokeObjectURL(link.href), 1000);
}

/** Asks in a window before the page, and gives which of the answers was chosen; null for none. */
export function asked(text, answers) {
  return new Promise((settle) => {
    const row = make("div.row", ...answers.map((answer, at) => button(at ? "button" : "button.main", answer,
      () => settle(answer))));
    const window = make("dialog.card", make("p", text), row);
    const end = () => {
      settle(null);
      window.remove();
    };
    window.addEventListener("close", end);
    row.addEventListener("click", () => window.close());
    document.body.append(window);
    window.showModal();
  });
}
