/** The page as a whole: its user, its connection, and which view is shown. */
import { announce, asked, find } from "./dom.js";
import { openFiles } from "./files.js";
import { book, forget, keep, kept } from "./kept.js";
import { FAULTS } from "./language.js";
import { ARE_KEPT } from "./lasting.js";
import { askAll, askSoon, openLeft, showLeft } from "./left.js";
import { openLessons, showLessons } from "./lesson_view.js";
import { openMeasure, showMeasure } from "./measure.js";
import { cellsShown, count, openNotebook, showBook, tellField, write } from "./notebook.js";
import { session } from "./session.js";

const UNREACHABLE = "The server can’t be reached. It may have been stopped.";
const LOST = "The connection was lost.";
const ENDED = "The server has ended the connection: it was quiet for long, or you are connected elsewhere now. "
  + "It is taken up again when you run something.";
const KEPT = "The server keeps sessions on its disk, also when it is started again.";
const ENDED_FORM = "A form that was begun elsewhere waited in this session. The page’s question has ended it.";
const NO_NAME = "A user’s name is a small letter, then small letters and digits, at most 16 in all.";
const NO_LINK = "This link isn’t whole. Open it as it was handed out, or sign in by your name and key.";
const NO_KEY = "A key is 32 digits and letters a to f, as it was handed out.";
/** The part of an address after which somebody is signed in: no server ever sees it. */
const LINK = /^#([a-z][a-z0-9]{0,15})\.([0-9a-f]{32})$/;
/** What only a link has in front of its key. */
const BEGUN_LINK = /^#[a-z][a-z0-9]*\./i;
const VIEWS = ["notebook", "measure", "lessons"];
/** Seconds before a lost connection is tried again, and again. */
const WAITS = [0.5, 1, 2, 4, 8, 15, 30];

let view = VIEWS[0];
/** How far each view was scrolled. */
const places = {};
let tries = 0;
let waiting = 0;
/** @type {?Promise<boolean>} a connection that is being taken up */
let taking = null;

/** Why a connection was refused, in words. */
const why = (fault) => (FAULTS[fault] ? FAULTS[fault] : UNREACHABLE);

function signIn(event) {
  event.preventDefault();
  const user = find("user").value.trim();
  const key = find("key").value.trim();
  if (!/^[a-z][a-z0-9]{0,15}$/.test(user)) return refuse(NO_NAME);
  if (!/^([0-9a-f]{32})?$/.test(key)) return refuse(NO_KEY, "key");
  return enter(user, key);
}

async function enter(user, key) {
  const fault = await session.connect(user, key);
  if (fault) return refuse(why(fault), fault === "user" ? "key" : "user");
  find("key").value = "";
  keep({ user, key });
  openBook();
  return sit();
}

/** Opens what the browser keeps of the user. */
function openBook() {
  book.open(kept.user);
  showLeft();
  showBook();
}

/** Takes a link off the address, so that nobody else sees it there. Gives its user and key, or null without a link. */
function takeLink() {
  const found = LINK.exec(location.hash);
  if (BEGUN_LINK.test(location.hash)) history.replaceState(null, "", location.pathname);
  return found && { user: found[1], key: found[2] };
}

/** Whether the address has a part of a link. */
const isCut = () => BEGUN_LINK.test(location.hash) && !LINK.test(location.hash);

/** Signs in by a link: what the tab knows of another user is forgotten. */
function signInBy(link) {
  if (kept.user && kept.user !== link.user) {
    session.end();
    forget();
    keep({ link });
    return location.reload();
  }
  show(false);
  find("user").value = link.user;
  return enter(link.user, link.key);
}

/** Begins with a link, if the address has one, or else with the session that this tab had. */
function begin() {
  const cut = isCut();
  const link = takeLink() ?? kept.link;
  keep({ link: undefined });
  if (link) return signInBy(link);
  if (kept.user) openBook();
  show(Boolean(kept.user));
  if (kept.user) return takeUp();
  return cut && refuse(NO_LINK);
}

function moved() {
  const cut = isCut();
  const link = takeLink();
  if (link) return signInBy(link);
  if (kept.user) return route();
  return cut && refuse(NO_LINK);
}

/** Shows why nobody is signed in, at the field that is to be changed. */
function refuse(text, field = "user") {
  find("sign-fault").textContent = text;
  find(field).focus();
  find(field).select();
}

/** Takes the session of this tab up again, after a reload or where the connection was lost; gives whether it could. */
function takeUp() {
  clearTimeout(waiting);
  taking ??= seat().finally(() => (taking = null));
  return taking;
}

async function seat() {
  if (session.seated) return true;
  const fault = await session.connectAgain(kept.user, kept.key);
  if (fault === "user") leave(why(fault));
  else if (fault) later(why(fault));
  else await sit();
  return session.seated;
}

/** Tells what is wrong, and tries again after a while. */
function later(text) {
  const wait = WAITS[Math.min(tries, WAITS.length - 1)] * (1 + Math.random() / 4);
  tries += 1;
  const seconds = Math.ceil(wait);
  tell(`${text} It is tried again in ${seconds} ${seconds === 1 ? "second" : "seconds"}.`);
  waiting = setTimeout(takeUp, wait * 1000);
}

/** Whether the server answers at all. */
const isThere = () => fetch("icon.svg", { method: "HEAD" }).then(({ ok }) => ok, () => false);

/** Takes up what broke. A server that is there has ended it, maybe for a newer connection with the same key. */
async function lost(wasClean) {
  tell(LOST);
  const isEnded = wasClean || (kept.key && (await isThere()));
  if (!session.seated) return isEnded ? tell(ENDED) : later(LOST);
}

/** Shows the book of a user who is seated. */
async function sit() {
  tries = 0;
  if (find("book").hidden) show(true);
  tell("");
  announce(`Connected as ${session.user}.`);
  if (view === "notebook" && document.activeElement === document.body) find("field").focus();
  if (!(await askAll())) tellField(ENDED_FORM);
}

function show(isBook) {
  find("sign").hidden = isBook;
  find("book").hidden = !isBook;
  find("who").textContent = kept.user ?? "";
  document.title = isBook ? `${kept.user} · Pazkindu` : "Pazkindu";
  if (!isBook) return refuse(kept.told ?? "");
  document.activeElement.blur();
  return route();
}

/** Tells what is wrong with the connection, or nothing. */
function tell(text) {
  find("banner").hidden = !text;
  find("banner-text").textContent = text;
  find("light").className = session.seated ? "light" : "light out";
}

/** Asks before the user leaves where there is something to lose. */
async function askToLeave() {
  const [stay, empty] = ["Leave", "Leave, and empty the notebook"];
  const number = cellsShown().length;
  if (!number) return leave("");
  const text = `${count(number, "input")} of ${kept.user} ${number === 1 ? "stays" : "stay"} in this browser `
    + "until the notebook is emptied. On a machine of others, empty it.";
  const answer = await asked(text, [stay, empty, "Don’t leave"]);
  if (answer === empty) book.empty();
  return (answer === stay || answer === empty) && leave("");
}

/** Ends the connection, and begins with an empty page, which may say why. */
function leave(told) {
  session.end();
  forget();
  keep({ told });
  location.reload();
}

/** Shows the view that the address names, or else the one that is shown, as far down as it was. */
function route() {
  places[view] = scrollY;
  const named = location.hash.slice(1);
  const isOther = VIEWS.includes(named) && named !== view;
  if (isOther) view = named;
  VIEWS.forEach((each) => (find(each).hidden = each !== view));
  document.querySelectorAll("nav a").forEach((link) => {
    link.ariaCurrent = link.hash === `#${view}` ? "page" : null;
  });
  if (view === "measure") showMeasure();
  if (view === "lessons") showLessons();
  if (isOther) scrollTo(0, places[view] ?? 0);
}

function toNotebook(program) {
  history.pushState(null, "", "#notebook");
  route();
  write(program);
}

openLeft();
openNotebook(askSoon, takeUp);
openFiles();
openMeasure(askSoon);
openLessons(toNotebook, askSoon);
find("sign-form").addEventListener("submit", signIn);
find("leave").addEventListener("click", askToLeave);
find("again").addEventListener("click", takeUp);
session.addEventListener("lost", ({ detail }) => lost(detail));
window.addEventListener("hashchange", moved);
if (ARE_KEPT) find("lasting").textContent = KEPT;
begin();
