// The page of `lab`: what it asks the server, what happens there, and what is shown of it.
import { Proposals } from "./changes.js";
import { Picture, blamed, commandForm, element, renew, tables } from "./drawn.js";
import { FORMS, ONE_END, PLACING, UNSEEN } from "./language.js";
import * as moving from "./moving.js";

const at = (name) => document.getElementById(name);
const MOST = 500, KEPT = 40;
// So often something is asked again of a server that has much to do, and after so many milliseconds.
const TRIES = 4, RETRY = 1000;
const LONGEST_NAME = 80;
// `step` is the one that is shown; nothing stands for the last one there is. `chosen` is what was clicked last, and
// `isOwn` says that prefix and packet are a person's, not the lesson's.
const now = { step: null, steps: [], first: {}, prefix: "", from: "", to: "", chosen: null, isOwn: false, blames: false,
  page: "", name: "", role: "work", isLost: false, isGoing: false, drawing: false, again: false, drawn: -1, isSlow: false };
const waiting = new Map(), pictures = new Map();
let forms = [], number = 0, events = null, isSettling = false;
const picture = new Picture(clicked);
// What is accepted is what was seen: the proposal as it was shown for so many edits.
const proposals = new Proposals(at("proposals"), async (what, { number, edits }) =>
  answer(await ask(what, what === "accept" ? { number, edits } : { number })));

// By which program the network is run, in words.
function programOf({ version, commit, kit, digest, is_proved: isProved }) {
  const how = isProved === null ? "" : isProved ? ", proved by " + kit : ", not proved";
  return "bgpsim " + version + how + ", commit " + commit.slice(0, 12) + ", " + digest.slice(0, 31);
}

// After a comment, too, all that was made before may stand elsewhere.
function isPlacing(line) {
  const [word] = (line || "").trim().split(/ +/);
  return word.startsWith("#") || PLACING.has(word);
}

// The server

function ask(what, more) {
  const id = number += 1, body = JSON.stringify({ id, do: what, ...more });
  const found = new Promise((done) => waiting.set(id, done));
  fetch("do?page=" + encodeURIComponent(now.page), { method: "POST", headers: { "Content-Type": "application/json" }, body })
    .then((told) => told.ok, () => false)
    .then((isTaken) => { if (!isTaken) heard({ id, error: "the server does not take it" }); });
  return found;
}

const pause = (milliseconds) => new Promise((done) => setTimeout(done, milliseconds));

// A server that has much to do says so, and is asked again.
async function get(path, values) {
  const asked = { ...values, page: now.page };
  const given = new URLSearchParams(Object.entries(asked).filter(([, value]) => value !== "" && value !== null));
  for (let tries = 1; ; tries += 1) {
    const told = await fetch(path + "?" + given);
    if (tries === TRIES || (told.status !== 503 && told.status !== 429)) return told.status === 429 ? { error: await told.text() } : told.json();
    await pause(RETRY * tries);
  }
}

// A name is entered again by the token that it was given; it is kept in this browser.
const tokenOf = (name) => sessionStorage.getItem("token " + name) || localStorage.getItem("token " + name);

function joined() {
  if (events) events.close();
  const name = at("name").value.trim(), token = tokenOf(name);
  events = new EventSource("events?" + new URLSearchParams({ as: name, ...(token ? { token } : {}) }));
  events.onmessage = (message) => heard(JSON.parse(message.data));
  events.onerror = lost;
}

// The connection was lost: what was asked has no answer, and the page joins again, with the token that it has by now.
function lost() {
  events.close();
  if (!now.isLost) log("the lab is not there: the page tries again", true);
  now.isLost = true;
  for (const [id, done] of [...waiting]) {
    waiting.delete(id);
    done({ id, error: "the connection was lost: look whether it was done" });
  }
  setTimeout(joined, RETRY);
}

const heards = {
  page: (told) => {
    if (now.isLost) log("the lab is back");
    Object.assign(now, { page: told.page, role: told.role, first: told.first || {}, isLost: false });
    document.documentElement.classList.toggle("looks", told.role === "look");
    proposals.isOnlySeen = told.role === "look";
    at("program").textContent = programOf(told.program);
    proposals.all([], now.name);
    catchUp();
  },
  changes: (told) => {
    for (const each of told.changes) {
      now.steps[each.step - 1] = { ...now.steps[each.step - 1], line: each.line, reply: each.reply };
      log((each.who || "") + ": " + each.line + (each.reply && each.reply !== "ok" ? ": " + each.reply : ""));
    }
    if (told.changes.some((each) => isPlacing(each.line))) pictures.clear();
    show();
  },
  workers: (told) => { going(told); log(told.text); },
  shown: (told) => {
    if (now.role !== "look" || told.step === null) return;
    Object.assign(now, { step: told.step, prefix: told.prefix || "", from: (told.way || [""])[0], to: (told.way || ["", ""])[1],
      chosen: told.router ? ["router", told.router] : null, isOwn: true });
    if (told.step > now.steps.length) catchUp();
    else show();
  },
  proposal: (told) => {
    proposals.add(told, now.name);
    log("proposal " + told.number + " of " + told.who + ", " + told.name);
  },
  told: (told) => {
    if (told.closes) proposals.close(told.closes, now.name);
    log(told.text);
  },
  missed: () => catchUp(),
};

function heard(told) {
  if (told.event) (heards[told.event] || ((other) => log(other.text)))(told);
  else if (waiting.has(told.id)) {
    waiting.get(told.id)(told);
    waiting.delete(told.id);
  } else if (told.error) {
    log(told.error, true);
    if (told.id === 0) answer(told);
  } else if (told.workers) entered(told);
}

async function entered(told) {
  now.name = told.name;
  at("name").value = told.name;
  sessionStorage.setItem("name", told.name);
  for (const store of [sessionStorage, localStorage]) store.setItem("token " + told.name, told.token);
  going(told.workers);
  const open = await ask("proposals", {});
  proposals.all(open.proposals || [], now.name);
}

function going(workers) {
  now.isGoing = workers.is_going;
  at("settle").textContent = now.isGoing ? "Pause (s)" : "Converge (s)";
}

async function catchUp() {
  let from = 0, told;
  do {
    told = await get("steps", { from });
    told.steps.forEach((each, place) => { now.steps[from + place] = { ...now.steps[from + place], ...each }; });
    from += told.steps.length;
  } while (told.steps.length && from < told.step);
  pictures.clear();
  headings();
  show();
}

// A picture that was asked for is kept: what stands after a step does not change.
function pictured(step, view) {
  const asked = { step, prefix: view.prefix, from: view.from && view.to && view.from, to: view.from && view.to };
  const key = JSON.stringify(asked);
  if (!pictures.has(key)) {
    const found = get("picture", asked);
    pictures.set(key, found);
    const forget = () => { if (pictures.get(key) === found) pictures.delete(key); };
    found.then((told) => { if (told.error) forget(); }, forget);
  }
  while (pictures.size > KEPT) pictures.delete(pictures.keys().next().value);
  return pictures.get(key);
}

// What is shown

function log(text, isWrong) {
  at("log").prepend(element("li", isWrong ? "refused" : "", text));
  while (at("log").children.length > MOST) at("log").lastChild.remove();
}

function answer(told) {
  const isRefused = Boolean(told.error) || (told.reply || [""])[0].startsWith("refused");
  at("answer").className = isRefused ? "work refused" : "work";
  at("answer").textContent = [...(told.reply || []), ...(told.told || []), told.error || told.text || told.verdict || ""]
    .filter((each) => each).join("\n");
}

function options(select, values, first, chosen) {
  const texts = JSON.stringify([first, values]), made = ([value, text]) => new Option(text, value);
  if (select.dataset.texts !== texts) select.replaceChildren(new Option(first, ""), ...values.map(made));
  select.dataset.texts = texts;
  select.value = values.some(([value]) => value === chosen) ? chosen : "";
}

const shownStep = () => (now.step === null ? now.steps.length : now.step);
const noteOf = (step) => (step === 0 ? now.first : now.steps[step - 1]) || {};

// What is shown of a step: what a person chose, or what the lesson is about.
function viewOf(step) {
  const router = now.chosen && now.chosen[0] === "router" ? now.chosen[1] : null;
  const own = { prefix: now.prefix, from: now.from, to: now.to, router };
  const view = noteOf(step).view;
  if (!view || now.isOwn) return own;
  const [from, to] = view.way || ["", ""];
  return { prefix: view.prefix, from, to, router: view.router || own.router };
}

// One picture is asked for at a time, and then the last one that was wanted.
function show(how) {
  now.isSlow = moving.isSlow() && how !== "slider";
  words();
  draw();
}

async function draw() {
  if (now.drawing) {
    now.again = true;
    return;
  }
  now.drawing = true;
  document.body.dataset.state = "drawing";
  try {
    await drawn(shownStep());
  } catch (fault) {
    log("no picture: " + fault.message, true);
  }
  now.drawing = false;
  document.body.dataset.state = "drawn";
  if (now.again) {
    now.again = false;
    draw();
  }
}

async function drawn(step) {
  const view = viewOf(step), told = await pictured(step, view);
  if (told.error) {
    // A newer picture took the place of this one while it waited.
    if (told.error.startsWith("another picture")) now.again = true;
    else log(told.error, true);
    return;
  }
  const before = now.drawn;
  moving.stop();
  document.body.dataset.made = String(picture.show(told));
  if (picture.element.parentNode === null) at("picture").replaceChildren(picture.element);
  at("reply").textContent = [told.reply, ...told.titles].filter((each) => each).join("\n");
  options(at("prefix"), told.prefixes.map((each) => [each, each]), "nothing", view.prefix);
  options(at("from"), told.routers, "nobody", view.from);
  if (document.activeElement !== at("to")) at("to").value = view.to;
  now.drawn = step;
  document.body.dataset.step = String(step);
  const [what, from, to] = (noteOf(step).line || "").trim().split(/ +/);
  if (now.isSlow && !now.again && step === before + 1 && what === "deliver") moving.move(picture.element, from, to, told.reply);
  await tabled(step, told, view);
  const way = view.from && view.to ? [view.from, view.to] : null;
  if (now.role === "teach") ask("show", { step, prefix: view.prefix, way, router: view.router });
  const next = step + (step < before ? -1 : 1);
  if (!now.again && next >= 0 && next <= now.steps.length) pictured(next, viewOf(next)).catch(() => {});
}

async function tabled(step, told, view) {
  const parts = [], prefix = view.prefix || told.prefixes[0];
  const about = now.chosen && now.chosen.length === 2 ? now.chosen[1] : view.router;
  if (view.router && prefix) {
    const found = await get("table", { step, router: view.router, prefix });
    if (!found.error) parts.push(...tables(found));
  }
  if (now.blames && about && now.role !== "look") {
    const found = await ask("blame", { router: about });
    if (!found.error) parts.unshift(...blamed(about, found.edits, go));
  }
  at("table").hidden = !parts.length;
  renew(at("table"), parts);
}

function words() {
  const step = shownStep(), each = noteOf(step);
  at("slider").max = now.steps.length;
  at("slider").value = step;
  at("count").textContent = "Step " + step + " of " + now.steps.length;
  at("heading").textContent = each.heading || "";
  at("says").textContent = each.says || "";
  at("line").textContent = each.line || "";
  renew(at("asks"), (each.asks || []).flatMap(asked));
  at("follow").hidden = !now.isOwn || now.role === "look" || !each.view;
  const begun = marks().filter(([first]) => first <= step).pop();
  at("headings").value = begun ? String(begun[0]) : "0";
}

// What a lesson asks at a step: a text, and a question that is shown when it is clicked.
function asked(each) {
  const parts = each.says ? [element("p", "", each.says)] : [], words = each.line.split(/ +/);
  const isQuestion = forms.some(([spelling, , group]) => group === "ask" && spelling.split(" ")[0] === words[0]);
  const isSeen = isQuestion && !UNSEEN.has(words[0]);
  if (each.line && !isSeen) parts.push(element("code", "", each.line + (isQuestion ? "" : ": it is refused")));
  if (!each.line || !isSeen) return parts;
  const made = element("button", "", each.line);
  made.addEventListener("click", () => look(words));
  return [...parts, made];
}

// Shows what a question is about.
function look([what, router, more]) {
  own();
  if (what === "trace") Object.assign(now, { from: router, to: more });
  else {
    now.chosen = ["router", router];
    if (more && more.includes("/")) now.prefix = more;
  }
  show();
}

// The headings of a lesson, each with its first step.
function marks() {
  const found = [];
  now.steps.forEach((each, before) => {
    if (each.heading && each.heading !== (found.length ? found[found.length - 1][1] : "")) found.push([before + 1, each.heading]);
  });
  return found;
}

function headings() {
  const found = marks();
  at("contents").hidden = !found.length;
  const options = found.map(([step, text]) => new Option(text, String(step)));
  at("headings").replaceChildren(new Option("the beginning", "0"), ...options);
}

// What is done

// From here on prefix and packet are a person's.
function own() {
  const view = viewOf(shownStep());
  Object.assign(now, { prefix: view.prefix, from: view.from, to: view.to, isOwn: true });
}

function go(step, how) {
  now.step = step >= now.steps.length ? null : Math.max(0, step);
  show(how);
}

async function call(line) {
  if (at("gather").checked) {
    at("change").value += (at("change").value && !at("change").value.endsWith("\n") ? "\n" : "") + line + "\n";
    answer({ text: "into the change: " + line });
    return;
  }
  now.step = null;
  answer(await ask("call", { line }));
}

function clicked(about) {
  if (about[0] === "queue") {
    if (now.role !== "look") call("deliver " + about[1] + " " + about[2]);
    return;
  }
  now.chosen = about;
  at("about").textContent = about.join(" ");
  at("blame").hidden = about.length !== 2;
  const view = viewOf(shownStep());
  const known = { A: about[1], B: about[2] || "", R: about[1], X: about[2] || "", V: about[1], P: view.prefix, D: view.to };
  const named = FORMS[about[0]] || [];
  at("forms").replaceChildren(...named.flatMap((name) => forms.filter(([spelling]) => spelling.split(" ")[0] === name)
    .flatMap(([spelling, meaning]) => both(spelling, about).map((turned) =>
      commandForm(spelling, meaning, turned ? { ...known, A: about[2], B: about[1], R: about[2], X: about[1] } : known, call)))));
  at("chosen").hidden = false;
  show();
}

// A command that is one end's is offered for both.
function both(spelling, about) {
  return about.length === 3 && ONE_END.has(spelling.split(" ")[0]) ? [false, true] : [false];
}

async function settle() {
  if (isSettling) return;
  isSettling = true;
  now.step = null;
  const pace = at("pace").value.trim();
  if (now.isGoing) answer(await ask("pause", {}));
  else {
    const told = await ask("pace", { a_second: pace ? Number(pace) : null });
    answer(told.error ? told : await ask("go", {}));
  }
  isSettling = false;
}

const next = async () => {
  now.step = null;
  const told = await ask("next", {});
  answer(told.quiet ? { text: "all queues are empty" } : told);
};

async function propose() {
  const lines = at("change").value.split(/\r?\n/);
  while (lines.length && !lines[lines.length - 1].trim()) lines.pop();
  answer({ text: "it is tried what it would do .." });
  const told = await ask("propose", { name: at("title").value.trim().slice(0, LONGEST_NAME) || "a change", lines });
  answer(told.error ? told : { text: "proposal " + told.number + " is shown to all: another one accepts it" });
  if (!told.error) at("change").value = "";
}

async function opened() {
  const [file] = at("file").files;
  if (!file) return;
  at("title").value = file.name;
  at("change").value = await file.text();
}

function blame() {
  if (!now.chosen || now.chosen.length !== 2) return;
  now.blames = !now.blames;
  at("blame").setAttribute("aria-pressed", String(now.blames));
  show();
}

const large = () => at("large").setAttribute("aria-pressed", String(document.documentElement.classList.toggle("large")));
const undo = async () => { now.step = null; answer(await ask("undo", {})); };
const follow = () => { Object.assign(now, { isOwn: false, chosen: null }); at("chosen").hidden = true; show(); };
// To the heading after the step that is shown, or the one before.
const onward = () => go((marks().find(([first]) => first > shownStep()) || [now.steps.length])[0]);
const backward = () => go((marks().filter(([first]) => first < shownStep()).pop() || [0])[0]);
const acts = { first: () => go(0), back: () => go(shownStep() - 1), forth: () => go(shownStep() + 1),
  last: () => go(now.steps.length), next, settle, undo, large, follow, blame, print: () => window.print(),
  check: async () => answer(await ask("check", {})) };
const keys = { ArrowLeft: acts.back, ArrowRight: acts.forth, PageUp: acts.back, PageDown: acts.forth,
  Home: acts.first, End: acts.last, n: next, s: settle, u: undo, b: blame, l: large, p: acts.print, j: onward, k: backward,
  v: () => { if (!at("follow").hidden) follow(); }, c: () => at("command").focus() };
const TYPED = "input:not([type=range]):not([type=checkbox]), select, textarea";
const WORKING = new Set(["n", "s", "u", "b", "c"]);

for (const name of Object.keys(acts)) at(name).addEventListener("click", () => acts[name]());
at("slider").addEventListener("input", () => go(Number(at("slider").value), "slider"));
at("headings").addEventListener("change", () => go(Number(at("headings").value)));
at("prefix").addEventListener("change", () => { const value = at("prefix").value; own(); now.prefix = value; show(); });
at("from").addEventListener("change", () => { const value = at("from").value; own(); now.from = value; show(); });
at("to").addEventListener("change", () => { const value = at("to").value.trim(); own(); now.to = value; show(); });
at("name").addEventListener("change", () => joined());
at("asked").addEventListener("submit", (event) => { event.preventDefault(); call(at("command").value); });
at("propose").addEventListener("submit", (event) => { event.preventDefault(); propose(); });
at("file").addEventListener("change", opened);
document.addEventListener("keydown", (key) => {
  const typed = key.target instanceof Element && key.target.closest(TYPED);
  if (key.key === "Escape" && typed) typed.blur();
  if (typed || key.ctrlKey || key.altKey || key.metaKey || !keys[key.key]) return;
  if (now.role === "look" && WORKING.has(key.key)) return;
  key.preventDefault();
  keys[key.key]();
});
at("name").value = sessionStorage.getItem("name") || "";
get("forms", {}).then((told) => { forms = told; joined(); });
