// Pictures and tables as elements of the page. Whatever a script brings becomes text or the value of an attribute that
// is listed here: nothing is read as markup.
const SVG = "http://www.w3.org/2000/svg";
const KINDS = new Set(["g", "title", "rect", "circle", "path", "polygon", "text"]);
const ATTRIBUTES = new Set(["x", "y", "cx", "cy", "r", "rx", "width", "height", "d", "points", "fill", "stroke", "stroke-width",
  "stroke-dasharray", "stroke-linecap", "font-size", "font-weight", "text-anchor"]);
// The colors of Okabe and Ito, which nearly all can tell apart, in place of those of other pictures.
const COLORS = { "#2b6cb0": "#0072b2", "#c05621": "#d55e00", "#2f855a": "#009e73", "#d53f8c": "#cc79a7", "#6b46c1": "#56b4e9",
  "#d69e2e": "#e69f00", "#c6f0d0": "#bfe8dc" };
// What is followed; and words, which are dark where a line may be light.
const WAY = "#d53f8c", WORDS = { "#6b46c1": "#1a202c", "#8a8a8a": "#4a5568" };
const CLICKED = { router: "router", peer: "virtual peer", link: "link", session: "session", queue: "deliver" };

export function element(kind, style, text) {
  const made = document.createElement(kind);
  made.className = style;
  made.textContent = text;
  return made;
}

// Puts parts into an element, in their order. Those that are there already are not moved: they keep what is in focus.
function place(inside, parts) {
  const staying = new Set(parts);
  for (const each of [...inside.children]) if (!staying.has(each)) each.remove();
  parts.forEach((each, at) => {
    if (inside.children[at] !== each) inside.insertBefore(each, inside.children[at] || null);
  });
}

// Shows parts in an element. One that looks like an old one gives way to it: a button that is pressed when all is drawn
// anew is the same one when it is let go. What a part does has to follow from its texts and attributes.
export function renew(inside, parts) {
  const old = [...inside.children];
  place(inside, parts.map((each) => {
    const at = old.findIndex((one) => one.isEqualNode(each));
    return at < 0 ? each : old.splice(at, 1)[0];
  }));
}

function part([kind, attributes, text, inside]) {
  if (!KINDS.has(kind)) throw new Error("no part of a picture: " + kind);
  const made = document.createElementNS(SVG, kind);
  for (const [name, value] of Object.entries(attributes)) {
    if (ATTRIBUTES.has(name)) made.setAttribute(name, (kind === "text" && WORDS[value]) || COLORS[value] || value);
  }
  // The way of the packet that is followed is not told by its color alone.
  if (attributes.stroke === WAY && kind === "path") made.setAttribute("stroke-width", "5");
  made.append(text, ...inside.map(part));
  return made;
}

// The element of one part; what is clicked is told by `about`, as ["link", A, B].
function clickable([about, shapes], clicked) {
  const made = part(shapes);
  if (!about.length || !CLICKED[about[0]]) return made;
  const told = CLICKED[about[0]] + " " + about.slice(1).join(" ");
  made.setAttribute("tabindex", "0");
  made.setAttribute("role", "button");
  made.setAttribute("aria-label", told);
  made.dataset.about = told;
  made.addEventListener("click", () => clicked(about));
  made.addEventListener("keydown", (key) => {
    if (key.key !== "Enter" && key.key !== " ") return;
    key.preventDefault();
    clicked(about);
  });
  widen(made);
  return made;
}

// A picture that changes from step to step: parts that are as they were keep their elements.
export class Picture {
  constructor(clicked) {
    this.clicked = clicked;
    this.kept = new Map();
    this.element = document.createElementNS(SVG, "svg");
    for (const [name, value] of [["font-family", "Helvetica, Arial, sans-serif"], ["text-anchor", "middle"], ["role", "group"],
      ["aria-label", "The network"]]) this.element.setAttribute(name, value);
  }

  // Shows a picture; how many of its parts had to be made.
  show(picture) {
    const before = this.kept, focused = document.activeElement;
    const about = this.element.contains(focused) ? focused.dataset.about : null;
    let made = 0;
    this.kept = new Map();
    const parts = picture.parts.map((each) => {
      const key = JSON.stringify(each), old = before.get(key);
      const one = old && old.length ? old.pop() : clickable(each, this.clicked);
      if (!old || one.parentNode !== this.element) made += 1;
      this.kept.set(key, [...(this.kept.get(key) || []), one]);
      return one;
    });
    this.#fit(picture.width, picture.height);
    place(this.element, parts);
    if (about && document.activeElement !== focused) this.#focus(about);
    return made;
  }

  // Its size, which is mostly what it was: to set it again would have all words measured again.
  #fit(width, height) {
    const box = "0 0 " + width + " " + height;
    if (this.element.getAttribute("viewBox") === box) return;
    this.element.setAttribute("viewBox", box);
    this.element.style.setProperty("--width", width + "px");
    this.element.style.setProperty("--height", height + "px");
  }

  // Focus goes to what stands for what had it; of a queue that is empty, to its session.
  #focus(about) {
    const [, one, other] = about.split(" "), wanted = [about, "session " + one + " " + other, "session " + other + " " + one];
    const found = [...this.element.querySelectorAll("g[data-about]")];
    const to = wanted.map((name) => found.find((each) => each.dataset.about === name)).find((each) => each);
    if (to) to.focus();
  }
}

// A thin line is clicked beside it, too.
function widen(each) {
  for (const line of each.querySelectorAll("path")) {
    const wide = line.cloneNode(false);
    wide.setAttribute("stroke-width", "14");
    wide.setAttribute("stroke", "transparent");
    wide.removeAttribute("stroke-dasharray");
    each.append(wide);
  }
}

function table(heads, rows, isBest) {
  const made = element("table", "", ""), head = element("tr", "", "");
  head.append(...heads.map((each) => element("th", "", each)));
  made.append(head, ...rows.map((row) => {
    const line = element("tr", isBest(row) ? "best" : "", "");
    line.append(...heads.map((_, at) => element("td", "", row[at])));
    return line;
  }));
  return made;
}

// A router's three tables.
export function tables(told) {
  const none = () => false;
  return [element("h2", "", told.router + ", " + told.prefix),
    element("h2", "", "Adj-RIB-In"), table(["from", "route", "why"], told.in, (row) => row[3]),
    element("h2", "", "Loc-RIB"), table(["route"], [[told.loc]], none),
    element("h2", "", "Adj-RIB-Out"), table(["to", "route"], told.out, none)];
}

// Who changed what about a router or peer, the last change first; a step is gone to by a click.
export function blamed(about, edits, gone) {
  const made = element("table", "", ""), head = element("tr", "", "");
  head.append(...["step", "when", "who", "command"].map((each) => element("th", "", each)));
  made.append(head, ...[...edits].reverse().map((edit) => {
    const line = element("tr", "", ""), step = element("td", "", ""), to = element("button", "", String(edit.step));
    to.addEventListener("click", () => gone(edit.step));
    step.append(to);
    line.append(step, element("td", "", moment(edit.at)), element("td", "", edit.who),
      element("td", "", edit.line + (edit.by ? " (accepted by " + edit.by + ")" : "")));
    return line;
  }));
  return [element("h2", "", "Who changed what about " + about), made];
}

// A time as `join` writes it; empty where it is not known.
function moment(seconds) {
  if (typeof seconds !== "number") return "";
  const at = new Date(seconds * 1000), two = (number) => String(number).padStart(2, "0");
  return [at.getFullYear(), two(at.getMonth() + 1), two(at.getDate())].join("-") + " "
    + [at.getHours(), at.getMinutes(), at.getSeconds()].map(two).join(":");
}

// A form for a command, as it is spelled: what is known of it is filled in.
export function commandForm(spelling, meaning, known, submitted) {
  const made = element("form", "command", ""), words = spelling.split(" ");
  const fields = words.slice(1).map((word) => field(word, known));
  made.title = meaning;
  made.append(element("button", "", words[0]), ...fields);
  made.addEventListener("submit", (event) => {
    event.preventDefault();
    submitted([words[0], ...fields.map((each) => each.value || each.textContent)].map((each) => each.trim())
      .filter((each) => each).join(" "));
  });
  return made;
}

function field(word, known) {
  if (/^[a-z]+$/.test(word)) return element("span", "", word);
  if (/^[a-z]+(\|[a-z]+)+$/.test(word)) {
    const made = element("select", "", "");
    for (const each of word.split("|")) made.append(new Option(each, each));
    made.setAttribute("aria-label", word);
    return made;
  }
  const made = element("input", "", "");
  made.value = known[word] || "";
  made.placeholder = word;
  made.setAttribute("aria-label", word);
  return made;
}
