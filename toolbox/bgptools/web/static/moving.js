// A message that goes along its session, from who sent it to who took it.
const SVG = "http://www.w3.org/2000/svg";
// How long it is on its way, and how long ago the step before has to have been asked for, in milliseconds.
const LASTS = 450, FAST = 300;
const stills = window.matchMedia("(prefers-reduced-motion: reduce)");
let under = null, before = -Infinity;

// The line that a session of two is drawn as.
function lineOf(picture, one, other) {
  const about = [one + " " + other, other + " " + one].map((both) => "session " + both);
  const session = [...picture.querySelectorAll("g[data-about]")].find((each) => about.includes(each.dataset.about));
  return session ? { line: session.querySelector("path"), isTurned: session.dataset.about === about[1] } : null;
}

function envelope(isWithdrawal) {
  const [made, back, flap] = ["g", "rect", "path"].map((kind) => document.createElementNS(SVG, kind));
  const looks = { fill: "#ffffff", stroke: "#1a202c", "stroke-width": "2",
    ...(isWithdrawal ? { "stroke-dasharray": "3 2" } : {}) };
  for (const [part, more] of [[back, { x: -13, y: -9, width: 26, height: 18, rx: 2 }], [flap, { d: "M-13 -8 L0 3 L13 -8" }]]) {
    for (const [name, value] of Object.entries({ ...looks, ...more })) part.setAttribute(name, value);
    made.append(part);
  }
  made.setAttribute("class", "moving");
  made.setAttribute("aria-hidden", "true");
  return made;
}

// Takes away what is on its way.
export function stop() {
  if (under) under.remove();
  under = null;
}

// Notes that a step is to be shown; whether its message is seen to move, which it is not when steps follow too fast.
export function isSlow() {
  const now = performance.now(), isFast = now - before < FAST;
  before = now;
  return !isFast && !stills.matches;
}

// Moves a message in a picture; what it was is in the reply to its delivery.
export function move(picture, from, to, reply) {
  stop();
  const found = lineOf(picture, from, to);
  if (!found || !found.line) return;
  const length = found.line.getTotalLength(), made = under = envelope(/ withdraw/.test(reply)), start = performance.now();
  const at = (part) => found.line.getPointAtLength(length * (found.isTurned ? 1 - part : part));
  const place = (part) => {
    const { x, y } = at(part);
    made.setAttribute("transform", "translate(" + x.toFixed(1) + " " + y.toFixed(1) + ")");
  };
  const frame = (now) => {
    if (made !== under) return;
    const part = Math.min(1, Math.max(0, (now - start) / LASTS));
    place(part * part * (3 - 2 * part));
    requestAnimationFrame(part < 1 ? frame : () => { if (made === under) stop(); });
  };
  place(0);
  picture.append(made);
  requestAnimationFrame(frame);
}
