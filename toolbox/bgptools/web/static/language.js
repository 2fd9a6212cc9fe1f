// Made by tools/language of language/language.toml: a change belongs there.
// The commands that are offered at what is clicked.
export const FORMS = {
  router: ["origin", "noorigin", "med", "cluster", "trace", "routes", "link", "join", "router", "virtual"],
  peer: ["feed", "link", "join"],
  link: ["fail", "mend", "metric", "join"],
  session: ["stop", "start", "client", "self", "rule", "clear", "queue", "in", "out", "deliver"],
};
// These are one end's, and offered for both.
export const ONE_END = new Set(["client", "self", "rule", "clear", "queue", "in", "out", "deliver"]);
// What these ask about is not to be seen in the picture.
export const UNSEEN = new Set(["quiet", "queue", "cost"]);
// After these all that was made before may stand elsewhere.
export const PLACING = new Set(["router", "virtual", "link", "join"]);
