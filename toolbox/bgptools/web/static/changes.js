// Changes that are proposed: one is shown to all as what it would do, and made when another one accepts it.
import { element, renew } from "./drawn.js";

const nameOf = (proposal) => "Proposal " + proposal.number + " of " + proposal.who + ": " + proposal.name;

// The proposals that are open, in their place of the page. `act` accepts or declines one.
export class Proposals {
  constructor(place, act) {
    this.place = place;
    this.act = act;
    this.open = new Map();
    // Who only looks can do nothing about them.
    this.isOnlySeen = false;
  }

  // What is open now, for a page that comes later.
  all(proposals, own) {
    this.open = new Map(proposals.map((each) => [each.number, each]));
    this.show(own);
  }

  // One is shown, or shown anew.
  add(proposal, own) {
    this.open.set(proposal.number, proposal);
    this.show(own);
  }

  close(number, own) {
    if (this.open.delete(number)) this.show(own);
  }

  show(own) {
    renew(this.place, [...this.open.values()].map((each) => this.#made(each, each.who === own)));
  }

  #made(proposal, isOwn) {
    const made = element("section", "proposal", "");
    made.dataset.proposal = proposal.number + " " + proposal.edits;
    const lines = element("pre", "lines", proposal.lines.join("\n"));
    const does = element("pre", "does", (proposal.text || "").trimEnd() || "what it does is not known yet");
    for (const [part, told] of [[lines, "Its commands"], [does, "What it would do"]]) {
      part.tabIndex = 0;
      part.setAttribute("role", "region");
      part.setAttribute("aria-label", told);
    }
    if (this.isOnlySeen) {
      made.append(element("h2", "", nameOf(proposal)), lines, does);
      return made;
    }
    const acts = isOwn ? [["decline", "Take it back"]] : [["accept", "Accept"], ["decline", "Decline"]];
    made.append(element("h2", "", nameOf(proposal)), lines, does,
      ...acts.map(([name, text]) => {
        const button = element("button", name, text);
        button.addEventListener("click", () => this.act(name, proposal));
        return button;
      }), ...(isOwn ? [element("span", "", "another one accepts it")] : []));
    return made;
  }
}
