"""How a timeline looks, and what its page does where scripts run: colours, the style sheet, and the script that shows and
pins the lines of a mark. The script has no `<` and no `&`, so that the page is read as XML too."""
from __future__ import annotations

from timeline_reading import Lane

# Of views, by the order in which they are first entered: pale ones that differ also for colour-blind eyes, on which black is
# read. Those of versions, by the order in which they were first written, are dark, and white is read on them.
PALE = ("#77aadd", "#ee8866", "#eedd88", "#99ddff", "#44bb99", "#ffaabb", "#aaaa00", "#dddddd", "#bbcc33")
DARK = ("#4477aa", "#aa3377", "#228833", "#8c6d00", "#004488", "#994455", "#555555", "#762a83")
# Of the groups of a split.
TINTS = ("#e6effa", "#fcefd9", "#e5f4ea", "#f5e6f1")
EDGES = ("#3a6ea5", "#b3701c", "#2f8f5b", "#a0488c")
LANE_COLOURS = {
    Lane.PROMISED: "#4d5666", Lane.HANDED: "#2b6a8f", Lane.SETTLED: "#1f7a3d", Lane.LEARNT: "#4b7d2c",
    Lane.DROPPED: "#875412", Lane.DONE: "#00705a", Lane.ANSWERED: "#1c5fa8", Lane.REFUSED: "#b34700",
    Lane.DOUBT: "#86329a", Lane.ABORTED: "#5f5f5f", Lane.OPEN: "#3d4785", Lane.NO_TABLE: "#b34700",
    Lane.TABLES: "#4d5666", Lane.GIVEN_UP: "#b3001b", Lane.BLOCKED: "#6d6d6d", Lane.LOST: "#a3195b",
}


def version_colour(number: int) -> str:
    """The colour of the version with that number, from 1 on."""
    return DARK[(number - 1) % len(DARK)]


STYLE = """
body { margin: 0; background: #fff; color: #1b2330; font: 14px/1.45 system-ui, "DejaVu Sans", sans-serif; }
main { padding: 18px 22px 30px; max-width: 1330px; }
h1 { font-size: 21px; margin: 0 0 2px; overflow-wrap: anywhere; }
h2 { font-size: 15px; margin: 22px 0 6px; }
p { margin: 4px 0; }
.facts { color: #4a5363; }
.notice { background: #fff4d6; border-left: 4px solid #b3701c; padding: 5px 10px; margin: 8px 0; }
.counts { list-style: none; display: flex; flex-wrap: wrap; gap: 8px; margin: 12px 0; padding: 0; }
.counts li { border: 1px solid #cfd5de; border-radius: 5px; padding: 3px 10px 4px; font-size: 13px; }
.counts b { display: block; font-size: 19px; line-height: 1.25; }
.counts .bad { border-color: #b3001b; background: #fdeef0; }
.counts .doubtful { border-color: #86329a; background: #f8effa; }
.legend { list-style: none; display: flex; flex-wrap: wrap; gap: 3px 20px; margin: 8px 0 10px; padding: 0; font-size: 12.5px; }
.legend svg { vertical-align: -3px; margin-right: 6px; }
.drawing { overflow-x: auto; border: 1px solid #cfd5de; border-radius: 5px; }
table { border-collapse: collapse; font-size: 13px; }
th, td { text-align: left; vertical-align: top; padding: 3px 12px 3px 0; border-bottom: 1px solid #e3e7ed; }
td.number, th.number { text-align: right; }
td ul { margin: 0; padding: 0; list-style: none; }
.versions td:nth-child(1), .versions td:nth-child(4) { white-space: nowrap; }
.versions td:nth-child(2) { max-width: 300px; overflow-wrap: anywhere; }
summary { cursor: pointer; font-weight: 600; margin: 16px 0 6px; }
.swatch { display: inline-block; vertical-align: -2px; }
[data-l] { cursor: pointer; }
[data-l]:hover > rect:first-of-type, .pin > rect:first-of-type { stroke: #000; stroke-width: 2; }
#hint, .card { background: #fff; border: 1px solid #8a93a3; border-radius: 5px; padding: 6px 10px; font-size: 12.5px; }
#hint { position: fixed; max-width: 640px; box-shadow: 0 3px 12px #0004; pointer-events: none; z-index: 2; }
#hint[hidden] { display: none; }
.card { margin: 6px 0; position: relative; }
.card button { float: right; }
.said { font-weight: 600; }
.lines { font: 12px/1.4 ui-monospace, "DejaVu Sans Mono", monospace; margin: 3px 0 0; overflow-wrap: anywhere; }
.lines b { display: inline-block; min-width: 52px; font-weight: 400; color: #5b6575; }
"""

SCRIPT = """
(function () {
  "use strict";
  const texts = JSON.parse(document.getElementById("lines").textContent);
  const hint = document.getElementById("hint");
  const pinned = document.getElementById("pinned");
  const pins = new Map();
  const said = new Map();
  const made = function (name, kind, text) {
    const element = document.createElement(name);
    element.className = kind;
    element.textContent = text;
    return element;
  };
  const fill = function (into, mark) {
    into.append(made("div", "said", said.get(mark)));
    const numbers = mark.dataset.l.split(" ");
    for (const number of numbers) {
      const line = made("div", "lines", "");
      line.append(made("b", "", number), document.createTextNode(texts[number]));
      into.append(line);
    }
    const more = Number(mark.dataset.n) - numbers.length;
    if (more > 0) { into.append(made("div", "lines", "and " + more + (more === 1 ? " more line" : " more lines"))); }
    return into;
  };
  const hide = function () { hint.hidden = true; };
  const show = function (mark, x, y) {
    hint.replaceChildren();
    fill(hint, mark);
    hint.hidden = false;
    const right = window.innerWidth - hint.offsetWidth - 8;
    const below = window.innerHeight - hint.offsetHeight - 8;
    hint.style.left = Math.max(4, Math.min(x + 14, right)) + "px";
    hint.style.top = Math.max(4, y + 16 > below ? y - hint.offsetHeight - 10 : y + 16) + "px";
  };
  const pin = function (mark) {
    if (pins.has(mark)) {
      pins.get(mark).remove();
      pins.delete(mark);
    } else {
      const card = made("div", "card", "");
      const button = made("button", "", "unpin");
      button.addEventListener("click", function () { pin(mark); });
      card.append(button);
      pinned.append(fill(card, mark));
      pins.set(mark, card);
    }
    mark.classList.toggle("pin", pins.has(mark));
  };
  for (const mark of document.querySelectorAll("[data-l]")) {
    const title = mark.querySelector("title");
    said.set(mark, title.textContent);
    mark.setAttribute("aria-label", title.textContent);
    mark.setAttribute("tabindex", "0");
    title.remove();
    mark.addEventListener("pointermove", function (event) { show(mark, event.clientX, event.clientY); });
    mark.addEventListener("pointerleave", hide);
    mark.addEventListener("click", function () { pin(mark); });
    mark.addEventListener("focus", function () {
      const box = mark.getBoundingClientRect();
      show(mark, box.left, box.bottom);
    });
    mark.addEventListener("blur", hide);
    mark.addEventListener("keydown", function (event) { if (event.key === "Enter") { pin(mark); } });
  }
  document.addEventListener("keydown", function (event) { if (event.key === "Escape") { hide(); } });
})();
"""
