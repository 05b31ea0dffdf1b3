"use strict";

// What helps while one types in the source: the pair of a brace, and what may follow at the caret.

const HELD = new Set(["Control", "Shift", "Alt", "Meta"]);
const choices = { items: [], start: 0, end: 0, active: 0, asked: 0 };

/** What is painted between two offsets that are on one line, if that line is laid out. */
function paintedAt(field, start, end) {
  const pre = field.closest(".editor").querySelector("pre");
  const before = field.value.slice(0, start);
  const first = Number(pre.style.counterReset.split(" ")[1] ?? 0);
  const line = pre.children[before.split("\n").length - 1 - first];
  if (!line) return null;
  const column = before.length - (before.lastIndexOf("\n") + 1);
  const range = document.createRange();
  const walker = document.createTreeWalker(line, NodeFilter.SHOW_TEXT);
  let left = column;
  for (let node = walker.nextNode(); node; node = walker.nextNode()) {
    if (left < node.length || (left === node.length && start === end)) {
      range.setStart(node, left);
      range.setEnd(node, Math.min(node.length, left + end - start));
      return range;
    }
    left -= node.length;
  }
  return null;
}

const begins = (text, at) => (at === 0 || text[at - 1] === "\n") && /[A-Za-z#-]/.test(text[at]);

/** The offsets of two braces of an entry that belong together, one of which is at an offset. */
function paired(text, at) {
  let begin = at;
  while (begin > 0 && !begins(text, begin)) begin -= 1;
  const open = [];
  let last = "";
  for (let place = begin; place < text.length && (place <= at || !begins(text, place)); place += 1) {
    const letter = text[place];
    if (letter === "#" && place === begin) return null;
    if (letter === "{") open.push(place);
    if (letter === "}") {
      const start = open.pop();
      if (start !== undefined && (start === at || place === at)) return [start, place];
    }
    // Here a string begins: its braces are letters.
    if (letter === '"' && open.length && "{(,:".includes(last)) {
      place += /^"(?:[^"\\\n]|\\.)*/.exec(text.slice(place))[0].length;
    }
    if (letter.trim()) last = letter;
  }
  return null;
}

/** Marks the brace at the caret, and the one that belongs to it. */
function markPair() {
  if (!CSS.highlights) return;
  const field = $("source");
  const at = document.activeElement === field && field.selectionStart === field.selectionEnd ? field.selectionStart : -1;
  const near = [at, at - 1].find((place) => place >= 0 && "{}".includes(field.value[place] ?? " "));
  const found = near === undefined ? null : paired(field.value, near);
  const ranges = (found ?? []).map((place) => paintedAt(field, place, place + 1)).filter(Boolean);
  if (ranges.length) CSS.highlights.set("pair", new Highlight(...ranges));
  else CSS.highlights.delete("pair");
}

/** Asks what may follow at the caret, and shows it. */
async function offer() {
  const field = $("source");
  const asked = (choices.asked += 1);
  const at = field.selectionStart;
  const told = { source: field.value, reference: $("reference").value, locale: $("locale").value, name: state.name, others: state.others, at };
  try {
    const found = await ask("complete", told);
    const isNow = asked === choices.asked && field.selectionStart === at && document.activeElement === field;
    if (isNow) showChoices(found);
  } catch (error) {
    say(`The server doesn't answer: ${error.message}`);
  }
}

function showChoices({ start, end, items }) {
  const field = $("source");
  Object.assign(choices, { start, end, items, active: 0 });
  const caret = paintedAt(field, start, start)?.getBoundingClientRect();
  if (!items.length || !caret) return hideChoices();
  const box = $("choices");
  box.replaceChildren(...items.map(({ label, detail }, index) => {
    const made = element("li", { id: `choice-${index}`, role: "option" }, element("code", {}, label), detail ? element("span", {}, detail) : "");
    made.addEventListener("pointerdown", (event) => {
      event.preventDefault();
      take(index);
    });
    return made;
  }));
  box.hidden = false;
  const { width, height } = box.getBoundingClientRect();
  const below = caret.bottom + 4 + height <= innerHeight;
  box.style.left = `${Math.max(4, Math.min(caret.left, innerWidth - width - 4))}px`;
  box.style.top = `${Math.max(4, below ? caret.bottom + 4 : caret.top - height - 4)}px`;
  choose(0);
}

function hideChoices() {
  choices.asked += 1;
  choices.items = [];
  $("choices").hidden = true;
  $("source").removeAttribute("aria-activedescendant");
}

function choose(index) {
  choices.active = (index + choices.items.length) % choices.items.length;
  [...$("choices").children].forEach((each, number) => each.setAttribute("aria-selected", String(number === choices.active)));
  $("choices").children[choices.active].scrollIntoView({ block: "nearest" });
  $("source").setAttribute("aria-activedescendant", `choice-${choices.active}`);
}

function take(index) {
  const { start, end, items } = choices;
  hideChoices();
  mend($("source"), { start, end, text: items[index].text });
}

/** Chooses by keys, as long as something is offered. */
function chosen(event) {
  if (event.key === " " && event.ctrlKey) {
    event.preventDefault();
    offer();
  }
  if (!choices.items.length || HELD.has(event.key)) return;
  const does = {
    ArrowDown: () => choose(choices.active + 1),
    ArrowUp: () => choose(choices.active - 1),
    Enter: () => take(choices.active),
    Tab: () => take(choices.active),
    Escape: hideChoices,
  }[event.key];
  if (does) {
    event.preventDefault();
    event.stopImmediatePropagation();
    does();
  } else if (event.key.length > 1 && event.key !== "Backspace") hideChoices();
}

$("source").addEventListener("keydown", chosen, true);
$("source").addEventListener("input", () => {
  markPair();
  if (choices.items.length) offer();
});
$("source").addEventListener("blur", hideChoices);
$("source").addEventListener("scroll", () => {
  markPair();
  if (choices.items.length) hideChoices();
});
document.addEventListener("selectionchange", markPair);
