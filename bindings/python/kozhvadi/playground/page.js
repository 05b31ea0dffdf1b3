"use strict";

// The page sends what is typed to its server, and shows what comes back. Texts reach the page as text and never as HTML.

const SLOW = 90; // Milliseconds without a key, before the server is asked.
const LONG = 1000000; // A longer source isn't coloured.
const LONGEST_LINK = 2000000; // Characters of the state of a link.
const MANY = 400; // Of more lines, only those that are seen are laid out, and long ones aren't wrapped.
const SPARE = 12; // Lines above and below those that are seen.
const RIGHT_TO_LEFT = /^(ar|arc|ckb|dv|fa|he|iw|ji|ks|nqo|prs|ps|sd|syr|ug|ur|yi)\b/;
const ISOLATES = { "\u2066": "LRI", "\u2067": "RLI", "\u2068": "FSI", "\u2069": "PDI" };

const $ = (id) => document.getElementById(id);
const before = { source: "", reference: "" };
const state = { arguments: {}, findings: [], seen: null, asked: 0, shown: 0, name: "", files: {}, references: {}, others: {}, examples: [], link: "", problem: "" };

function element(name, properties = {}, ...children) {
  const made = document.createElement(name);
  for (const [key, value] of Object.entries(properties)) {
    if (key === "class") made.className = value;
    else if (key in made) made[key] = value;
    else made.setAttribute(key, value);
  }
  made.append(...children);
  return made;
}

// Colours of a source.

const WORDS = new RegExp(
  [
    /(?<comment>^#.*$)/,
    /(?<id>^-?[A-Za-z][\w-]*(?= *=))/,
    /(?<attribute>^ *\.[A-Za-z][\w-]*(?= *=))/,
    /(?<key>^ *\*?\[[^\]\n]*\])/,
    /(?<brace>[{}])/,
    /(?<string>"(?:[^"\\\n]|\\.)*"?)/,
    /(?<variable>\$[A-Za-z][\w-]*)/,
    /(?<term>-[A-Za-z][\w-]*(?:\.[A-Za-z][\w-]*)?)/,
    /(?<function>[A-Z][A-Z0-9_-]*(?=\())/,
  ].map((each) => each.source).join("|"),
  "gm",
);

const IN_BRACES = new Set(["string", "variable", "term", "function"]);

/** The stretches of a line that have a colour, and how many braces are open after it. */
function coloured(line, open) {
  const found = [];
  let depth = open;
  for (const match of line.matchAll(WORDS)) {
    const kind = Object.keys(match.groups).find((name) => match.groups[name] !== undefined);
    if (match[0] === "{") depth += 1;
    if (match[0] === "}") depth = Math.max(0, depth - 1);
    if (kind === "id" || kind === "attribute" || kind === "comment") depth = 0;
    if (IN_BRACES.has(kind) && !depth) continue;
    found.push({ start: match.index, end: match.index + match[0].length, name: `t-${kind}` });
  }
  return [found, depth];
}

/** How many braces are open after a line. Lines mostly stay as they are, so that they are looked at once. */
function openAfter(line, open) {
  const known = (openAfter.known ??= new Map());
  if (known.size > 50000) known.clear();
  const key = `${open} ${line}`;
  if (!known.has(key)) known.set(key, coloured(line, open)[1]);
  return known.get(key);
}

/** The findings of each line, by its number, with their places in the line. */
function byLine(lines, findings) {
  const found = new Map();
  const sorted = [...findings].sort((one, other) => one.start - other.start);
  let [number, start] = [0, 0];
  for (const each of sorted) {
    while (number + 1 < lines.length && each.start > start + lines[number].length) {
      start += lines[number].length + 1;
      number += 1;
    }
    const end = Math.min(each.end - start, lines[number].length);
    const marks = found.get(number) ?? found.set(number, []).get(number);
    marks.push({ start: each.start - start, end, severity: each.severity });
  }
  return found;
}

/** How many braces are open before each line. What is known of lines that stay as they are is taken over. */
function depthsOf(lines, old) {
  const depths = new Array(lines.length).fill(0);
  const least = Math.min(lines.length, old?.lines.length ?? 0);
  let [first, last] = [0, 0];
  while (first < least && lines[first] === old.lines[first]) first += 1;
  while (last < least - first && lines[lines.length - 1 - last] === old.lines[old.lines.length - 1 - last]) last += 1;
  for (let number = 0; number < first; number += 1) depths[number] = old.depths[number];
  let depth = first ? openAfter(lines[first - 1], depths[first - 1]) : 0;
  const shift = (old?.lines.length ?? 0) - lines.length;
  for (let number = first; number < lines.length; number += 1) {
    if (number >= lines.length - last && old.depths[number + shift] === depth) {
      for (let rest = number; rest < lines.length; rest += 1) depths[rest] = old.depths[rest + shift];
      break;
    }
    depths[number] = depth;
    depth = openAfter(lines[number], depth);
  }
  return depths;
}

/** Shows the text of a field below it, in colours, with its findings underlined. */
function paint(field, findings) {
  const editor = field.closest(".editor");
  const text = field.value;
  const lines = text.split("\n");
  const isColoured = text.length <= LONG;
  const old = (paint.models ??= new Map()).get(editor);
  const depths = isColoured ? depthsOf(lines, old?.isColoured ? old : null) : new Array(lines.length).fill(0);
  paint.models.set(editor, { lines, depths, isColoured, marks: byLine(lines, findings) });
  const isLong = lines.length > MANY;
  if (editor.classList.contains("long") !== isLong) {
    editor.classList.toggle("long", isLong);
    field.wrap = isLong ? "off" : "soft";
  }
  draw(editor);
}

const heightOfLine = (field) => parseFloat(getComputedStyle(field).lineHeight);

/** Lays out the lines of an editor: all of them, or if there are many, those that are seen. */
function draw(editor) {
  const { lines, depths, isColoured, marks } = paint.models.get(editor);
  const [pre, field] = [editor.querySelector("pre"), editor.querySelector("textarea")];
  let [from, to] = [0, lines.length];
  pre.style.transform = pre.style.counterReset = "";
  if (editor.classList.contains("long")) {
    const height = heightOfLine(field);
    from = Math.max(0, Math.floor(field.scrollTop / height) - SPARE);
    to = Math.min(lines.length, Math.ceil((field.scrollTop + field.clientHeight) / height) + SPARE);
    pre.style.transform = `translate(${-field.scrollLeft}px, ${from * height - field.scrollTop}px)`;
    pre.style.counterReset = `line ${from}`;
    pre.style.setProperty("--x", `${field.scrollLeft}px`);
  }
  const wanted = [];
  for (let number = from; number < to; number += 1) {
    const own = marks.get(number) ?? [];
    const [line, depth] = [lines[number], depths[number]];
    wanted.push({ line, depth, own, key: `${depth} ${own.length ? JSON.stringify(own) : ""} ${line}` });
  }
  fill(pre, wanted, isColoured);
}

/** Puts lines into a box. Those that stay as they are aren't touched. */
function fill(pre, wanted, isColoured) {
  const before = (paint.keys ??= new Map()).get(pre) ?? [];
  let [first, last] = [0, 0];
  const least = Math.min(before.length, wanted.length);
  while (first < least && before[first] === wanted[first].key) first += 1;
  while (last < least - first && before[before.length - 1 - last] === wanted[wanted.length - 1 - last].key) last += 1;
  const gone = [...pre.children].slice(first, before.length - last);
  const next = pre.children[before.length - last] ?? null;
  for (const each of gone) each.remove();
  const made = document.createDocumentFragment();
  for (const each of wanted.slice(first, wanted.length - last)) made.append(painted(each, isColoured));
  pre.insertBefore(made, next);
  paint.keys.set(pre, wanted.map((each) => each.key));
}

/** A line in colours. */
function painted({ line, depth, own }, isColoured) {
  const words = isColoured ? coloured(line, depth)[0] : [];
  const marks = own.filter((each) => each.start < each.end);
  const cuts = new Set([0, line.length]);
  for (const each of [...words, ...marks]) cuts.add(each.start).add(each.end);
  const places = [...cuts].sort((one, other) => one - other);
  const made = element("div", { class: worst(own) });
  for (let index = 0; index + 1 < places.length; index += 1) {
    const [start, end] = [places[index], places[index + 1]];
    const holds = (each) => each.start <= start && end <= each.end;
    const colour = words.find(holds)?.name ?? "";
    const under = worst(marks.filter(holds));
    const piece = line.slice(start, end);
    if (under) made.append(element("u", { class: `${under} ${colour}` }, piece));
    else made.append(colour ? element("span", { class: colour }, piece) : piece);
  }
  // An empty line has a height, too.
  made.append("\n");
  return made;
}

const worst = (findings) => ["error", "warning", "note"].find((name) => findings.some((each) => each.severity === name)) ?? "";

/** The findings of a text that has become another, until the server has looked at it. */
function moved(findings, before, after) {
  if (!findings.length) return findings;
  const [least, step] = [Math.min(before.length, after.length), 4096];
  let start = 0;
  while (start + step <= least && before.slice(start, start + step) === after.slice(start, start + step)) start += step;
  while (start < least && before[start] === after[start]) start += 1;
  const shift = after.length - before.length;
  return findings
    .filter((each) => each.end <= start || each.start >= start)
    .map((each) => (each.start >= start && each.start + shift >= start
      ? { ...each, start: each.start + shift, end: each.end + shift }
      : each))
    .filter((each) => each.start >= 0);
}

// Asking the server.

async function ask(path, given) {
  const answer = await fetch(path, {
    method: "POST",
    headers: { "Content-Type": "application/json" },
    body: JSON.stringify(given),
  });
  if (!answer.ok) throw new Error(await answer.text());
  return answer.json();
}

/** Says what is wrong now. That a link is damaged is said until another text is there. */
function say(words) {
  state.problem = words ?? "";
  const told = [state.link, state.problem].filter(Boolean).join(" ");
  $("problem").textContent = told;
  $("problem").hidden = !told;
}

async function look() {
  const asked = (state.asked += 1);
  const sent = { source: $("source").value, reference: $("reference").value };
  try {
    const place = $("source").selectionStart;
    const asks = { ...sent, locale: $("locale").value, arguments: state.arguments, name: state.name, others: state.others, at: place };
    const found = await ask("look", asks);
    if (asked < state.shown) return;
    state.shown = asked;
    say(found.problem);
    show(found, sent);
  } catch (error) {
    if (asked === state.asked) say(`The server doesn't answer: ${error.message}`);
  }
  if (asked === state.asked) keep();
}

let waiting;
function later() {
  clearTimeout(waiting);
  waiting = setTimeout(look, SLOW);
}

// Showing what the server found.

function show(found, sent) {
  for (const name of ["source", "reference"]) {
    const own = found.findings.filter((each) => each.file === name);
    const now = $(name).value;
    state[name] = now === sent[name] ? own : moved(own, sent[name], now);
    paint($(name), state[name]);
    list($(name === "source" ? "findings" : "missing"), own, $(name));
  }
  state.seen = found;
  $("summary").textContent = summary(found.findings);
  const shown = Object.entries(found.categories).map(([name, sample]) => [element("b", {}, name), ` ${sample}`]);
  $("categories").replaceChildren(
    `Plural categories of ${named(found.locale)}: `,
    ...shown.flatMap((each, index) => (index ? [", ", ...each] : each)),
    found.rules ? "" : ", since it has no plural rules here",
  );
  const focus = document.activeElement?.dataset?.keep;
  const place = document.activeElement?.selectionStart;
  $("jumps").hidden = !found.findings.length;
  count(found.counts);
  for (const name of ["source", "reference"]) $(name).lang = name === "source" ? found.locale : "";
  const cards = found.messages.map((message) => known(message, found.locale));
  state.cards = new Map(cards.map((each) => [each.dataset.id, each]));
  if (!cards.length) cards.push(nothing());
  if (found.more) cards.push(element("p", { class: "nothing" }, `${found.more} more messages aren't shown. Those near the caret are.`));
  arrange($("messages"), cards);
  if (focus) {
    const again = [...document.querySelectorAll("[data-keep]")].find((each) => each.dataset.keep === focus);
    again?.focus();
    if (again?.setSelectionRange && place !== undefined && place !== null) again.setSelectionRange(place, place);
  }
  point();
}

/** What stands where the texts would be, if there are none. */
function nothing() {
  const words = ["There is no message yet. Type ", element("code", {}, "hello = Hello, { $name }!"), " into the source."];
  const made = element("div", { class: "nothing" }, element("p", {}, ...words));
  if (state.examples.length && !state.name) made.append(element("p", {}, "Or begin with an example:"));
  for (const [title, text] of state.name ? [] : state.examples) {
    const show = element("button", { type: "button" }, title);
    show.addEventListener("click", () => mend($("source"), { start: 0, end: $("source").value.length, text }));
    made.append(show);
  }
  return made;
}

/** The card of a message: the one that is there, if it shows the same. */
function known(message, locale) {
  const { start, end, line, ...rest } = message;
  const why = message.read ? "" : state.seen.findings.find((each) => each.code === "syntax" && each.entry === message.id)?.text;
  const key = JSON.stringify([rest, locale, $("marks").checked, why]);
  const before = state.cards?.get(message.id);
  const made = before?.dataset.key === key ? before : card(message, locale);
  Object.assign(made.dataset, { id: message.id, key, start, end });
  made.querySelector(".name").title = `Line ${line}`;
  return made;
}

/** Puts nodes into a box in this order. Those that are in their place aren't touched. */
function arrange(box, nodes) {
  let at = box.firstChild;
  for (const node of nodes) {
    if (node === at) at = at.nextSibling;
    else box.insertBefore(node, at);
  }
  while (at) {
    const next = at.nextSibling;
    at.remove();
    at = next;
  }
}

/** The words of a finding, with the code that is in them. */
function worded(text) {
  return text.split(/(`[^`]+`)/).filter(Boolean).map((piece) => (/^`[^`]+`$/.test(piece) ? element("code", {}, piece.slice(1, -1)) : piece));
}

function summary(findings) {
  const counts = ["error", "warning", "note"].map((name) => [findings.filter((each) => each.severity === name).length, name]);
  const told = counts.filter(([count]) => count).map(([count, name]) => `${count} ${name}${count > 1 ? "s" : ""}`);
  return told.length ? told.join(", ") : "No findings";
}

function list(place, findings, field) {
  place.replaceChildren(
    ...findings.map((each) => {
      const go = element(
        "button",
        { type: "button", class: "go" },
        element("span", { class: "place" }, `${each.line}:${each.column} `),
        element("span", { class: `severity ${each.severity}` }, each.severity),
        each.entry ? ` ${each.entry}: ` : " ",
        ...worded(each.text),
      );
      if (each.hint) go.append(element("span", { class: "why" }, ...worded(each.hint)));
      go.addEventListener("click", () => select(field, each.start, each.end));
      const fixes = each.fixes.slice(0, 2).map((fix) => {
        const button = element("button", { type: "button", class: "fix" }, fix.title.replaceAll("`", ""));
        button.addEventListener("click", () => mend(field, fix));
        return button;
      });
      return element("li", {}, go, ...fixes);
    }),
  );
}

function select(field, start, end) {
  field.closest("details")?.setAttribute("open", "");
  field.focus();
  field.setSelectionRange(start, Math.max(start, end));
  const number = field.value.slice(0, start).split("\n").length - 1;
  const editor = field.closest(".editor");
  if (editor.classList.contains("long")) {
    const [top, height] = [number * heightOfLine(field), field.clientHeight];
    if (top < field.scrollTop || top > field.scrollTop + height - 60) field.scrollTop = Math.max(0, top - height / 3);
    draw(editor);
  } else {
    editor.querySelector("pre").children[number]?.scrollIntoView({ block: "nearest" });
  }
  point();
}

function mend(field, fix) {
  field.focus();
  field.setSelectionRange(fix.start, fix.end);
  // It can be undone like what is typed.
  if (!document.execCommand("insertText", false, fix.text)) {
    field.setRangeText(fix.text, fix.start, fix.end, "end");
    typed(field);
  }
}

function named(locale) {
  try {
    return new Intl.DisplayNames(["en"], { type: "language" }).of(locale) ?? locale;
  } catch {
    return locale;
  }
}

const direction = (locale) => (RIGHT_TO_LEFT.test(locale) ? "rtl" : "ltr");

/** A text with its isolation marks, which are also shown if that is asked for. */
function marked(text) {
  if (!$("marks").checked) return [text];
  return text.split(/([\u2066-\u2069])/).filter(Boolean).flatMap((piece) => {
    const name = ISOLATES[piece];
    if (!name) return [piece];
    const mark = element("span", { class: "mark", title: name === "PDI" ? "U+2069, the end of what is isolated" : "U+2068, what follows is isolated" }, name);
    // Both are inside of what they isolate.
    return name === "PDI" ? [mark, piece] : [piece, mark];
  });
}

function card(message, locale) {
  const name = element("button", { type: "button", class: "name", title: `Line ${message.line}` }, message.id);
  name.dataset.keep = `name ${message.id}`;
  name.addEventListener("click", () => {
    const start = Number(made.dataset.start);
    select($("source"), start, start + message.id.length);
  });
  const made = element("article", { class: "message", "aria-label": message.id }, element("div", { class: "head" }, element("h3", {}, name)));
  made.dataset.start = message.start;
  made.dataset.end = message.end;
  if (message.comment) made.append(element("p", { class: "comment", dir: "auto" }, message.comment));
  if (!message.read) {
    made.classList.add("unread");
    const why = state.seen.findings.find((each) => each.code === "syntax" && each.entry === message.id);
    const words = why ? ["This message can't be read: ", ...worded(why.text)] : ["This message can't be read."];
    made.append(element("ul", { class: "errors" }, element("li", {}, ...words)));
  } else if (!message.parts.some((part) => part.attribute === null)) {
    made.append(element("p", { class: "text empty" }, "Only attributes."));
  }
  for (const part of message.parts) made.append(shown(message, part, locale));
  return made;
}

function shown(message, part, locale) {
  const made = element("div", { class: "part" });
  if (part.attribute) made.append(element("div", { class: "attribute" }, `.${part.attribute}`));
  made.append(element("p", { class: part.text ? "text" : "text empty", lang: locale, dir: direction(locale) }, ...(part.text ? marked(part.text) : ["(empty)"])));
  if (part.errors.length) made.append(element("ul", { class: "errors" }, ...part.errors.map((each) => element("li", {}, each))));
  if (part.variables.length) {
    const fields = part.variables.map((each) => field(message, part, each));
    made.append(element("div", { class: "fields" }, ...fields));
  }
  const choosing = [...new Set(part.cases.map((each) => each.variable))];
  for (const variable of choosing) {
    const cases = part.cases.filter((each) => each.variable === variable);
    if (choosing.length > 1) made.append(element("div", { class: "by" }, "by ", element("b", {}, `$${variable}`)));
    if (cases.length > 1) made.append(element("dl", { class: "cases" }, ...cases.map((each) => tile(part, each, locale))));
  }
  return made;
}

function field(message, part, variable) {
  const input = element("input", { type: "text", value: variable.value, class: `is-${variable.kind}`, dir: "auto", autocomplete: "off", spellcheck: false, "aria-label": `$${variable.name}, in ${message.id}` });
  if (variable.kind === "number") input.inputMode = "decimal";
  if (variable.kind === "date") input.type = "datetime-local";
  if (variable.kind === "choice") input.title = `One of ${variable.keys.join(", ")}`;
  input.dataset.keep = `${message.id} ${part.attribute ?? ""} ${variable.name}`;
  input.dataset.variable = variable.name;
  input.addEventListener("input", () => {
    state.arguments[variable.name] = input.value;
    later();
  });
  return element("label", {}, `$${variable.name}`, input);
}

function tile(part, each, locale) {
  const chosen = part.variables.some((variable) => variable.name === each.variable && variable.value === each.value);
  const made = element(
    "div",
    { class: chosen ? "chosen" : "" },
    element("dt", {}, element("b", {}, each.label), each.label === each.value ? "" : each.value),
    element("dd", { lang: locale, dir: direction(locale) }, ...marked(each.text)),
  );
  if (each.errors.length) made.append(element("dd", { class: "errors" }, each.errors.join(", ")));
  return made;
}

/** Marks the message that the caret is in, and scrolls the texts to it. */
function point() {
  const field = $("source");
  const at = document.activeElement === field ? field.selectionStart : -1;
  let current = null;
  for (const each of document.querySelectorAll(".message")) {
    const isCurrent = Number(each.dataset.start) <= at && at <= Number(each.dataset.end);
    each.classList.toggle("current", isCurrent);
    if (isCurrent) current = each;
  }
  const shown = state.seen?.messages ?? [];
  const isOutside = shown.length && (at < shown[0].start || at > shown[shown.length - 1].end);
  if (at >= 0 && state.seen?.more && isOutside && state.outside !== at) {
    state.outside = at;
    later();
  }
  const name = current?.getAttribute("aria-label") ?? null;
  if (current && name !== state.pointed) reveal($("results"), current);
  state.pointed = name;
}

/** Scrolls a box so far that it shows what is in it. */
function reveal(box, inner) {
  if (box.scrollHeight <= box.clientHeight) return;
  const [outside, inside] = [box.getBoundingClientRect(), inner.getBoundingClientRect()];
  if (inside.top < outside.top) box.scrollTop -= outside.top - inside.top + 8;
  else if (inside.bottom > outside.bottom) box.scrollTop += Math.min(inside.bottom - outside.bottom, inside.top - outside.top) + 8;
}

// The state of the page is in the fragment of its address.

async function packed(text) {
  const stream = new Blob([text]).stream().pipeThrough(new CompressionStream("deflate-raw"));
  const bytes = new Uint8Array(await new Response(stream).arrayBuffer());
  let binary = "";
  for (const byte of bytes) binary += String.fromCharCode(byte);
  return btoa(binary).replaceAll("+", "-").replaceAll("/", "_").replaceAll("=", "");
}

async function unpacked(fragment) {
  const binary = atob(fragment.replaceAll("-", "+").replaceAll("_", "/"));
  const bytes = Uint8Array.from(binary, (letter) => letter.charCodeAt(0));
  const reader = new Blob([bytes]).stream().pipeThrough(new DecompressionStream("deflate-raw")).getReader();
  const decoder = new TextDecoder();
  let text = "";
  for (;;) {
    const { done, value } = await reader.read();
    if (done) return text + decoder.decode();
    text += decoder.decode(value, { stream: true });
    if (text.length > LONGEST_LINK) throw new Error("too long");
  }
}

let kept = "";
async function linked() {
  const marks = $("marks").checked;
  const now = JSON.stringify({ source: $("source").value, reference: $("reference").value, locale: $("locale").value, arguments: state.arguments, marks, name: state.name });
  return `#${await packed(now)}`;
}

/** Keeps the state in the address, unless the page shows files: these are read again when it is loaded. */
async function keep() {
  if (state.name || state.link) return;
  kept = await linked();
  history.replaceState(null, "", kept);
}

async function restored() {
  const fragment = location.hash.slice(1);
  if (!fragment) return null;
  try {
    const found = JSON.parse(await unpacked(fragment));
    const text = (value) => (typeof value === "string" ? value : "");
    const given = found.arguments && typeof found.arguments === "object" ? found.arguments : {};
    const names = Object.entries(given).filter(([, value]) => typeof value === "string");
    state.link = "";
    return { name: text(found.name), source: text(found.source), reference: text(found.reference), locale: text(found.locale), arguments: Object.fromEntries(names), marks: found.marks === true };
  } catch {
    state.link = "The link is damaged, so the page begins anew.";
    say(state.problem);
    return null;
  }
}

// The files of a project.

/** Lists the files, with how many errors and warnings each has. */
function count(counts) {
  for (const option of $("file").options) {
    const own = counts[option.value] ?? {};
    const found = ["error", "warning"].filter((name) => own[name]).map((name) => `${own[name]} ${name}${own[name] > 1 ? "s" : ""}`);
    option.textContent = found.length ? `${option.value} (${found.join(", ")})` : option.value;
  }
  $("save").disabled = $("source").value === state.files[state.name];
}

/** Keeps the text of the file that is shown, if it isn't the one that was read. */
function note() {
  if (!state.name) return;
  if ($("source").value === state.files[state.name]) delete state.others[state.name];
  else state.others[state.name] = $("source").value;
}

function turn(name) {
  note();
  state.name = name;
  const texts = { source: state.others[name] ?? state.files[name] ?? "", reference: state.references[name] ?? "" };
  for (const field of ["source", "reference"]) {
    state[field] = [];
    before[field] = $(field).value = texts[field];
    paint($(field), []);
  }
  $("source").setSelectionRange(0, 0);
  return look();
}

async function save() {
  try {
    const name = state.name;
    const source = $("source").value;
    const found = await ask("save", { name, source });
    if (found.problem) return say(found.problem);
    state.files[name] = source;
    delete state.others[name];
    $("save").textContent = "Saved";
    setTimeout(() => ($("save").textContent = "Save"), 2000);
    return look();
  } catch (error) {
    return say(`The server doesn't answer: ${error.message}`);
  }
}

function begin(start, languages) {
  const tags = languages.includes(start.locale) || !start.locale ? languages : [start.locale, ...languages];
  const options = tags.map((tag) => element("option", { value: tag }, `${named(tag)} (${tag})`));
  options.sort((one, other) => one.textContent.localeCompare(other.textContent, "en"));
  $("locale").replaceChildren(...options);
  $("locale").value = start.locale || "en";
  $("source").value = start.source;
  $("reference").value = start.reference;
  $("marks").checked = start.marks === true;
  state.name = start.name in state.files ? start.name : "";
  const names = Object.keys(state.files);
  $("file").replaceChildren(...names.map((name) => element("option", { value: name }, name)));
  $("file").value = state.name;
  $("files").hidden = names.length < 2 || !state.name;
  $("save").hidden = !(state.writes && state.name);
  $("download").hidden = !$("save").hidden;
  $("compare").open = Boolean(start.reference);
  state.arguments = { ...start.arguments };
  for (const name of ["source", "reference"]) {
    state[name] = [];
    before[name] = $(name).value;
  }
  paint($("source"), []);
  paint($("reference"), []);
  $("source").setSelectionRange(0, 0);
  return look();
}

// Typing, choosing, sharing.

function typed(field) {
  const name = field.id;
  state[name] = moved(state[name] ?? [], before[name], field.value);
  before[name] = field.value;
  state.link = "";
  note();
  paint(field, state[name]);
  later();
}

/** A line that is begun in a select is as far from the edge as the one before it, or farther after `->`. */
function indented(event, field) {
  if (event.key !== "Enter" || event.shiftKey || event.ctrlKey || event.altKey || event.metaKey || event.isComposing) return;
  const line = field.value.slice(field.value.lastIndexOf("\n", field.selectionStart - 1) + 1, field.selectionStart);
  const indent = /^ */.exec(line)[0] + (/->\s*$/.test(line) ? "    " : "");
  if (!indent) return;
  event.preventDefault();
  document.execCommand("insertText", false, `\n${indent}`);
}

function next(field, back) {
  const found = [...(state[field.id] ?? [])].sort((one, other) => one.start - other.start);
  if (!found.length) return;
  const at = field.selectionStart;
  const wanted = back
    ? found.findLast((each) => each.start < at) ?? found[found.length - 1]
    : found.find((each) => each.start > at) ?? found[0];
  select(field, wanted.start, wanted.end);
}

function dress(theme) {
  const dark = theme ? theme === "dark" : matchMedia("(prefers-color-scheme: dark)").matches;
  document.documentElement.dataset.theme = dark ? "dark" : "light";
}

function remember(theme) {
  try {
    if (theme) localStorage.setItem("theme", theme);
    else localStorage.removeItem("theme");
  } catch {
    // The browser keeps nothing.
  }
}

function remembered() {
  try {
    const theme = localStorage.getItem("theme");
    return theme === "light" || theme === "dark" ? theme : "";
  } catch {
    return "";
  }
}

async function share() {
  const fragment = await linked();
  try {
    await navigator.clipboard.writeText(`${location.origin}${location.pathname}${fragment}`);
    $("share").textContent = "Copied";
  } catch {
    kept = fragment;
    history.replaceState(null, "", fragment);
    $("share").textContent = "The link is the address";
  }
  setTimeout(() => ($("share").textContent = "Copy link"), 2000);
}

/** Gives the source to the browser as a file. */
function download() {
  const url = URL.createObjectURL(new Blob([$("source").value], { type: "text/plain" }));
  element("a", { href: url, download: state.name.split("/").pop() || "messages.ftl" }).click();
  setTimeout(() => URL.revokeObjectURL(url), 1000);
}

async function tidy() {
  try {
    const found = await ask("tidy", { source: $("source").value });
    if (found.problem) return say(found.problem);
    say();
    if (found.text !== $("source").value) mend($("source"), { start: 0, end: $("source").value.length, text: found.text });
  } catch (error) {
    say(`The server doesn't answer: ${error.message}`);
  }
}

function listen() {
  for (const name of ["source", "reference"]) {
    const field = $(name);
    field.addEventListener("input", () => typed(field));
    field.addEventListener("keydown", (event) => {
      if (event.key === "F8") {
        event.preventDefault();
        next(field, event.shiftKey);
      }
      if (event.key.toLowerCase() === "s" && (event.ctrlKey || event.metaKey) && !$("save").hidden) {
        event.preventDefault();
        save();
      }
      indented(event, field);
    });
    const editor = field.closest(".editor");
    let isDrawn = true;
    field.addEventListener("scroll", () => {
      if (!isDrawn || !editor.classList.contains("long")) return;
      isDrawn = false;
      requestAnimationFrame(() => {
        isDrawn = true;
        draw(editor);
      });
    });
    new ResizeObserver(() => editor.classList.contains("long") && draw(editor)).observe(field);
  }
  $("file").addEventListener("change", () => turn($("file").value));
  $("save").addEventListener("click", save);
  addEventListener("beforeunload", (event) => {
    if (Object.keys(state.others).length) event.preventDefault();
  });
  document.addEventListener("selectionchange", point);
  $("locale").addEventListener("change", look);
  $("marks").addEventListener("change", look);
  $("share").addEventListener("click", share);
  $("tidy").addEventListener("click", tidy);
  $("download").addEventListener("click", download);
  $("theme").addEventListener("change", () => {
    remember($("theme").value);
    dress($("theme").value);
  });
  matchMedia("(prefers-color-scheme: dark)").addEventListener("change", () => dress($("theme").value));
  addEventListener("hashchange", async () => {
    if (location.hash === kept) return;
    const found = await restored();
    if (found) await begin(found, state.languages);
  });
}

async function main() {
  $("theme").value = remembered();
  dress($("theme").value);
  listen();
  try {
    const start = await (await fetch("start")).json();
    Object.assign(state, { languages: start.languages, files: start.files, references: start.references, writes: start.writes, examples: start.examples });
    await begin((await restored()) ?? start, start.languages);
  } catch (error) {
    say(`The server doesn't answer: ${error.message}`);
  }
}

main();
