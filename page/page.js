// The page around the proved code: it gives the code its memory, calls it, and shows what it answers.
"use strict";
const $ = (id) => document.getElementById(id);
const FAULT = 2, YES = 1, NO = 0;
const TROUBLE = { 3: "Memory ran out.", 4: "This is not UTF-8.", 5: "This is too long for the page.", 6: "This is not a path." };

// ---- The heap: three functions that the code imports. What a call allocates is free again once the call has ended.
const MOST = 1 << 28; // bytes
let code, free, base;
const bytes = () => new Uint8Array(code.memory.buffer);
const view = () => new DataView(code.memory.buffer);

function take(size) {
  const at = Math.ceil(free / 16) * 16;
  if (at + size > MOST) return 0;
  const lacking = at + size - code.memory.buffer.byteLength;
  if (lacking > 0) {
    try { code.memory.grow(BigInt(Math.ceil(lacking / 65536))); } catch { return 0; }
  }
  free = at + Math.max(size, 1) + 16;
  return at;
}

function answer(out, at) {
  view().setUint8(Number(out), at ? 1 : 0);
  view().setBigUint64(Number(out) + 8, BigInt(at || 16), true);
}

const heap = {
  page_alloc: (out, size) => answer(out, take(Number(size))),
  page_realloc(out, old, kept, size) {
    const at = take(Number(size));
    if (at) bytes().copyWithin(at, Number(old), Number(old) + Number(kept));
    answer(out, at);
  },
  page_dealloc() {},
};

// ---- Calls
const encode = (text) => new TextEncoder().encode(text);
const decode = (some) => new TextDecoder().decode(some);

function put(text) {
  const some = encode(text), at = take(some.length);
  bytes().set(some, at);
  return [BigInt(at), BigInt(some.length)];
}

const room = (count) => [BigInt(take(count)), BigInt(count)];
const number = (at) => Number(view().getBigUint64(Number(at), true));

// What is wrong with the pattern: its place in characters, the message, and the number of its kind; or nothing.
function faultOf(pattern) {
  free = base;
  const text = put(pattern), message = room(200), [count] = room(8), [place] = room(8), [kind] = room(8);
  const status = code.page_pattern(...text, ...message, count, place, kind);
  if (status === YES) return null;
  if (status !== FAULT) return { place: 0, message: TROUBLE[status] };
  const at = Number(message[0]);
  const said = decode(bytes().slice(at, at + number(count)));
  return { place: number(place), message: said, kind: view().getUint32(Number(kind), true) };
}

// Whether the pattern matches the text, with the pieces, or with where it stops and the tokens that wait there.
function match(pattern, text, flags) {
  free = base;
  const most = 2 * encode(pattern).length + 2;
  const words = [...put(pattern), ...put(text)], out = BigInt(take(8 * most)), [count] = room(8);
  const status = code.page_match(...words, flags, out, BigInt(most), count);
  if (status > YES) return { status };
  const all = Array.from({ length: number(count) }, (_, i) => number(Number(out) + 8 * i));
  if (status === NO) return { status, stop: all[0], waiting: all.slice(1) };
  return { status, pieces: all.filter((_, i) => i % 2 === 0).map((start, i) => [start, all[2 * i + 1]]) };
}

// What a walk does, as lines, or why there is none.
function walk(pattern, flags, limit, paths) {
  free = base;
  const words = put(pattern), tree = put(paths.join("\n")), out = room(1 << 20), [count] = room(8), [place] = room(8);
  const status = code.page_walk(...words, flags, BigInt(limit), ...tree, ...out, count, place);
  const at = Number(out[0]), said = decode(bytes().slice(at, at + number(count)));
  if (status === YES) return { lines: said.split("\n").filter(Boolean) };
  if (status === FAULT) return { wrong: `At character ${number(place)}: ${said}` };
  if (status === 6) return { wrong: `This is not a path of a tree: ${paths[number(place)]}` };
  return { wrong: TROUBLE[status] };
}

// ---- Tokens of a pattern that is accepted: of each its kind, and how it is written. Neighbouring characters share a group.
const KINDS = ["literal", "one", "any", "components", "bracket", "bracket"];
const NONE_OF = 5;

function tokensOf(pattern) {
  free = base;
  const some = encode(pattern), most = 3 * some.length;
  const words = put(pattern), out = BigInt(take(8 * most)), [count] = room(8);
  if (code.page_tokens(...words, out, BigInt(most), count) !== YES) return [];
  const tokens = [];
  for (let i = 0; i < number(count); i += 3) {
    const [kind, start, end] = [0, 1, 2].map((k) => number(Number(out) + 8 * (i + k)));
    tokens.push({ kind: KINDS[kind], isNone: kind === NONE_OF, written: decode(some.slice(start, end)) });
  }
  let group = 0, named = 0;
  tokens.forEach((token, i) => {
    if (i && (token.kind !== "literal" || tokens[i - 1].kind !== "literal")) group++;
    token.group = group;
    token.number = token.kind === "literal" ? 0 : ++named;
  });
  return tokens;
}

const quoted = (text) => `“${text}”`;
const sentence = (text) => text[0].toUpperCase() + text.slice(1);
const IGNORE = 1, SEPARATOR = 2, DOT = 4;

// Why a wildcard or a bracket does not take the character of a text there, by a rule; or nothing.
function ruleAgainst(token, all, place, isLast) {
  const here = all[place], begins = place === 0 || all[place - 1] === "/";
  if (here === "/" && flags() & SEPARATOR && token.kind !== "components") return "but no /, by the separator rule";
  if (here === "." && begins && flags() & DOT) return "but no . at the start of a component, by the dot rule";
  return token.kind === "components" && !isLast && !all.slice(place).includes("/") ? "but there is no / after here" : "";
}

// What a token wants at a place of the text, in words.
function wantOf(token, all, place, isLast) {
  if (token.kind === "literal") {
    const here = all[place] || "";
    return /^[A-Za-z]$/.test(here) && here.toLowerCase() === token.written.toLowerCase() ? "in exactly this case" : "";
  }
  const inner = quoted(token.written.slice(token.isNone ? 2 : 1, -1));
  const words = {
    one: "any one character",
    any: "any characters",
    components: isLast ? "whole components" : "whole components, each with its /",
    bracket: token.isNone ? `one character, but none of ${inner}` : `one character of ${inner}`,
  }[token.kind];
  return [words, ruleAgainst(token, all, place, isLast)].filter(Boolean).join(", ");
}

const grows = (token) => token.kind === "any" || token.kind === "components";

// The tokens that have to come at a place. At the end of the text a wildcard that may be empty is missed only if nothing else is.
function wantedAt(waiting, tokens, isEnd) {
  const fixed = waiting.filter((i) => !grows(tokens[i]));
  return isEnd && fixed.length ? fixed : waiting;
}

// The tokens after the last wildcard, if that wildcard took the rest of the text and the text does not end as they say.
function lackingEnd(tokens, waiting, text) {
  const from = tokens.findLastIndex(grows) + 1, end = tokens.slice(from);
  if (from === 0 || !end.length || !waiting.includes(from)) return [];
  const written = end.map((token) => token.written).join("");
  return match(`*${written}`, text, flags() & IGNORE).status === YES ? [] : end;
}

// The options that, changed alone, make the text match: a flag, what it becomes, and words.
const LOOSER = [
  [IGNORE, true, "with upper and lower case as the same: write", "-i"],
  [SEPARATOR, false, "without the separator rule, by which ?, * and brackets take no /: leave out", "-s"],
  [DOT, false, "without the dot rule, by which no wildcard or bracket takes a . that begins a component: leave out", "-d"],
];

function looserFor(pattern, text) {
  const now = flags();
  const found = LOOSER.filter(([bit, on]) => Boolean(now & bit) !== on && match(pattern, text, now ^ bit).status === YES);
  return found.map(([, , words, letter]) => make("p", {}, `It matches ${words} `, make("code", {}, letter)));
}

// ---- Drawing
function make(name, properties, ...children) {
  const element = Object.assign(document.createElement(name), properties);
  element.append(...children);
  return element;
}

// A run of one token or of neighbouring characters, with its colour and number.
function chip(text, token) {
  const kind = token.kind === "literal" ? "literal" : `hue${(token.number - 1) % 6}`;
  const empty = text === "" ? " empty" : "";
  const inner = make("span", { className: "run" }, text || "∅");
  const chip = make("span", { className: `chip ${kind}${empty}` }, inner);
  if (token.number) chip.append(make("sub", {}, String(token.number)));
  return chip;
}

// The texts of the tokens, group by group.
function chips(tokens, texts) {
  const row = make("span", { className: "chips" });
  for (let i = 0; i < tokens.length; ) {
    let text = "", first = i;
    for (; i < tokens.length && tokens[i].group === tokens[first].group; i++) text += texts[i];
    row.append(chip(text, tokens[first]));
  }
  return row;
}

// A text with a caret under one of its places.
function caret(text, place, sort) {
  const all = [...text];
  const end = make("span", { className: "stop" }, all.slice(place, place + 1).join("") || " ");
  return make("span", { className: `caret ${sort}` }, all.slice(0, place).join(""), end, all.slice(place + 1).join(""));
}

function flags() {
  return ($("ignore").checked ? 1 : 0) + ($("separator").checked ? 2 : 0) + ($("dot").checked ? 4 : 0);
}

const HINTS = [
  [/\{[^}]*\}/, "{ and } stand for themselves. Use one pattern for each alternative: *.c and *.h in place of *.{c,h}."],
  [/\[!?\[:\w+:\]/, "There are no classes such as [:alpha:]. Write the ranges: [a-zA-Z], [0-9]."],
  [/\\/, "A \\ stands for itself. To match a wildcard character itself, put it in brackets: [*], [?] or [[]."],
  [/\[\^/, "^ stands for itself in brackets. For any character except a, b and c write [!abc]."],
];

// By the numbers of kinds of faults.
const FAULTS = [
  "Write * for any characters of a name, and ** for any number of components.",
  "** has to be a whole component. Write **/a*.rs for a*.rs at any depth, and a*.rs for names that begin with a.",
  "A [ begins a bracket, as [abc]: one character or more, and then ]. A ] right after [ or [! is such a character. A literal [ is written [[].",
];

function drawPattern() {
  const pattern = $("pattern").value, fault = faultOf(pattern);
  const hints = HINTS.filter(([form]) => form.test(pattern)).map(([, words]) => words).concat(FAULTS[fault?.kind] ?? []);
  const hint = hints.map((words) => make("p", { className: "hint" }, words));
  const said = fault
    ? [caret(pattern, fault.place, "fault"), make("p", { className: "wrong" }, `Refused at character ${fault.place}: ${fault.message}`)]
    : [chips(tokensOf(pattern), tokensOf(pattern).map((token) => token.written))];
  $("reading").replaceChildren(...said, ...hint);
  return !fault;
}

// Why a text that stops at a place does not match.
function drawWhy(pattern, tokens, text, place, waiting) {
  const all = [...text], isEnd = place === all.length, end = isEnd ? lackingEnd(tokens, waiting, text) : [];
  const wanted = wantedAt(waiting, tokens, isEnd).map((i) => {
    const run = tokens[i].kind === "literal" ? tokens.slice(i).filter((it) => it.group === tokens[i].group) : [tokens[i]];
    return make("li", {}, chip(run.map((it) => it.written).join(""), tokens[i]), wantOf(tokens[i], all, place, i === tokens.length - 1));
  });
  if (match(pattern, all.slice(0, place).join(""), flags()).status === YES) wanted.push(make("li", {}, "the end of the text"));
  const looser = looserFor(pattern, text), furthest = looser.length ? "With the options as they are: " : "";
  const where = isEnd ? "the text ends here, but the pattern wants" : `it stops at ${quoted(all[place])}, and the pattern wants`;
  const why = make("div", { className: "why" }, ...looser);
  if (end.length) {
    why.append(make("p", {}, "It does not end in:"), chips(end, end.map((token) => token.written)));
  } else {
    why.append(make("p", {}, sentence(`${furthest}${where}${wanted.length > 1 ? " one of these" : ""}:`)), make("ul", {}, ...wanted));
  }
  return why;
}

function drawLine(pattern, tokens, text) {
  const found = match(pattern, text, flags());
  if (found.status === YES) {
    const some = encode(text), texts = found.pieces.map(([start, end]) => decode(some.slice(start, end)));
    return make("li", { className: "yes" }, make("span", { className: "verdict" }, "✓ matches"), chips(tokens, texts));
  }
  if (found.status !== NO) return make("li", { className: "no" }, TROUBLE[found.status]);
  const place = [...decode(encode(text).slice(0, found.stop))].length;
  const verdict = make("span", { className: "verdict" }, "✗ no match");
  return make("li", { className: "no" }, verdict, caret(text, place, "text"), drawWhy(pattern, tokens, text, place, found.waiting));
}

function drawLines(accepted) {
  const pattern = $("pattern").value, tokens = accepted ? tokensOf(pattern) : [];
  const lines = $("lines").value.split("\n").filter(Boolean);
  $("answers").replaceChildren(...(accepted ? lines.map((line) => drawLine(pattern, tokens, line)) : []));
}

// ---- The walk
// The paths as the code takes them: absolute, and each after its directories.
function pathsOf(text) {
  const seen = new Set();
  for (const line of text.split("\n").map((it) => it.trim()).filter(Boolean)) {
    const names = line.replace(/^\/+/, "").split("/");
    names.slice(0, -1).forEach((_, i) => seen.add(`/${names.slice(0, i + 1).join("/")}/`));
    if (names[names.length - 1]) seen.add(`/${names.join("/")}`);
  }
  return [...seen];
}

const ANSWERS = { dir: "a directory", other: "no directory", missing: "nothing", unread: "no answer" };
const QUESTIONS = { look: "What is at", list: "What is in", names: "Which names are in" };

function stepsOf(lines, limit) {
  const steps = [];
  for (const line of lines) {
    const [, word, spent, text] = /^(\S+) (\d+) ([^]*)$/.exec(line);
    if (word in QUESTIONS) steps.push({ sort: "question", said: `${QUESTIONS[word]} ${quoted(text)}?`, answers: [], spent });
    else if (word in ANSWERS) steps[steps.length - 1].answers.push(ANSWERS[word]);
    else if (word.startsWith("in-")) steps[steps.length - 1].answers.push(text + (word === "in-dir" ? "/" : ""));
    else if (word === "item") steps.push({ sort: "item", said: `Found: ${text}`, spent });
    else if (word === "error") {
      const why = Number(spent) < limit ? "there is no memory left" : "the limit is used up";
      steps.push({ sort: "wrong", said: `Stopped at ${text}: ${why}`, spent });
    } else steps.push({ sort: "done", said: "Done", spent });
  }
  return steps;
}

let steps = [];
function drawWalk(accepted) {
  const limit = Math.min(Math.max(Number($("limit").value) || 0, 0), 10000);
  const walked = accepted ? walk($("pattern").value, flags(), limit, pathsOf($("tree").value)) : { wrong: "The pattern is refused." };
  steps = walked.lines ? stepsOf(walked.lines, limit) : [];
  $("step").min = String(Math.min(steps.length, 1));
  $("step").max = String(steps.length);
  $("step").value = String(Math.min(steps.length, 1));
  $("walk-wrong").textContent = walked.wrong || "";
  drawSteps();
}

function drawSteps() {
  const until = Number($("step").value), shown = steps.slice(0, until);
  $("steps").replaceChildren(...shown.map((step, i) => {
    const line = make("li", { className: step.sort }, make("span", {}, step.said), make("span", { className: "units" }, `${step.spent} ${step.spent === "1" ? "unit" : "units"}`));
    if (step.answers) line.append(make("span", { className: "reply" }, step.answers.join("  ") || "no entries"));
    if (i === until - 1) line.setAttribute("aria-current", "step");
    return line;
  }));
  $("count").textContent = `Step ${until} of ${steps.length}`;
}

// The last step that is shown is the one in question: it is kept in view.
function follow() {
  drawSteps();
  $("steps").scrollTop = $("steps").scrollHeight;
}

function go(by) {
  $("step").value = String(Number($("step").value) + by);
  follow();
}

// ---- Examples: a pattern, options, and lines
const EXAMPLES = [
  ["Sources except private ones", "src/**/[!_]*.rs", 2, "src/walk/lines.rs\nsrc/walk/_x.rs\nsrc/main.c\nlib/a.rs\nsrc/tests/a.RS\nsrc\nsrc/ä.rs"],
  ["A ? takes no / under the separator rule", "a?c", 2, "abc\na/c\nac\nabbc"],
  ["A * takes no leading dot under the dot rule", "*.txt", 6, "notes.txt\n.notes.txt\na/notes.txt"],
  ["Braces are no wildcards", "*.{c,h}", 0, "a.c\na.{c,h}"],
  ["Upper and lower case", "[A-Z]*.MD", 1, "readme.md\n_x.md\nREADME.MD.old"],
  ["A fault: ** is a whole component", "src/**.rs", 0, "src/a.rs"],
];

function load([, pattern, some, lines]) {
  $("pattern").value = pattern;
  ["ignore", "separator", "dot"].forEach((id, i) => ($(id).checked = Boolean(some & (1 << i))));
  $("lines").value = lines;
  draw();
}

function draw() {
  const accepted = drawPattern();
  drawLines(accepted);
  drawWalk(accepted);
}

async function begin() {
  const packed = Uint8Array.from(atob($("code").textContent.trim()), (c) => c.charCodeAt(0));
  const { instance } = await WebAssembly.instantiate(packed, { page: heap });
  code = instance.exports;
  base = free = Number(code.__heap_base.value);
  $("examples").append(...EXAMPLES.map(([name], i) => make("option", { value: String(i) }, name)));
  $("examples").addEventListener("change", () => load(EXAMPLES[Number($("examples").value)]));
  for (const id of ["pattern", "lines", "tree", "limit", "ignore", "separator", "dot"]) $(id).addEventListener("input", () => {
    $("examples").selectedIndex = -1;
    draw();
  });
  $("step").addEventListener("input", follow);
  $("back").addEventListener("click", () => go(-1));
  $("next").addEventListener("click", () => go(1));
  load(EXAMPLES[0]);
}

const ready = begin().catch((error) => {
  $("reading").textContent = `This browser does not run the page's code, WebAssembly with 64-bit memory (${error.message}). Chromium from 133 on and Firefox from 134 on do.`;
});
