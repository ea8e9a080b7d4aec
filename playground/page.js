"use strict";
// The page: an editor, presses that ask the program in a Worker, and what it answers.
const byId = (id) => document.getElementById(id);
const given = JSON.parse(byId("given").textContent);
const LINE = 20, PAD = 8, MOST_UNDONE = 20000, MODULE = "kernel.ll", SCHEDULE = "schedule.txt", PAGE = "page.html", EVENTS = "events.txt";

function element(tag, words = "", more = {}) {
  const made = document.createElement(tag);
  made.textContent = words;
  return Object.assign(made, more);
}

// Words with code in `..`.
function spelled(tag, words) {
  const made = element(tag);
  words.split("`").forEach((part, k) => made.append(k % 2 ? element("code", part) : part));
  return made;
}

// The program, in a Worker. One answer is made at a time; to stop it the Worker is ended, and its memory goes with it.
const MEMORY_OF_64_BITS = new Uint8Array([0, 97, 115, 109, 1, 0, 0, 0, 5, 3, 1, 4, 1]);
const program = {
  worker: null,
  module: null,
  halt: null,

  async load() {
    const bytes = Uint8Array.from(atob(byId("module").textContent), (it) => it.charCodeAt(0));
    const unpacked = new Blob([bytes]).stream().pipeThrough(new DecompressionStream("gzip"));
    this.module = await WebAssembly.compile(await new Response(unpacked).arrayBuffer());
  },

  start() {
    const source = new Blob([byId("answering").textContent], { type: "text/javascript" }), address = URL.createObjectURL(source);
    this.worker = new Worker(address);
    URL.revokeObjectURL(address);
    this.worker.postMessage({ module: this.module });
  },

  ask(words, texts) {
    if (!this.worker) this.start();
    return new Promise((done, fail) => {
      this.halt = () => fail(new Error("stopped"));
      this.worker.onmessage = ({ data }) => (data.trouble ? fail(new Error(data.trouble)) : done(data.answer));
      this.worker.onerror = (event) => fail(new Error(event.message));
      this.worker.postMessage({ words, texts });
    });
  },

  stop() {
    if (this.worker) this.worker.terminate();
    this.worker = null;
    if (this.halt) this.halt();
  },
};

// The editor: line numbers, and marks by line, which go with the next change by hand.
const editor = {
  field: byId("text"),
  marks: new Map(),
  shown: "",

  get text() {
    return this.field.value;
  },

  lines() {
    return this.text.split("\n");
  },

  // Puts a text in place of what stands there, so that it can be undone.
  write(text, from = 0, to = this.text.length) {
    this.field.focus();
    this.field.setSelectionRange(from, to);
    const isDone = text === "" ? document.execCommand("delete") : document.execCommand("insertText", false, text);
    if (!isDone) this.field.setRangeText(text, from, to, "end");
    this.show();
  },

  // A long text is put in without a way back: to make one takes long.
  load(text) {
    if (text.length > MOST_UNDONE || this.text === "") this.field.value = text;
    else this.write(text);
    this.marks.clear();
    this.field.setSelectionRange(0, 0);
    this.field.scrollTop = this.field.scrollLeft = 0;
    this.show();
  },

  // Where a line begins, of lines from 1.
  start(line) {
    return this.lines().slice(0, line - 1).reduce((sum, it) => sum + it.length + 1, 0);
  },

  go(line) {
    const from = this.start(line), words = this.lines()[line - 1] ?? "";
    this.field.focus();
    this.field.setSelectionRange(from, from + words.length);
    this.field.scrollTop = Math.max(0, (line - 1) * LINE - this.field.clientHeight / 2);
  },

  mark(kind, lines) {
    for (const [line, its] of this.marks) if (its === kind) this.marks.delete(line);
    for (const line of lines) if (!this.marks.has(line)) this.marks.set(line, kind);
    this.show();
  },

  // Marks move with a line that is put in before them.
  shift(from) {
    this.marks = new Map([...this.marks].map(([line, kind]) => [line >= from ? line + 1 : line, kind]));
  },

  // The numbers of long texts are made anew only where they change.
  show() {
    const count = this.lines().length, numbers = byId("numbers"), marks = byId("marks"), now = JSON.stringify([count, ...this.marks]);
    if (now !== this.shown) {
      numbers.replaceChildren(...Array.from({ length: count }, (_, k) => element("div", String(k + 1), { className: this.marks.get(k + 1) ?? "" })));
      this.shown = now;
    }
    marks.replaceChildren(...[...this.marks].map(([line, kind]) => {
      const made = element("div", "", { className: kind });
      made.dataset.line = line;
      return made;
    }));
    this.scroll();
  },

  scroll() {
    const { scrollTop } = this.field;
    byId("gutter").scrollTop = scrollTop;
    for (const it of byId("marks").children) it.style.top = `${(it.dataset.line - 1) * LINE + PAD - scrollTop}px`;
  },
};

// What is told of an answer.
function say(words, kind = "") {
  byId("said").textContent = words.replaceAll("`", "");
  byId("said").className = kind;
}

function tell(words) {
  byId("output").textContent = words;
  byId("output").hidden = words === "";
}

function clear() {
  byId("faults").replaceChildren();
  tell("");
}

const presses = () => document.querySelectorAll("button:not(#stop)");

// Does something that asks the program, with the time that it takes shown, and a press that stops it.
let isBusy = false;
async function busy(what, work) {
  if (isBusy || !program.module) return;
  isBusy = true;
  const begun = performance.now(), pressed = document.activeElement;
  const show = () => {
    if (byId("busy").hidden) say(`${what}.`);
    byId("busy").hidden = false;
    byId("elapsed").textContent = `${what}: ${((performance.now() - begun) / 1000).toFixed(1)} s`;
  };
  const clock = setInterval(show, 200);
  presses().forEach((it) => it.setAttribute("aria-disabled", "true"));
  try {
    await work();
  } catch (error) {
    if (error.message === "stopped") say(`Stopped after ${((performance.now() - begun) / 1000).toFixed(1)} s.`);
    else trouble(error);
  }
  clearInterval(clock);
  byId("busy").hidden = true;
  byId("said").scrollIntoView({ block: "nearest" });
  presses().forEach((it) => it.removeAttribute("aria-disabled"));
  if (document.activeElement === document.body && pressed) pressed.focus();
  isBusy = false;
}

function trouble(error) {
  program.stop();
  say(`The program gave up: ${error.message}. A run that goes too deep, or takes all memory, ends so in a page.`, "refused");
}

const ask = (words, texts = {}) => program.ask(["tapirvm", ...words], { text: editor.text, schedule: byId("schedule").value, ...texts });

// The verdict.

// A line to put in, and where, as a mend names it.
const PUT_IN = /^(;!.*), (after|before|in place of) line (\d+)$/;

// Makes it the line of this number, before the one that stands there or in its place.
function putIn(line, isNew, at) {
  const old = editor.lines()[at - 1] ?? "", from = Math.min(editor.start(at), editor.text.length), words = /^\s*/.exec(old)[0] + line;
  if (isNew) {
    editor.shift(at);
    editor.write(at > editor.lines().length ? `\n${words}` : `${words}\n`, from, from);
  } else {
    editor.write(words, from, from + old.length);
  }
  editor.marks.set(at, "new");
  editor.show();
  editor.go(at);
}

function mendOf(words) {
  const found = PUT_IN.exec(words);
  if (!found) return spelled("li", words);
  const made = element("li"), [, line, how, at] = found;
  const press = element("button", how === "in place of" ? `Put in place of line ${at}` : `Put in ${how} line ${at}`, { className: "mend" });
  press.onclick = () => busy("Verifying", async () => {
    putIn(line, how !== "in place of", Number(at) + (how === "after"));
    await verify();
  });
  made.append(element("code", line), " ", press);
  return made;
}

function list(name, items) {
  if (items.length === 0) return [];
  const made = element("ul");
  made.append(...items.map((it) => (it instanceof Node ? it : spelled("li", it))));
  return [element("div", name), made];
}

function faultOf(fault, isFirst) {
  const made = element("div", "", { className: "fault" }), head = element("h3");
  const place = element("button", `line ${fault.line}`, { className: "plain" }), rule = element("button", `rule ${fault.rule}`, { className: "plain" });
  place.onclick = () => editor.go(fault.line);
  place.setAttribute("aria-label", `Go to line ${fault.line}`);
  rule.onclick = () => busy("Looking it up", async () => tell((await ask(["explain", String(fault.rule)])).output));
  rule.setAttribute("aria-label", `Show rule ${fault.rule}`);
  head.append(isFirst ? "Refused by " : "Also ", rule, " in ", place);
  made.append(head, element("code", fault.text ?? ""), spelled("p", fault.cause ?? fault.words ?? ""));
  made.append(...list("To show:", (fault.forms ?? []).map((it) => element("li", it))), ...list("Known:", (fault.facts ?? []).map((it) => element("li", it))));
  made.append(...list("", (fault.notes ?? [])), ...list("What mends it:", [...new Set(fault.mends ?? [])].map(mendOf)));
  return made;
}

function showRefused(faults) {
  byId("faults").replaceChildren(...faults.map((it, k) => faultOf(it, k === 0)));
  editor.mark("bad", faults.map((it) => it.line));
  const [first, ...others] = faults, more = others.length ? ` There ${others.length === 1 ? "is one more" : `are ${others.length} more`}.` : "";
  say(`Refused by rule ${first.rule} in line ${first.line}: ${first.words}.${more}`, "refused");
}

// (It is said last: what is said before the program answers again would give way to what is being done.)
async function showAccepted(verdict) {
  editor.mark("bad", []);
  const told = JSON.parse((await ask(["explain", MODULE, "--json"])).output);
  if (told.remarks?.length) byId("faults").replaceChildren(...list("What could be left out:", told.remarks));
  say(`Accepted. A run does at most ${verdict.budget} instructions, and frames stand at most ${verdict.depth} deep.`, "accepted");
}

// The verdict on the text as it stands; true where it is accepted.
async function verify() {
  clear();
  const { output, notes } = await ask(["verify", MODULE, "--json"]);
  if (!output.startsWith("{")) return say(output + notes, "refused");
  const verdict = JSON.parse(output);
  if (verdict.verdict === "accepted") {
    await showAccepted(verdict);
    return true;
  }
  if (verdict.verdict === "undecided") return say("Undecided: a verdict takes more search than a page grants.", "refused");
  const told = JSON.parse((await ask(["explain", MODULE, "--json"])).output);
  return showRefused(told.faults?.length ? told.faults : [{ ...verdict, mends: [] }]);
}

// Lines that are put in, or taken out.

// The numbers of the lines of `more` that `text` does not have; its own stand there in their order.
function linesPutIn(text, more) {
  let next = 0;
  return more.flatMap((line, k) => {
    if (next < text.length && text[next] === line) {
      next += 1;
      return [];
    }
    return [k + 1];
  });
}

async function annotate() {
  clear();
  const before = editor.lines(), { status, output, notes } = await ask(["annotate", MODULE]);
  if (status !== 0) return verify();
  const lines = linesPutIn(before, output.replace(/\n$/, "").split("\n"));
  if (lines.length === 0) return say("No line follows that is not there.");
  editor.load(output);
  editor.mark("new", lines);
  editor.go(lines[0]);
  say(`${lines.length === 1 ? "One line is" : `${lines.length} lines are`} put in, and marked: ${lines.join(", ")}. Each follows from the others.`);
}

async function prune() {
  clear();
  const before = editor.lines().length, { status, output } = await ask(["annotate", MODULE, "--prune"]);
  if (status !== 0) return verify();
  const gone = before - output.split("\n").length;
  if (gone === 0) return say("Each line is needed.");
  editor.load(output);
  say(`${gone === 1 ? "One line is" : `${gone} lines are`} taken out. The kernel is accepted without.`);
}

// Runs.
const wordsIn = (id) => byId(id).value.trim().split(/[\s,]+/).filter(Boolean);
const workers = () => String(Math.min(8, Math.max(1, Number(byId("workers").value) || 1)));

// `@a 0 10` are cells in a row, `@a:3` is one.
function cellWords() {
  const found = [...byId("cells").value.matchAll(/(@[\w.]+)(?::(\d+)|\s+(\d+)\s+(\d+))/g)];
  return found.flatMap(([, name, at, first, count]) => (at ? [`--show=${name}:${at}`] : ["--cells", name, first, count]));
}

const runWords = () => [...wordsIn("args").map((it) => `--arg=${it}`), ...wordsIn("set").map((it) => `--set=${it}`), ...cellWords()];

// Shows the answer of a run, with the page to step through.
function showRun(said, ending) {
  tell(said.output + said.notes);
  const page = said.files.get(PAGE);
  byId("stepping").hidden = !page;
  if (page) byId("page").srcdoc = page;
  return say(ending(/^result (-?\d+)$/m.exec(said.output)?.[1]), "accepted");
}

async function run(verb, more, ending) {
  clear();
  const said = await ask([verb, MODULE, ...more, ...runWords()]);
  if (said.status === 0) return showRun(said, ending);
  if (said.output.startsWith("refused")) return verify();
  tell(said.output + said.notes);
  return say(`It does not run: ${(said.notes || said.output).trim()}`, "refused");
}

const ended = (how) => (result) => (result === undefined ? "The run has not ended." : `The result ${how} is ${result}.`);
const drawn = () => ["--workers", workers(), "--seed", byId("seed").value || "0"];

async function save() {
  clear();
  const said = await ask(["run", MODULE, ...drawn(), ...runWords(), "--save", EVENTS]);
  if (said.status !== 0) return run("run", drawn(), ended("by the seed"));
  byId("schedule").value = said.files.get(EVENTS);
  return say("The events of this run stand in the schedule.");
}

const acts = {
  verify: ["Verifying", verify],
  annotate: ["Looking for lines", annotate],
  prune: ["Looking for lines", prune],
  serial: ["Running", () => run("serial", [], ended("of the serial run"))],
  run: ["Running", () => run("run", [...drawn(), "--stats", "--page", PAGE], ended("on these workers"))],
  save: ["Running", save],
  replay: ["Replaying", () => run("replay", [SCHEDULE, "--workers", workers(), "--stats", "--page", PAGE], ended("of this schedule"))],
  check: ["Checking", () => checkTask()],
};

// Links: what is in the page, packed behind the `#` of its address.
const KEPT = ["args", "set", "cells", "workers", "seed", "schedule"];

async function through(bytes, stream) {
  return new Uint8Array(await new Response(new Blob([bytes]).stream().pipeThrough(stream)).arrayBuffer());
}

async function packed() {
  const all = Object.fromEntries([["text", editor.text], ...KEPT.map((id) => [id, byId(id).value])]);
  const bytes = await through(new TextEncoder().encode(JSON.stringify(all)), new CompressionStream("deflate-raw"));
  return btoa(Array.from(bytes, (it) => String.fromCharCode(it)).join("")).replace(/\+/g, "-").replace(/\//g, "_").replace(/=+$/, "");
}

async function unpacked(words) {
  const bytes = Uint8Array.from(atob(words.replace(/-/g, "+").replace(/_/g, "/")), (it) => it.charCodeAt(0));
  return JSON.parse(new TextDecoder().decode(await through(bytes, new DecompressionStream("deflate-raw"))));
}

async function makeLink() {
  history.replaceState(null, "", `#${await packed()}`);
  byId("link-line").hidden = false;
  byId("address").value = location.href;
  byId("address").focus();
  byId("address").select();
  say("The link carries the kernel and what is set beside it. It is marked, to be copied.");
}

async function readLink() {
  const words = location.hash.slice(1);
  if (words.length < 8) return false;
  try {
    fill(await unpacked(words));
    leaveExamples();
    return true;
  } catch {
    say("The link cannot be read.", "refused");
    return false;
  }
}

// Examples and lessons.
function fill({ text, args = "", set = "", cells = "", workers = "2", seed = "1", schedule = "" }) {
  Object.entries({ args, set, cells, workers, seed, schedule }).forEach(([id, value]) => {
    byId(id).value = value;
  });
  clear();
  byId("stepping").hidden = true;
  editor.load(text);
}

function showExample() {
  const it = given.examples[byId("example").selectedIndex - 1];
  if (!it) return;
  byId("teaches").textContent = it.teaches;
  fill(it);
  say(`${it.file} is loaded.`);
}

// No example is what the text was made from.
function leaveExamples() {
  byId("example").selectedIndex = 0;
  byId("teaches").textContent = "";
}

let lesson = null;
const kept = {
  read: () => {
    try {
      return JSON.parse(localStorage.getItem("lessons") ?? "[]");
    } catch {
      return [];
    }
  },
  add: (name) => {
    try {
      localStorage.setItem("lessons", JSON.stringify([...new Set([...kept.read(), name])]));
    } catch {
      // A page from a disk may keep nothing.
    }
  },
};

function showLesson(it) {
  lesson = it;
  byId("lesson").hidden = false;
  byId("lesson-name").textContent = it.name;
  byId("lesson-words").replaceChildren(...it.words.map((words) => spelled("p", words)));
  byId("lesson-task").replaceChildren(...spelled("span", it.task).childNodes);
  byId("lesson-hint").replaceChildren(...spelled("span", it.hint).childNodes);
  byId("goals").replaceChildren(...it.goals.map(({ says }) => spelled("li", says)));
  document.querySelectorAll("#lessons button").forEach((press) => press.setAttribute("aria-current", String(press.textContent === it.name)));
  leaveExamples();
  fill(it);
  byId("lesson-name").focus();
  say(`Lesson: ${it.name}. Its kernel is loaded.`);
}

// Whether the text, the schedule or an answer of the program is as a goal asks.
async function isMet({ text, schedule, run, prints }) {
  if (text && !new RegExp(text, "m").test(editor.text)) return false;
  if (schedule && !new RegExp(schedule, "m").test(byId("schedule").value)) return false;
  if (!run) return true;
  const [verb, ...words] = run, files = verb === "replay" ? [MODULE, SCHEDULE] : [MODULE];
  const said = await ask([verb, ...files, ...words]);
  return said.status === 0 && (!prints || new RegExp(prints, "m").test(said.output));
}

async function checkTask() {
  clear();
  const items = byId("goals").children, met = [];
  for (const goal of lesson.goals) met.push(await isMet(goal));
  met.forEach((it, k) => {
    items[k].className = it ? "met" : "unmet";
    items[k].querySelector(".unseen")?.remove();
    items[k].append(element("span", it ? ": so it is" : ": not yet", { className: "unseen" }));
  });
  if (!met.every(Boolean)) return say(`Not yet: ${lesson.goals.filter((_, k) => !met[k]).map((it) => it.says).join("; ")}.`, "refused");
  kept.add(lesson.name);
  showDone();
  return say(`Done: ${lesson.name}.`, "accepted");
}

function showDone() {
  const names = kept.read();
  document.querySelectorAll("#lessons button").forEach((it) => it.classList.toggle("done", names.includes(it.textContent)));
}

// Beginning.
function build() {
  byId("example").replaceChildren(element("option", "choose one"), ...given.examples.map((it) => element("option", it.file)));
  byId("lessons").replaceChildren(...given.lessons.map((it) => {
    const item = element("li"), press = element("button", it.name);
    press.onclick = () => showLesson(it);
    item.append(press);
    return item;
  }));
  showDone();
}

function listen() {
  for (const [id, [what, work]] of Object.entries(acts)) byId(id).onclick = () => busy(what, work);
  byId("stop").onclick = () => program.stop();
  byId("link").onclick = makeLink;
  byId("again").onclick = () => showLesson(lesson);
  byId("example").onchange = () => {
    showExample();
    byId("example").focus();
  };
  byId("skip").onclick = (event) => {
    event.preventDefault();
    editor.field.focus();
  };
  editor.field.addEventListener("scroll", () => editor.scroll());
  editor.field.addEventListener("input", () => {
    editor.marks.clear();
    editor.show();
  });
  addEventListener("keydown", (event) => {
    if (event.key === "Escape" && isBusy) program.stop();
    if (event.key === "Enter" && (event.ctrlKey || event.metaKey)) {
      event.preventDefault();
      busy(...acts.verify);
    }
  });
  addEventListener("hashchange", readLink);
}

async function begin() {
  build();
  listen();
  if (!(await readLink())) {
    byId("example").selectedIndex = 1;
    showExample();
  }
  if (!WebAssembly.validate(MEMORY_OF_64_BITS)) {
    const others = "Chrome and Edge have it from version 133, Firefox from 134. We know of no Safari that has it.";
    return say(`This browser has no WebAssembly with 64-bit memory, so nothing runs here. ${others}`, "refused");
  }
  await program.load();
  document.body.dataset.ready = "";
  return say("Ready. Press Verify.");
}

begin().catch((error) => say(`The page does not start: ${error.message}`, "refused"));
