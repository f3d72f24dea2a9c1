"use strict";

// What the page shows. Each text goes into the page as text, never as HTML; pictures are shown as images, and films in a frame.

const at = id => document.getElementById(id);
const key = kept("key");
let steps = null; // The nets gone through by steps and rounds: {text, nets, place}.
let picture = ""; // The picture that is shown, as SVG.
let ticket = 0; // The call that is shown: what an earlier one answers is left.

// What the address has after # of this name, as of `#key=..&text=..`. The key is kept, so that it needn't stand in links.
function kept(name) {
  const said = new URLSearchParams(location.hash.slice(1)).get(name);
  if (name === "key" && said) {
    localStorage.setItem("key", said);
    history.replaceState(null, "", location.pathname + location.hash.replace(/key=[^&]*&?/, ""));
  }
  return said || (name === "key" ? localStorage.getItem("key") || "" : "");
}

async function call(name, asked) {
  let came;
  try {
    came = await fetch("/call/" + name, { method: "POST", headers: { "X-Key": key }, body: JSON.stringify(asked) });
  } catch (fault) {
    return { limit: "the page's server has ended: start icserve-page again" };
  }
  if (came.status === 403) return { limit: "this page needs the address that icserve-page printed, with its key" };
  return came.json();
}

function made(name, text, fields) {
  const node = document.createElement(name);
  if (text !== undefined) node.textContent = text;
  return Object.assign(node, fields || {});
}

// ---- what is written

function findingOf(it, lines) {
  const item = made("li", undefined, { className: it.is_fault ? "fault" : "warning" });
  if (!it.line) {
    item.append(made("span", (it.is_fault ? "" : "warning: ") + it.told));
    return item;
  }
  const button = made("button", `line ${it.line}, column ${it.column}: ${it.told}`);
  button.onclick = () => mark(it.line, it.column);
  item.append(button, made("pre", cut(lines[it.line - 1] || "", it.column)));
  return item;
}

// A line and a mark under its column, cut to what is seen at once.
function cut(line, column) {
  const first = Math.max(0, column - 40);
  return line.slice(first, first + 80) + "\n" + " ".repeat(column - 1 - first) + "^";
}

function mark(line, column) {
  const before = at("text").value.split("\n").slice(0, line - 1).join("\n").length + (line > 1 ? 1 : 0);
  at("text").focus();
  at("text").setSelectionRange(before + column - 1, before + column);
}

let checking = 0;
async function check() {
  const text = at("text").value, mine = ++checking;
  const said = await call("check", { text });
  if (mine !== checking) return;
  const lines = text.split("\n"), found = said.came ? said.came.findings : [{ told: said.limit || said.refused, line: null, is_fault: true }];
  at("faults").replaceChildren(...found.map(it => findingOf(it, lines)));
}

let waiting = 0;
function written() {
  clearTimeout(waiting);
  waiting = setTimeout(check, 150);
  leaveSteps();
}

// ---- what is shown

function clear() {
  at("answer").textContent = "";
  at("figures").replaceChildren();
  at("picture").replaceChildren();
  picture = "";
  at("save-picture").disabled = true;
}

function show(svg) {
  picture = svg;
  at("save-picture").disabled = !svg;
  if (!svg) return at("picture").replaceChildren();
  const source = URL.createObjectURL(new Blob([svg], { type: "image/svg+xml" }));
  const image = made("img", undefined, { src: source, alt: "the picture", onload: () => URL.revokeObjectURL(source) });
  at("picture").replaceChildren(image);
}

function rows(table, head, lines) {
  const line = (cells, name) => {
    const row = made("tr");
    row.append(...cells.map(it => made(name, it, { className: typeof it === "number" ? "number" : "" })));
    return row;
  };
  table.replaceChildren(line(head, "th"), ...lines.map(it => line(it, "td")));
}

// Calls, and shows what is refused and what a limit ends. The result is what came, or null.
async function shown(name, asked) {
  const mine = ++ticket;
  at("told").textContent = "..";
  const said = await call(name, asked);
  if (mine !== ticket) return null;
  const told = said.limit || (said.refused && said.refused + (said.told ? "\n" + said.told : "")) || (said.came ? said.came.limit : "the page asked amiss");
  at("told").textContent = told || "";
  return said.came || null;
}

async function reduce() {
  leaveSteps();
  clear();
  const came = await shown("reduce", { text: at("text").value });
  if (!came) return;
  at("answer").textContent = came.text;
  const told = [came.stuck && `no rule for ${came.stuck}`, came.circle && `a circle at ${came.circle}`, came.limit].filter(Boolean).join("; ");
  at("told").textContent = `${came.interactions.toLocaleString("en")} interactions` + (told ? "; " + told : "");
  rows(at("figures"), ["rule", "interactions"], Object.entries(came.by_rule));
}

async function trace() {
  leaveSteps();
  clear();
  const came = await shown("trace", { text: at("text").value });
  if (!came) return;
  show(came.svg);
  rows(at("figures"), ["round", "pairs", "nodes", "equations", "names"], came.rows.slice(0, 1000));
}

async function draw() {
  leaveSteps();
  clear();
  const came = await shown("draw", { text: at("text").value });
  if (came) show(came.svg);
}

async function film() {
  leaveSteps();
  clear();
  const came = await shown("film", { text: at("text").value });
  if (!came) return;
  const frame = made("iframe", undefined, { src: came.at, title: "the film" });
  frame.setAttribute("sandbox", "allow-scripts");
  at("picture").replaceChildren(frame);
}

// ---- a step or a round at a time

function leaveSteps() {
  steps = null;
  showPlace();
}

function showPlace() {
  const net = steps && steps.nets[steps.place];
  const isEnd = !net || (net.pairs === 0 && steps.place + 1 === steps.nets.length);
  at("back").disabled = !steps || steps.place === 0;
  at("step").disabled = at("round").disabled = isEnd;
  at("place").textContent = net ? `net ${steps.place}: ${net.by}${net.pairs} pairs can fire` : "";
  if (!net) return;
  clear();
  at("answer").textContent = net.config;
  at("told").textContent = net.limit;
  show(net.svg);
}

async function begin() {
  clear();
  leaveSteps();
  const text = at("text").value, came = await shown("begin", { text });
  if (!came) return;
  steps = { text, nets: [{ ...came, by: "" }], place: 0 };
  showPlace();
}

// Goes on by a step or a round. Nets after this place that were gone through by the same are shown again.
async function goOn(by) {
  const mine = steps, next = mine.nets[mine.place + 1];
  if (!next || next.way !== by) {
    const came = await shown("on", { text: mine.text, config: mine.nets[mine.place].config, by });
    if (!came || steps !== mine) return;
    const fired = by === "round" ? "a round; " : came.fired.length ? `${came.fired[0]} fired; ` : "";
    mine.nets.splice(mine.place + 1, Infinity, { ...came, way: by, by: fired });
  }
  mine.place += 1;
  showPlace();
}

function goBack() {
  steps.place -= 1;
  showPlace();
}

// ---- what is saved

function save(text, kind, name) {
  const source = URL.createObjectURL(new Blob([text], { type: kind }));
  made("a", undefined, { href: source, download: name }).click();
  setTimeout(() => URL.revokeObjectURL(source), 1000);
}

async function link() {
  const address = location.origin + "/#text=" + encodeURIComponent(at("text").value);
  history.replaceState(null, "", address);
  try {
    await navigator.clipboard.writeText(address);
    at("told").textContent = "the link is copied: it has the text, and not the key";
  } catch (fault) {
    at("told").textContent = "the address above is the link";
  }
}

// ---- jobs

const seen = new Map(); // The rounds of each job, as they were seen.
const LINES = { running: ["pause", "cancel"], paused: ["resume", "cancel"] };

async function ask(line) {
  const said = await call("jobs", { line });
  const answer = said.came ? said.came.answer : said.limit || "the page asked amiss";
  if (!line.startsWith("list")) at("reply").textContent = answer;
  return said.came ? answer : null;
}

function jobRow([name, state, rounds]) {
  const row = made("tr"), buttons = made("td");
  for (const word of [...(LINES[state] || ["cancel"]), "fetch"]) {
    const button = made("button", word);
    button.onclick = () => ask(`${word} ${name}`).then(list);
    buttons.append(button);
  }
  row.append(made("td", name), made("td", state), made("td", rounds, { className: "number" }), buttons);
  return row;
}

async function list() {
  const answer = await ask("list");
  if (answer === null) return;
  const jobs = answer.split(" ").slice(1).filter(Boolean).map(it => it.split(":"));
  at("table").replaceChildren(...jobs.map(jobRow));
  for (const [name, , rounds] of jobs) seen.set(name, [...(seen.get(name) || []), Number(rounds)].slice(-120));
  for (const name of seen.keys()) if (!jobs.some(it => it[0] === name)) seen.delete(name);
  chart();
}

// A line for each job: its rounds in the last two minutes.
function chart() {
  const space = "http://www.w3.org/2000/svg", most = Math.max(1, ...[...seen.values()].flat());
  const svg = document.createElementNS(space, "svg");
  svg.setAttribute("viewBox", "0 0 480 120");
  [...seen].forEach(([name, counts], number) => {
    const line = document.createElementNS(space, "polyline"), title = document.createElementNS(space, "title");
    line.setAttribute("points", counts.map((it, i) => `${(i * 4)},${118 - 116 * it / most}`).join(" "));
    line.setAttribute("fill", "none");
    line.setAttribute("stroke", `hsl(${number * 67 % 360} 70% 40%)`);
    title.textContent = name;
    line.append(title);
    svg.append(line);
  });
  at("chart").replaceChildren(svg);
}

async function submit() {
  await ask(`submit ${at("name").value} ${at("text").value}`);
  list();
}

// ---- as the page begins

function put(text) {
  at("text").value = text;
  written();
}

async function start() {
  const listed = await call("examples", {}), jobs = await call("socket", {});
  const examples = listed.came ? listed.came.examples : {};
  at("examples").append(...Object.keys(examples).map(it => made("option", it, { value: it })));
  at("examples").onchange = () => at("examples").value && put(examples[at("examples").value]);
  put(kept("text") || examples.addition || "");
  if (listed.limit) at("told").textContent = listed.limit;
  if (!jobs.came || !jobs.came.socket) return;
  at("jobs").hidden = false;
  at("socket").textContent = jobs.came.socket;
  at("submit").onclick = submit;
  list();
  setInterval(list, 1000);
}

for (const [id, act] of Object.entries({ reduce, trace, draw, film, begin, link, back: goBack, step: () => goOn("step"), round: () => goOn("round") }))
  at(id).onclick = act;
at("text").oninput = written;
at("save-text").onclick = () => save(at("text").value, "text/plain", "net.ic");
at("save-picture").onclick = () => save(picture, "image/svg+xml", "net.svg");
start();
