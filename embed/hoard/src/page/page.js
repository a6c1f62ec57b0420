// Chooses a picture, shows the records of a call, and says what was read and written on a drive
// between two writes.

const facts = new Map();
for (const fact of JSON.parse(document.getElementById("facts").textContent)) {
  facts.set(fact.n, fact);
}
const sentence = document.getElementById("sentence");
const card = document.getElementById("card");
const views = Array.from(document.querySelectorAll(".view"));
let shown = views[0];
// The numbers of the writes that are chosen, at most two, in the order of the run.
let chosen = [];
// The call whose records the card shows.
let told = null;

const eventOf = (target) => (target instanceof Element ? target.closest(".event[data-n]") : null);
const factOf = (event) => facts.get(Number(event.dataset.n));
const eventsShown = () => Array.from(shown.querySelectorAll(".event[data-n]"));

// What was read or written on the drive of the two writes between them, in the picture shown.
function between(from, to) {
  const inside = (fact) => fact.n > from.n && fact.n < to.n && fact.drive === from.drive;
  return eventsShown().map(factOf).filter(inside);
}

function count(calls) {
  return calls === 1 ? "1 call" : calls + " calls";
}

// The slots of the picture that is shown, and whether these are several.
const slots = () => shown.dataset.slots.split(" ").map(Number);
const several = () => slots().length > 1;

// The number of a call, with its slot where several are shown.
function call(fact) {
  return "call " + fact.n + (several() ? " in slot " + fact.slot : "");
}

// What the two chosen writes are, and what was read or written between them.
function sentenceFor(picked, calls) {
  const ends = picked.map((fact) => call(fact) + " (" + fact.says + ")");
  if (picked.length === 0) {
    return "Choose two writes on a drive: what any server read or wrote there between them is shown.";
  }
  const drive = "drive " + picked[0].drive;
  const where = drive + (several() ? "" : " in slot " + picked[0].slot);
  if (picked.length === 1) {
    return "Chosen is " + ends[0] + " on " + where + ". Choose a second write on " + drive + ".";
  }
  const between = "Between " + ends[0] + " and " + ends[1] + ", on " + where + ", ";
  if (calls.length === 0) {
    return between + "no server read or wrote anything.";
  }
  const sayings = calls.map((fact) => "in " + call(fact) + " " + fact.says);
  return between + count(calls.length) + " read or wrote: " + sayings.join("; ") + ".";
}

// Marks what is chosen and what lies between, and says it.
function update() {
  const present = new Set(eventsShown().map((event) => Number(event.dataset.n)));
  chosen = chosen.filter((n) => present.has(n)).sort((a, b) => a - b);
  const picked = chosen.map((n) => facts.get(n));
  const calls = picked.length === 2 ? between(picked[0], picked[1]) : [];
  const inside = new Set(calls.map((fact) => fact.n));
  for (const event of document.querySelectorAll(".event[data-n]")) {
    const n = Number(event.dataset.n);
    event.classList.toggle("chosen-write", chosen.includes(n));
    event.classList.toggle("between", inside.has(n));
  }
  views.forEach((view) => view.classList.toggle("choosing", picked.length === 2));
  sentence.textContent = sentenceFor(picked, calls);
  sentence.classList.toggle("said", picked.length === 2);
}

// Chooses a write, or no longer. A third, or one on another drive, begins anew.
function choose(fact) {
  if (!fact.wrote) {
    return;
  }
  if (chosen.includes(fact.n)) {
    chosen = chosen.filter((n) => n !== fact.n);
  } else if (chosen.length === 1 && facts.get(chosen[0]).drive === fact.drive) {
    chosen.push(fact.n);
  } else {
    chosen = [fact.n];
  }
  update();
}

function element(name, text, parent) {
  const made = document.createElement(name);
  made.textContent = text;
  parent.append(made);
  return made;
}

// The tables of a call in the picture that is shown. A call that names no slot has one for each.
function tablesOf(fact) {
  return fact.tables.filter((table) => table.slot === undefined || slots().includes(table.slot));
}

function table(record, parent) {
  const made = element("table", "", parent);
  element("caption", record.name, made);
  const head = element("tr", "", made);
  ["", "before", "after"].forEach((name) => element("th", name, head));
  for (const [name, before, after] of record.rows) {
    const row = element("tr", "", made);
    row.className = before === after ? "" : "changed";
    [name, before, after].forEach((cell) => element("td", cell, row));
  }
}

// Shows the records of a call.
function show(event) {
  const fact = factOf(event);
  card.replaceChildren();
  element("b", fact.n + ". " + fact.call, card);
  element("span", fact.answer + " (line " + fact.line + ")", card);
  const tables = element("div", "", card);
  tables.className = "tables";
  tablesOf(fact).forEach((record) => table(record, tables));
  card.classList.toggle("several", tables.children.length > 2);
  card.hidden = false;
  told = event;
  place();
}

// Places the card beside the column of the call that it is about, inside the window.
function place() {
  const column = told.querySelector(".hit").getBoundingClientRect();
  const right = column.right + 8;
  const fits = right + card.offsetWidth <= window.innerWidth;
  card.style.left = Math.max(0, fits ? right : column.left - card.offsetWidth - 8) + "px";
  const lowest = window.innerHeight - card.offsetHeight - 8;
  card.style.top = Math.max(8, Math.min(column.top + 20, lowest)) + "px";
}

function hide() {
  card.hidden = true;
}

document.addEventListener("mouseover", (happened) => {
  const event = eventOf(happened.target);
  event ? show(event) : hide();
});
document.addEventListener("focusin", (happened) => {
  const event = eventOf(happened.target);
  event ? show(event) : hide();
});
document.addEventListener("scroll", () => card.hidden || place(), true);
document.addEventListener("click", (happened) => {
  const event = eventOf(happened.target);
  if (event) {
    choose(factOf(event));
  }
});
document.addEventListener("keydown", (happened) => {
  const event = eventOf(happened.target);
  if (happened.key === "Escape") {
    chosen = [];
    hide();
    update();
  } else if (event && (happened.key === "Enter" || happened.key === " ")) {
    happened.preventDefault();
    choose(factOf(event));
  }
});
for (const choice of document.querySelectorAll("input[name=view]")) {
  choice.addEventListener("change", () => {
    shown.hidden = true;
    shown = views[Number(choice.value)];
    shown.hidden = false;
    update();
  });
}
document.getElementById("rows").addEventListener("change", (happened) => {
  document.body.classList.toggle("rows", happened.target.checked);
});
update();
