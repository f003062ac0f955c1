// Lines

class Lines {
  constructor(text) {
    this.all = text.split("\n");
    if (this.all[this.all.length - 1] === "") this.all.pop();
    this.view = byId("lines");
    this.room = byId("room");
    this.height = this.all.length * ROW;
    this.shown = Math.min(this.height, TALLEST);
    this.room.style.height = `${this.shown}px`;
    this.picked = 0;
    this.view.addEventListener("scroll", () => this.draw());
    this.view.addEventListener("click", (event) => {
      const line = event.target.closest(".line");
      if (line) this.pick(+line.dataset.number, true);
    });
    this.view.addEventListener("keydown", (event) => this.key(event));
  }

  key(event) {
    const all = this.all.length;
    const step = { ArrowDown: 1, ArrowUp: -1, PageDown: 20, PageUp: -20, Home: -all, End: all }[event.key];
    if (!step) return;
    event.preventDefault();
    event.stopPropagation();
    this.pick(Math.min(Math.max(this.picked + step, 1), all), true);
  }

  // The first line that is seen, also where all are more than a browser scrolls.
  top() {
    const room = this.view.clientHeight, most = this.shown - room;
    return most > 0 ? (this.view.scrollTop / most) * Math.max(this.height - room, 0) : 0;
  }

  draw() {
    if (printing) return;
    const first = Math.floor(this.top() / ROW), count = Math.ceil(this.view.clientHeight / ROW) + 1;
    const begin = this.view.scrollTop - (this.top() % ROW);
    const out = [];
    for (let place = Math.max(first, 0); place < Math.min(first + count, this.all.length); place++)
      out.push(this.line(place + 1, begin + (place - first) * ROW));
    this.room.innerHTML = out.join("");
  }

  line(number, top) {
    const text = this.all[number - 1];
    const kinds = ["line"];
    if (/^(turn|start) /.test(text)) kinds.push("turn");
    if (/^(life |dhcpcd-transcript)/.test(text)) kinds.push("head");
    if (failing.has(number)) kinds.push("bad");
    if (number === this.picked) kinds.push("picked");
    const label = labelOf(number), chip = label ? `<em>${escaped(label)}</em>` : "";
    const shown = text.length > 400 ? text.slice(0, 400) + "…" : text;
    const words = { class: kinds.join(" "), style: `top:${top}px`, role: "option", "aria-selected": number === this.picked };
    return tag("div", { ...words, "data-number": number }, `<i>${number}</i>${chip}${escaped(shown)}`);
  }

  // Shows a line; and its moment above, where it was picked below.
  pick(number, above) {
    this.picked = number;
    const room = this.view.clientHeight, most = this.height - room;
    const top = this.top(), wanted = (number - 1) * ROW;
    if (wanted < top + ROW || wanted > top + room - 2 * ROW) {
      const next = Math.min(Math.max(wanted - room / 3, 0), Math.max(most, 0));
      this.view.scrollTop = most > 0 ? (next / most) * (this.shown - room) : 0;
    }
    this.draw();
    const bad = failing.has(number) ? `<div class="bad">failed</div>` : "";
    const label = labelOf(number);
    const head = `<b>Line ${number}${label ? ` · ${escaped(label)}` : ""}</b>`;
    byId("detail").innerHTML = `${head}${bad}${fieldsOf(number, 99)}<code>${escaped(this.all[number - 1])}</code>`;
    point(number, above);
  }
}

let notes = null, packedNotes = "";
// What is told beside lines, by their numbers.
function noteOf(line) {
  if (!notes) {
    notes = new Map();
    for (const text of packedNotes.split("\n")) {
      const blank = text.indexOf(" ");
      if (blank > 0) notes.set(+text.slice(0, blank), text.slice(blank + 1));
    }
    packedNotes = "";
  }
  return notes.get(line);
}

function fieldsOf(line, most) {
  const note = noteOf(line);
  if (!note) return "";
  const rows = note.split("\x1f").filter(Boolean).map(named);
  if (rows.length > most) rows.splice(most, rows.length, ["", `and ${rows.length - most} more: pick it`]);
  return listed(rows);
}

// The name and the value of a field or of a variable; other lines are values alone.
function named(row) {
  const place = row.includes("\t") ? row.indexOf("\t") : row.indexOf("=");
  return place < 0 ? ["", row] : [row.slice(0, place), row.slice(place + 1)];
}

function listed(rows) {
  return tag("dl", { class: "fields" }, rows.map(([name, value]) => tag("dt", {}, escaped(name)) + tag("dd", {}, escaped(value))).join(""));
}

let lives = [], lines = null, current = null, failing = new Set(), failed = [], printing = false;

// The message of a line that has a frame.
function labelOf(number) {
  const life = lives.findLast((one) => one.data.line <= number);
  const [lane, place] = life ? life.find(number) : [];
  return lane && lane.name === "frames" ? life.words[lane.marks.label[place]] : "";
}

// Where a line is drawn: its life, and the moment of its turn.
function momentOf(number) {
  for (let turn = number; turn > 0; turn--) {
    const found = /^(?:turn|start) (\d+) /.exec(lines.all[turn - 1]);
    if (!found) continue;
    const at = +found[1];
    const life = lives.findLast((one) => one.data.line <= turn);
    return life ? [life, at - life.data.begin] : null;
  }
  return null;
}

function point(number, above) {
  const found = above ? momentOf(number) : null;
  if (found) {
    const [life, at] = found;
    current = life;
    life.centre(at);
    life.bring(number);
    life.draw();
    life.cursor(life.x(at));
  }
  for (const life of lives) life.frame();
}

// The tip

function showTip(content, box) {
  const tip = byId("tip");
  tip.innerHTML = content;
  tip.hidden = false;
  const { offsetWidth: width, offsetHeight: height } = tip;
  const left = Math.min(Math.max(box.left + 12, 8), innerWidth - width - 8);
  const below = box.bottom + 10 + height < innerHeight;
  tip.style.left = `${left}px`;
  tip.style.top = `${Math.max(below ? box.bottom + 8 : box.top - height - 8, 8)}px`;
}

function hideTip() { byId("tip").hidden = true; }

// Drawing and keys

const waiting = new Set();
function later(life) {
  if (!waiting.size) requestAnimationFrame(() => {
    for (const one of waiting) one.draw();
    waiting.clear();
  });
  waiting.add(life);
}

function nextFailure() {
  if (!failed.length) return;
  const next = failed.find((line) => line > lines.picked) ?? failed[0];
  lines.pick(next, true);
}

function fold() {
  const folded = byId("fold").getAttribute("aria-pressed") !== "true";
  byId("fold").setAttribute("aria-pressed", folded);
  byId("fold").textContent = folded ? "Quiet folded" : "Quiet unfolded";
  for (const life of lives) {
    life.rescale(folded);
    later(life);
  }
}

const KEYS = {
  0: () => {
    if (!current) return;
    current.whole();
    later(current);
  },
  "+": () => current.zoom(0.6), "=": () => current.zoom(0.6), "-": () => current.zoom(1.6), ArrowLeft: () => current.move(-0.15),
  ArrowRight: () => current.move(0.15), f: fold, n: nextFailure,
  Home: () => current.show(0, current.to - current.from),
  End: () => current.show(current.scale.width - (current.to - current.from), current.scale.width),
};

function key(event) {
  if (!current || event.ctrlKey || event.metaKey || event.altKey) return;
  const held = document.activeElement;
  if (event.key === "Escape") return hideTip();
  if (event.key === "Enter" && held && held.classList.contains("mark")) {
    const life = lives.find((one) => one.svg.contains(held));
    life.enter(held);
    return event.preventDefault();
  }
  if (KEYS[event.key] && !(held && held.tagName === "SUMMARY")) {
    KEYS[event.key]();
    event.preventDefault();
  }
}

const LEGEND = {
  States: ["wait begins, waiting", "ask asking, probing", "check checking an address", "good bound, held, carrier", "renew renewing",
    "rebind rebinding", "decline declining", "idle off, no carrier", "unknown not known", "mixed many, too narrow"],
  Addresses: ["good of a lease", "share out of a prefix", "static static", "local link-local", "otherbar found there", "unknown held or not"],
};
const FORMS = [["in dhcp4", "frames", "DHCPv4, in"], ["out dhcp4", "frames", "DHCPv4, out"], ["in dhcp6", "frames", "DHCPv6"],
  ["in arp", "frames", "ARP"], ["asked", "frames", "release, rebind, dup"], ["list", "host", "a listing"], ["add", "host", "a row added"],
  ["del", "host", "a row removed"], ["read", "files", "a file read"], ["write", "files", "saved"], ["remove", "files", "removed"]];
const HELP = `States are drawn as the lines tell them. Drag moves in time, Ctrl and the wheel, or a double click, come nearer;
  keys: ← → + − 0 f n, Tab and Enter.`;

function legend() {
  const swatch = (inside, text) => tag("span", {}, tag("svg", { width: 26, height: 16 }, inside) + escaped(text));
  const band = { x: 1, y: 2, width: 24, height: 12, rx: 2 };
  const out = [];
  for (const [title, rows] of Object.entries(LEGEND)) {
    out.push(tag("h3", {}, title));
    for (const [, style, text] of rows.map((row) => /^(\w+) (.*)$/.exec(row)))
      out.push(swatch(tag("rect", { class: `band ${style}`, ...band }), text));
  }
  out.push(tag("h3", {}, "Marks"));
  for (const [shape, lane, text] of FORMS) out.push(swatch(glyph(shape, lane, 13, 8), text));
  out.push(swatch(tag("g", { class: "mark failed" }, glyph("out dhcp4", "frames", 13, 8) + ring(13, 8)), "failed, in every lane"));
  const twelve = tag("rect", { x: 2, y: 1, width: 22, height: 14 }) + tag("text", { x: 13, y: 11.5, "text-anchor": "middle" }, 12);
  out.push(swatch(tag("g", { class: "mark many m-call" }, twelve), "so many, close together"), tag("p", {}, HELP));
  byId("swatches").innerHTML = out.join("");
}

// Printing shows all lanes and the first lines.
function drawForPrint() {
  printing = true;
  for (const life of lives) life.draw();
  const shown = lines.all.slice(0, PRINTED).map((_, place) => lines.line(place + 1, 0)).join("");
  const rest = lines.all.length - PRINTED;
  lines.room.innerHTML = shown + (rest > 0 ? tag("p", { class: "word" }, `and ${many(rest, "more line")}`) : "");
}

// Draws the lives; their lines come after.
function drawLives(data) {
  byId("word").textContent = data.panels.length ? "" : "No life is told.";
  lives = data.panels.map((panel, number) => new Life(panel, data.words, number));
  for (const life of lives) main.append(life.element);
  current = lives[0];
  failed = data.panels.flatMap((panel) => panel.failures).sort((one, other) => one - other);
  failing = new Set(failed);
  legend();
  for (const life of lives) life.draw();
}

function drawLines(text) {
  lines = new Lines(text);
  const count = lives.length === 1 ? "1 life" : `${lives.length} lives`;
  const bad = failed.length ? many(failed.length, "failure") : "no failures";
  byId("facts").textContent = `${count} · ${many(lines.all.length, "line")} · ${bad}`;
  byId("failure").disabled = !failed.length;
  lines.draw();
}

function listen() {
  const sizes = new ResizeObserver(() => { lives.forEach(later); lines.draw(); });
  sizes.observe(main);
  sizes.observe(lines.view);
  main.addEventListener("scroll", () => lives.forEach(later));
  document.addEventListener("keydown", key);
  addEventListener("beforeprint", drawForPrint);
  addEventListener("afterprint", () => { printing = false; lives.forEach((life) => life.draw()); lines.draw(); });
  byId("fold").onclick = fold;
  byId("nearer").onclick = () => current?.zoom(0.6);
  byId("farther").onclick = () => current?.zoom(1.6);
  byId("whole").onclick = () => KEYS[0]();
  byId("failure").onclick = nextFailure;
}

// The moments at which the page is drawn stand at its root, for who measures it.
async function start() {
  if (!("DecompressionStream" in window)) {
    byId("word").textContent = "This browser can't unpack the page: it has no DecompressionStream.";
    return;
  }
  const text = unpacked("text");
  drawLives(JSON.parse(await unpacked("model")));
  drawLines(await text);
  listen();
  requestAnimationFrame(() => requestAnimationFrame(async () => {
    document.documentElement.dataset.opened = Math.round(performance.now() - begun);
    packedNotes = await unpacked("notes");
    ready();
  }));
}

// A line or a moment that the address names is shown at once: `#line=34`.
function ready() {
  const line = /line=(\d+)/.exec(location.hash);
  notes = null;
  lines.draw();
  if (line) lines.pick(+line[1], true);
  document.documentElement.dataset.ready = "yes";
}

start();
