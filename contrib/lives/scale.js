"use strict";
// Draws the lanes of each life for the moments and the part of the window that are seen, and the lines below.

const begun = performance.now();
const byId = (id) => document.getElementById(id);
const main = byId("lives");
const LEFT = 118; // the column of titles
const ROW = 20; // the height of a line
const TAIL = 8; // how much more room there is behind the end than before the start
const PRINTED = 1500; // lines
const TALLEST = 8e6; // what browsers scroll exactly

const STATES = {
  carrier: "good", "no carrier": "idle", off: "idle", begins: "wait", waiting: "wait", selecting: "ask", soliciting: "ask",
  requesting: "ask", rebooting: "ask", probing: "ask", checking: "check", bound: "good", held: "good", renewing: "renew",
  rebinding: "rebind", declining: "decline", "not known": "unknown",
};
const BARS = { lease: "good", local: "local", static: "static", share: "share", other: "otherbar", unknown: "unknown", job: "job" };
const HEIGHTS = { bands: 22, marks: 26, frames: 48, bars: 19 };

// Text

const escaped = (text) => text.replace(/[&<>"]/g, (one) => ({ "&": "&amp;", "<": "&lt;", ">": "&gt;", '"': "&quot;" })[one]);
// An element as text, with its attributes and what is in it.
const tag = (name, words, inside = "") =>
  `<${name}${Object.entries(words).map(([key, value]) => ` ${key}="${value}"`).join("")}>${inside}</${name}>`;
const many = (count, one) => `${count.toLocaleString("en")} ${one}${count === 1 ? "" : "s"}`;

function lasting(ms) {
  if (ms < 1000) return `${Math.round(ms)} ms`;
  if (ms < 60e3) return `${+(ms / 1000).toFixed(ms < 10e3 ? 2 : 1)} s`;
  const parts = [["d", 86400e3], ["h", 3600e3], ["min", 60e3], ["s", 1000]];
  const first = parts.findIndex(([, size]) => ms >= size);
  const [[one, size], next] = [parts[first], parts[first + 1]];
  const rest = next ? Math.floor((ms % size) / next[1]) : 0;
  return `${Math.floor(ms / size)} ${one}${rest ? ` ${rest} ${next[0]}` : ""}`;
}

function clock(ms, step = 1) {
  const sign = ms < 0 ? "-" : "";
  const all = Math.abs(ms);
  if (all < 1000 && step < 1000) return `${sign}${+all.toFixed(step < 1 ? 2 : 0)} ms`;
  const digits = step < 1 ? 4 : step < 10 ? 3 : step < 100 ? 2 : step < 1000 ? 1 : 0;
  if (all < 60e3) return `${sign}${+(all / 1000).toFixed(digits || (all % 1000 ? 3 : 0))} s`;
  const seconds = (all % 60e3) / 1000;
  const two = (number) => String(number).padStart(2, "0");
  const minutes = Math.floor(all / 60e3);
  const tail = seconds.toFixed(digits).padStart(digits ? 3 + digits : 2, "0");
  const days = Math.floor(minutes / 1440), hours = Math.floor(minutes / 60) % 24;
  return `${sign}${days ? `${days} d ` : ""}${hours}:${two(minutes % 60)}:${tail}`;
}

const dated = (ms) => (ms > 1e11 ? new Date(ms).toISOString().replace("T", " ").replace("Z", " UTC") : `${ms} ms`);

// What the page has

async function unpacked(id) {
  const digits = atob(byId(id).textContent.trim());
  const bytes = new Uint8Array(digits.length);
  for (let place = 0; place < digits.length; place++) bytes[place] = digits.charCodeAt(place);
  return new Response(new Blob([bytes]).stream().pipeThrough(new DecompressionStream("gzip"))).text();
}

function sums(steps, Kind = Float64Array) {
  const found = new Kind(steps.length);
  let last = 0;
  for (let place = 0; place < steps.length; place++) found[place] = last += steps[place];
  return found;
}

// The first place whose number is above.
function above(numbers, number) {
  let low = 0, high = numbers.length;
  while (low < high) {
    const middle = (low + high) >> 1;
    if (numbers[middle] > number) high = middle;
    else low = middle + 1;
  }
  return low;
}

// Moments on a line on which quiet time is folded: the longer it is, the less more it takes.
class Scale {
  constructor(moments, end, folded) {
    const gaps = [];
    for (let place = 1; place < moments.length; place++) gaps.push(moments[place] - moments[place - 1]);
    const sorted = Float64Array.from(gaps).sort();
    this.quiet = folded ? Math.max(100, 2 * (sorted[sorted.length >> 2] || 0)) : Infinity;
    this.at = [0];
    this.place = [0];
    this.folded = [false]; // whether what lies before a place is folded
    let last = 0, place = 0;
    const add = (moment) => {
      const gap = moment - last;
      if (gap > this.quiet) {
        this.push(last, place, false);
        place += this.quiet * (1 + Math.log(gap / this.quiet));
        this.push(moment, place, true);
      } else place += gap;
      last = moment;
    };
    for (let one = 1; one < moments.length; one++) add(moments[one]);
    if (end > last) add(end);
    this.push(last, place, false);
    this.width = Math.max(place, 1);
    this.end = last;
  }

  push(at, place, folded) {
    if (at <= this.at[this.at.length - 1]) return;
    this.at.push(at);
    this.place.push(place);
    this.folded.push(folded);
  }

  static between(from, to, number) {
    const behind = Math.min(Math.max(above(from, number), 1), from.length - 1);
    if (from.length < 2) return number;
    const front = behind - 1;
    const size = from[behind] - from[front];
    if (number >= from[behind]) return to[behind] + number - from[behind];
    return to[front] + ((number - from[front]) * (to[behind] - to[front])) / size;
  }

  toPlace(at) { return Scale.between(this.at, this.place, at); }
  toMoment(place) { return Scale.between(this.place, this.at, place); }

  // The end of the fold in which a moment lies, or the next one.
  after(at) { return this.at[Math.min(above(this.at, at), this.at.length - 1)]; }

  // The folds that are seen, as moments and places.
  *folds(from, to) {
    for (let one = Math.max(above(this.place, from) - 1, 0); one + 1 < this.at.length && this.place[one] < to; one++) {
      if (this.folded[one + 1]) yield [this.at[one], this.at[one + 1], this.place[one], this.place[one + 1]];
    }
  }
}
