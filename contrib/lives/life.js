// One life

class Life {
  constructor(data, words, number) {
    Object.assign(this, { data, words, number });
    this.moments = sums(data.moments);
    this.lanes = data.groups.flatMap((group, place) => group.lanes.map((lane, row) => this.lane(lane, group, place, row)));
    this.element = document.createElement("section");
    this.element.className = "life";
    this.element.innerHTML = this.head() + `<svg tabindex="0" role="group" aria-label="${escaped(this.said())}"></svg>`;
    this.svg = this.element.querySelector("svg");
    this.rescale(true);
    this.layout();
    this.listen();
  }

  said() {
    return `${this.data.title}. Left and right move in time, plus and minus change the scale, 0 shows all, Tab goes through the marks.`;
  }

  head() {
    const { data } = this;
    const bad = data.failures.length ? `<span class="bad">${many(data.failures.length, "failure")}</span>` : "";
    const when = data.begin ? `from ${dated(data.begin)}` : "";
    const facts = [...data.notes, lasting(data.end), when].filter(Boolean).join(" · ");
    return `<h2>${escaped(data.title)} <small>${escaped(facts)}</small>${bad}</h2>`;
  }

  lane(lane, group, place, row) {
    const { marks } = lane;
    const found = { ...lane, group, first: row === 0, place };
    found.at = sums(marks.at);
    found.line = sums(marks.line, Uint32Array);
    found.failed = new Set(sums(marks.failed));
    found.rows = lane.kind === "bars" ? this.stack(lane) : 1;
    return found;
  }

  // The row of each bar, so that none lies on another one.
  stack(lane) {
    const ends = [], rows = new Map();
    for (const bar of lane.bars) {
      const key = bar[0];
      let row = rows.has(key) ? rows.get(key) : ends.findIndex((end) => end <= bar[1]);
      if (row < 0 || (ends[row] > bar[1] && !rows.has(key))) row = ends.length < 8 ? ends.length : 7;
      if (lane.name !== "hooks") rows.set(key, row);
      ends[row] = bar[2] < 0 ? Infinity : Math.max(bar[2], ends[row] || 0);
      bar.row = row;
    }
    return Math.max(ends.length, 1);
  }

  rescale(folded) {
    this.scale = new Scale(this.moments, this.data.end, folded);
    this.whole();
  }

  whole() {
    const room = this.scale.width * 0.015;
    this.from = -room;
    this.to = this.scale.width + room * TAIL;
  }

  layout() {
    let y = 26;
    for (const lane of this.lanes) {
      if (lane.first) y += lane.place ? 20 : 16;
      lane.y = y;
      lane.height = HEIGHTS[lane.name] || HEIGHTS[lane.kind] * lane.rows + (lane.kind === "bars" ? 4 : 0);
      y += lane.height + 3;
    }
    this.height = y + 8;
    this.svg.setAttribute("height", this.height);
  }

  x(at) { return LEFT + ((this.scale.toPlace(at) - this.from) * this.room) / (this.to - this.from); }
  moment(x) { return this.scale.toMoment(this.from + ((x - LEFT) * (this.to - this.from)) / this.room); }

  // The part of the lanes that can be seen.
  seen() {
    if (printing) return [0, this.height];
    const own = this.svg.getBoundingClientRect(), view = main.getBoundingClientRect();
    return [view.top - own.top - 200, view.bottom - own.top + 200];
  }

  draw() {
    const width = this.svg.clientWidth || main.clientWidth;
    this.width = width;
    this.room = Math.max(width - LEFT - 10, 50);
    const [top, bottom] = this.seen();
    if (bottom < 0 || top > this.height) return;
    const focus = document.activeElement, held = this.svg.contains(focus) && focus.dataset ? focus.dataset.key : null;
    const clip = `clip${this.number}`, area = tag("rect", { x: LEFT, y: 0, width: this.room + 10, height: this.height });
    const out = [tag("clipPath", { id: clip }, area), `<g clip-path="url(#${clip})">`];
    this.drawFolds(out);
    const labels = this.drawAxis(out);
    for (const lane of this.lanes) if (lane.y + lane.height >= top && lane.y <= bottom) this.drawLane(lane, out);
    this.drawStops(out);
    out.push(`<line class="cursor" y1="20" y2="${this.height}" x1="-9" x2="-9"/></g>`);
    this.drawTitles(out, top, bottom);
    this.drawLabels(labels, out);
    this.svg.innerHTML = out.join("");
    if (held) this.svg.querySelector(`[data-key="${held}"]`)?.focus({ preventScroll: true });
    this.frame();
  }

  // Frames what the picked line is drawn as, alone or among others.
  frame() {
    const picked = lines ? lines.picked : 0;
    for (const mark of this.svg.querySelectorAll("[data-line]")) {
      const first = +mark.dataset.line, last = +(mark.dataset.last || first);
      mark.classList.toggle("picked", first <= picked && picked <= last);
    }
  }

  drawFolds(out) {
    let last = -99;
    for (const [from, to] of this.scale.folds(this.from, this.to)) {
      const [x, end] = [this.x(from), this.x(to)];
      if (end - x < 5) continue;
      out.push(`<rect class="fold" x="${x + 1}" y="24" width="${end - x - 2}" height="${this.height - 24}"/>`);
      out.push(`<path class="foldedge" d="M${x + 1} 24V${this.height}M${end - 1} 24V${this.height}"/>`);
      // its length stands in the middle of what is seen of it, beside the first title
      const text = lasting(to - from), left = Math.max(x, LEFT + 60), right = Math.min(end, LEFT + this.room);
      if (right - left > text.length * 6.2 && x > last) {
        out.push(`<text class="soft" text-anchor="middle" x="${(left + right) / 2}" y="35">${text}</text>`);
        last = end;
      }
    }
  }

  // Labels stand where quiet ends, and at round moments between.
  drawAxis(out) {
    const taken = [], labels = [];
    const put = (at, step) => {
      const x = this.x(at);
      if (x < LEFT - 1 || x > LEFT + this.room) return;
      const text = clock(at, step), half = text.length * 3.1 + 5;
      if (taken.some(([from, to]) => x + half > from && x - half < to)) return;
      taken.push([x - half, x + half]);
      out.push(`<line class="grid" x1="${x}" x2="${x}" y1="20" y2="${this.height}"/>`);
      labels.push([x, text]);
    };
    const step = nice((90 * (this.to - this.from)) / this.room);
    put(0, 1000);
    const folds = [...this.scale.folds(this.from, this.to)];
    if (folds.length < 400) for (const [, to] of folds) put(to, 1000);
    else for (let x = LEFT + 60; x < LEFT + this.room; x += 120) put(this.scale.after(this.moment(x)), 1000);
    let from = Math.max(this.moment(LEFT), 0);
    const ranges = [];
    for (const [begin, end] of folds.slice(0, 400)) {
      ranges.push([from, begin]);
      from = end;
    }
    ranges.push([from, Math.min(this.moment(LEFT + this.room), this.scale.end)]);
    for (const [low, high] of ranges) {
      let count = 0;
      for (let at = Math.ceil(low / step) * step; at <= high && count < 60; at += step, count++) put(at, step);
    }
    return labels;
  }

  // The labels of the axis stay in sight where the life is scrolled.
  drawLabels(labels, out) {
    const own = this.svg.getBoundingClientRect().top, view = main.getBoundingClientRect().top;
    const y = printing ? 0 : Math.min(Math.max(view - own, 0), this.height - 40);
    if (y > 0) out.push(tag("rect", { class: "strip", x: 0, y: y - 1, width: this.width, height: 21 }));
    for (const [x, text] of labels) out.push(tag("text", { class: "axis", "text-anchor": "middle", x, y: y + 15 }, text));
  }

  drawStops(out) {
    for (const [at, line] of this.data.stops) {
      const x = this.x(at);
      out.push(`<g class="mark" tabindex="0" role="link" aria-label="stop, line ${line}" data-key="s${line}" data-line="${line}">`);
      out.push(`<line class="stop" x1="${x}" x2="${x}" y1="20" y2="${this.height}"/><rect class="hit" x="${x - 4}" y="18" width="8" height="14"/>`);
      out.push(`<text x="${x + 4}" y="${this.height - 4}" class="soft">stop</text></g>`);
    }
  }

  drawTitles(out, top, bottom) {
    for (const lane of this.lanes) {
      if (lane.y + lane.height < top || lane.y - 20 > bottom) continue;
      if (lane.first) {
        const y = lane.y - 6;
        if (lane.place) out.push(`<line class="rule" x1="8" x2="${this.width - 8}" y1="${y - 13}" y2="${y - 13}"/>`);
        out.push(`<text class="group" x="12" y="${y}">${escaped(lane.group.title)}</text>`);
        out.push(`<text class="soft" x="${22 + lane.group.title.length * 8.4}" y="${y}">${escaped(lane.group.note)}</text>`);
      }
      out.push(`<text class="soft" x="20" y="${lane.y + Math.min(lane.height, 22) / 2 + 4}">${escaped(lane.title)}</text>`);
      if (lane.name === "frames") {
        out.push(`<text class="soft" x="${LEFT - 8}" y="${lane.y + 16}" text-anchor="end" font-size="10">in</text>`);
        out.push(`<text class="soft" x="${LEFT - 8}" y="${lane.y + 40}" text-anchor="end" font-size="10">out</text>`);
      }
    }
  }

  drawLane(lane, out) {
    if (lane.kind === "bands") this.drawSpans(lane, lane.bands, out, (band) => STATES[this.words[band[0]]] || "wait");
    if (lane.kind === "bars") this.drawSpans(lane, lane.bars, out, (bar) => BARS[this.words[bar[4]]] || "otherbar");
    if (!lane.at.length) return;
    if (lane.name !== "frames") return this.drawMarks(lane, out, lane.y + HEIGHTS.marks / 2, () => true);
    const shape = (place) => this.words[lane.marks.shape[place]];
    this.drawMarks(lane, out, lane.y + 12, (place) => !shape(place).startsWith("out"));
    this.drawMarks(lane, out, lane.y + 36, (place) => shape(place).startsWith("out"));
  }

  // Bands or bars; those that are too narrow to be told apart are drawn as one.
  drawSpans(lane, spans, out, style) {
    const height = lane.kind === "bars" ? 16 : 18;
    const left = LEFT - 2, right = LEFT + this.room + 10;
    const crowd = new Map();
    const flush = (row) => {
      const one = crowd.get(row);
      const y = lane.y + 2 + row * HEIGHTS.bars;
      if (one) {
        const width = Math.max(one.end - one.x, 2);
        out.push(tag("rect", { class: "mixed", "data-many": one.count, x: one.x, y, width, height }));
      }
      crowd.delete(row);
    };
    for (let place = 0; place < spans.length; place++) {
      const span = spans[place], row = span.row || 0;
      const end = span[2] < 0 ? right : this.x(span[2]);
      if (end < left) continue;
      const x = Math.max(this.x(span[1]), left);
      if (x > right) { if (lane.kind === "bands") break; continue; }
      const width = Math.max(Math.min(end, right) - x, 0);
      if (width < 2.5 && spans.length > 60) {
        const one = crowd.get(row);
        if (one && x - one.end < 3 && one.end - one.x < 40) Object.assign(one, { end: x + width, count: one.count + 1 });
        else { flush(row); crowd.set(row, { x, end: x + width, count: 1 }); }
        continue;
      }
      flush(row);
      this.drawSpan(lane, span, place, x, width, height, style(span), out);
    }
    for (const row of [...crowd.keys()]) flush(row);
  }

  drawSpan(lane, span, place, x, width, height, style, out) {
    const y = lane.y + 2 + (span.row || 0) * HEIGHTS.bars;
    const label = this.words[span[0]], bad = lane.kind === "bars" && span[6];
    const key = `${this.lanes.indexOf(lane)}.${place}`;
    const drawn = Math.max(width, 2.5);
    const said = `${lane.group.title} ${lane.title}: ${label}, from ${clock(span[1])}, line ${span[3]}`;
    const box = { x, y, width: drawn, height, rx: 2 };
    out.push(this.opened({ key, kind: "span", line: span[3], said, bad }));
    out.push(tag("rect", { class: `band ${style}${bad ? " failed" : ""}`, ...box }), tag("rect", { class: "hit", ...box }));
    const room = Math.floor((width - 9) / 5.9);
    if (room >= Math.min(label.length, 4)) {
      const text = label.length > room ? label.slice(0, room - 1) + "…" : label;
      out.push(`<text class="in ${style}-text${bad ? " failed" : ""}" x="${x + 5}" y="${y + height / 2 + 4}">${escaped(text)}</text>`);
    }
    out.push("</g>");
  }

  // The begin of a mark, which can be pointed at and reached by Tab.
  opened({ key, kind, line, last, said, bad = false, style = "" }) {
    const name = escaped(bad === true ? `${said}, failed` : said);
    const role = kind === "crowd" ? "button" : "link", lines = last ? `data-line="${line}" data-last="${last}"` : `data-line="${line}"`;
    const classes = `mark${style}${bad && kind !== "span" ? " failed" : ""}`;
    return `<g class="${classes}" tabindex="0" role="${role}" data-key="${key}" data-${kind}="${key}" ${lines} aria-label="${name}">`;
  }

  // Marks, of which those that lie close together are one with their number.
  drawMarks(lane, out, y, wanted) {
    const first = above(lane.at, this.moment(LEFT - 12)), end = above(lane.at, this.moment(LEFT + this.room + 12));
    const flush = (crowd, next) => {
      const { places, x: begin } = crowd, last = places.length - 1;
      const together = last > 0 && lane.at[places[0]] === lane.at[places[last]];
      if (last > 0 && !(together && last < 6 && next - begin > 14 * (last + 1) + 4)) return this.drawCrowd(lane, crowd, y, out);
      // those of one moment stand beside one another, over a line
      if (together) out.push(`<path class="together" d="M${begin - 6} ${y + 9}h${14 * last + 12}"/>`);
      const label = together ? this.summary(lane, places) : this.words[lane.marks.label[places[0]]];
      places.forEach((one, row) => this.drawMark(lane, one, begin + 14 * row, y, row < last ? null : label, next, out));
    };
    let crowd = { places: [], x: -99, end: -99 };
    let at = NaN, x = 0;
    for (let place = Math.max(first - 1, 0); place < end; place++) {
      if (!wanted(place)) continue;
      if (lane.at[place] !== at) x = this.x(at = lane.at[place]);
      if (x < LEFT - 12) continue;
      if (crowd.places.length && x - crowd.end < 11 && x - crowd.x < 22) {
        crowd.places.push(place);
        crowd.end = x;
      } else {
        flush(crowd, x);
        crowd = { places: [place], x, end: x };
      }
    }
    flush(crowd, Infinity);
  }

  // What several marks of one moment are: the first words of their labels, with their numbers.
  summary(lane, places) {
    const counts = new Map();
    for (const place of places) {
      const label = this.words[lane.marks.label[place]];
      const word = lane.name === "frames" ? label : label.split(" ")[0];
      counts.set(word, (counts.get(word) || 0) + 1);
    }
    return [...counts].map(([word, count]) => (count > 1 ? `${count} × ${word}` : word)).join(", ");
  }

  drawMark(lane, place, x, y, beside, next, out) {
    const label = this.words[lane.marks.label[place]], shape = this.words[lane.marks.shape[place]];
    const bad = lane.failed.has(place), line = lane.line[place];
    const key = `${this.lanes.indexOf(lane)}.${place}`;
    const way = shape.startsWith("out") ? "sent " : shape.startsWith("in") ? "came " : "";
    const said = `${lane.group.title}: ${way}${label}, at ${clock(lane.at[place])}, line ${line}`;
    out.push(this.opened({ key, kind: "mark", line, said, bad }));
    out.push(glyph(shape, lane.name, x, y));
    if (bad) out.push(ring(x, y));
    out.push(tag("rect", { class: "hit", x: x - 8, y: y - 10, width: 16, height: 20, rx: 4 }));
    if (beside && next - x > beside.length * 5.7 + 20)
      out.push(tag("text", { class: `said${bad ? " failed" : ""}`, x: x + 9, y: y + 3.5 }, escaped(beside)));
    out.push("</g>");
  }

  drawCrowd(lane, crowd, y, out) {
    const { places, x, end } = crowd;
    const bad = places.filter((place) => lane.failed.has(place)).length;
    const count = places.length > 999 ? `${Math.round(places.length / 1000)}k` : String(places.length);
    const width = Math.max(end - x + 10, count.length * 6 + 8), left = (x + end - width) / 2;
    const key = `${this.lanes.indexOf(lane)}.${places[0]}-${places[places.length - 1]}`;
    const said = `${lane.group.title}: ${places.length} marks from ${clock(lane.at[places[0]])} on`;
    const [line, last] = [lane.line[places[0]], lane.line[places[places.length - 1]]];
    const style = ` many ${this.kindOf(lane, places)}`;
    out.push(this.opened({ key, kind: "crowd", line, last, bad: bad > 0, style, said: `${said}; Enter comes nearer` }));
    out.push(tag("rect", { x: left, y: y - 7, width, height: 14 }));
    out.push(tag("rect", { class: "hit", x: left, y: y - 8, width, height: 16, rx: 4 }));
    out.push(tag("text", { "text-anchor": "middle", x: left + width / 2, y: y + 3.2 }, count), "</g>");
  }

  // The style of a crowd: that of its marks, where they are of one family.
  kindOf(lane, places) {
    const families = new Set(places.map((place) => this.words[lane.marks.shape[place]].split(" ")[1]));
    if (lane.name === "files") return "m-file";
    return families.size === 1 && lane.name === "frames" ? `m-${[...families][0]}` : "m-call";
  }

  // Time

  zoom(factor, x = LEFT + this.room / 2) {
    const share = (x - LEFT) / this.room;
    const size = this.to - this.from, least = 20, most = this.scale.width * (1 + 0.015 * (TAIL + 1));
    const next = Math.min(Math.max(size * factor, Math.min(least, most)), most);
    const centre = this.from + share * size;
    this.show(centre - share * next, centre + (1 - share) * next);
  }

  show(from, to) {
    const room = this.scale.width * 0.015, size = to - from, last = this.scale.width + room * TAIL;
    if (to > last) [from, to] = [last - size, last];
    if (from < -room) [from, to] = [-room, size - room];
    Object.assign(this, { from, to });
    later(this);
  }

  move(share) {
    const step = share * (this.to - this.from);
    this.show(this.from + step, this.to + step);
  }

  // Brings a moment to where it is seen.
  centre(at) {
    const place = this.scale.toPlace(at), size = this.to - this.from;
    if (place < this.from + size * 0.05 || place > this.to - size * 0.05) this.show(place - size / 2, place + size / 2);
  }

  // The lane and the place of the mark of a line, where it has one.
  find(number) {
    for (const lane of this.lanes) {
      const place = above(lane.line, number) - 1;
      if (place >= 0 && lane.line[place] === number) return [lane, place];
    }
    return [];
  }

  // Scrolls to the lane of a line's mark, or to the life.
  bring(number) {
    const [lane] = this.find(number);
    if (!lane) return this.element.scrollIntoView({ block: "nearest" });
    const own = this.svg.getBoundingClientRect().top + lane.y, view = main.getBoundingClientRect();
    if (own < view.top + 40 || own + lane.height > view.bottom) main.scrollTop += own - view.top - view.height / 3;
  }

  // What stands behind a mark's key.
  about(element) {
    const { mark, span, crowd, many: count } = element.dataset;
    const [row, place] = (mark || span || crowd || "").split(".");
    const lane = this.lanes[row];
    if (mark) return this.aboutMark(lane, +place);
    if (span) return this.aboutSpan(lane, lane.kind === "bands" ? lane.bands[place] : lane.bars[place]);
    if (crowd) return this.aboutCrowd(lane, place);
    if (count) return `<b>${many(+count, "change")}</b><span class="when">closer together than can be drawn here</span>`;
    return `<b>stop</b><span class="when">line ${element.dataset.line}</span>`;
  }

  when(at) {
    const moment = this.data.begin ? ` · ${dated(this.data.begin + at)}` : "";
    return `<span class="when">at ${clock(at)}${moment}</span>`;
  }

  aboutMark(lane, place) {
    const shape = this.words[lane.marks.shape[place]], line = lane.line[place];
    const way = shape.startsWith("out") ? "sent" : shape.startsWith("in") ? "came in" : "";
    const bad = lane.failed.has(place) ? ` <span class="bad">failed</span>` : "";
    const head = `<b>${escaped(this.words[lane.marks.label[place]])} ${way}${bad}</b>`;
    return `${head}${this.when(lane.at[place])} <span class="when">· line ${line}</span>${fieldsOf(line, 18)}`;
  }

  aboutSpan(lane, span) {
    const [label, from, to, line] = span;
    const last = to < 0 ? "to the end of the life" : `for ${lasting(to - from)}`;
    const bad = lane.kind === "bars" && span[6] ? ` <span class="bad">failed</span>` : "";
    const told = lane.kind === "bars" ? this.words[span[5]] : this.words[label] === "not known" ? "no line tells in which state it is" : "";
    const note = told ? `<div>${escaped(told).replace(/\n/g, "<br>")}</div>` : "";
    const head = `<b>${escaped(lane.title)}: ${escaped(this.words[label])}${bad}</b>`;
    const when = `${this.when(from)} <span class="when">${last} · line ${line}</span>`;
    return head + when + note + (lane.name === "hooks" ? fieldsOf(line, 18) : "");
  }

  aboutCrowd(lane, range) {
    const [from, to] = range.split("-").map(Number);
    const counts = new Map();
    for (let place = from; place <= to; place++) {
      const name = this.words[lane.marks.label[place]];
      counts.set(name, (counts.get(name) || 0) + 1);
    }
    const most = [...counts].sort((one, other) => other[1] - one[1]).slice(0, 8);
    const head = `<b>${many(to - from + 1, "mark")} in ${lasting(lane.at[to] - lane.at[from])}</b>`;
    return head + this.when(lane.at[from]) + listed(most.map(([name, count]) => [String(count), name]));
  }

  // Leads to the line of a mark, and comes nearer to a crowd that can be told apart.
  enter(element) {
    const { crowd, line } = element.dataset;
    if (!crowd || !this.part(crowd)) lines?.pick(crowd ? this.lineOf(crowd) : +line, false);
  }

  part(crowd) {
    const [row, range] = crowd.split(".");
    const [from, to] = range.split("-").map((place) => this.scale.toPlace(this.lanes[row].at[place]));
    if (to > from) {
      const room = Math.max((to - from) * 0.3, 2);
      hideTip();
      this.show(from - room, to + room);
      return true;
    }
    return false;
  }

  // The line of the first mark of a crowd that failed, or of its first one.
  lineOf(crowd) {
    const [row, range] = crowd.split(".");
    const { line, failed } = this.lanes[row], [from, to] = range.split("-").map(Number);
    for (let place = from; place <= to; place++) if (failed.has(place)) return line[place];
    return line[from];
  }

  listen() {
    const { svg } = this;
    let drag = null;
    svg.addEventListener("pointerdown", (event) => {
      if (event.button) return;
      drag = { x: event.clientX, from: this.from, to: this.to, moved: false, target: event.target.closest(".mark") };
    });
    svg.addEventListener("pointermove", (event) => {
      if (drag && (drag.moved || Math.abs(event.clientX - drag.x) > 4)) {
        if (!drag.moved) svg.setPointerCapture(event.pointerId);
        drag.moved = true;
        svg.classList.add("drags");
        const step = ((drag.x - event.clientX) * (drag.to - drag.from)) / this.room;
        return this.show(drag.from + step, drag.to + step);
      }
      this.point(event);
    });
    const release = () => {
      svg.classList.remove("drags");
      if (drag && !drag.moved && drag.target) this.enter(drag.target);
      drag = null;
    };
    svg.addEventListener("pointerup", release);
    svg.addEventListener("pointercancel", () => { drag = null; });
    svg.addEventListener("pointerleave", () => { hideTip(); this.cursor(-9); });
    svg.addEventListener("dblclick", (event) => this.zoom(0.4, event.offsetX));
    svg.addEventListener("wheel", (event) => {
      if (event.ctrlKey || event.metaKey) this.zoom(Math.exp(event.deltaY / 240), event.offsetX);
      else if (event.shiftKey || Math.abs(event.deltaX) > Math.abs(event.deltaY)) this.move((event.deltaX || event.deltaY) / this.room);
      else return;
      event.preventDefault();
    }, { passive: false });
    svg.addEventListener("focusin", (event) => {
      current = this;
      const mark = event.target.closest(".mark");
      if (mark && mark.matches(":focus-visible")) showTip(this.about(mark), mark.getBoundingClientRect());
    });
    svg.addEventListener("focusout", hideTip);
  }

  point(event) {
    const mark = event.target.closest(".mark, .mixed");
    this.cursor(event.offsetX);
    if (mark) showTip(this.about(mark), { left: event.clientX, right: event.clientX, top: event.clientY - 6, bottom: event.clientY + 12 });
    else hideTip();
  }

  cursor(x) {
    const line = this.svg.querySelector(".cursor");
    if (!line) return;
    line.setAttribute("x1", x < LEFT ? -9 : x);
    line.setAttribute("x2", x < LEFT ? -9 : x);
  }
}

function nice(size) {
  const parts = [1, 2, 5, 10, 20, 50, 100, 200, 500];
  const seconds = [1, 2, 5, 10, 15, 30, 60, 120, 300, 600, 900, 1800, 3600, 7200, 14400, 21600, 43200, 86400];
  const steps = [...parts, ...seconds.map((second) => second * 1000)];
  return steps.find((step) => step >= size) || Math.ceil(size / 86400e3) * 86400e3;
}

// The form of a mark: frames are triangles on their way, calls of the host and of files have forms of their own.
function glyph(shape, lane, x, y) {
  const [way, family] = shape.split(" ");
  if (way === "in") return `<path class="m-${family}" d="M${x - 5} ${y - 5}h10l-5 9z"/>`;
  if (way === "out") return `<path class="m-${family}" d="M${x - 5} ${y + 4}h10l-5 -9z"/>`;
  if (way === "asked") return `<path class="m-other" d="M${x} ${y - 6}l6 6l-6 6l-6 -6z"/>`;
  const kind = lane === "files" ? "m-file" : "m-call";
  if (way === "add") return `<path class="${kind}" d="M${x - 5} ${y}h10M${x} ${y - 5}v10" style="stroke-width:2.6"/>`;
  if (way === "del" || way === "remove") return `<path class="${kind}" d="M${x - 5} ${y}h10" style="stroke-width:2.8"/>`;
  if (way === "write") return `<path class="${kind}" d="M${x - 4} ${y - 5}h5l3 3v7h-8z"/>`;
  if (way === "drop") return `<path class="${kind}" d="M${x - 5} ${y}h10"/>`;
  return `<circle class="${kind} m-hollow" cx="${x}" cy="${y}" r="4"/>`;
}

// What stands around a mark that failed.
const ring = (x, y) => `<circle class="ring" cx="${x}" cy="${y}" r="8"/>`;
