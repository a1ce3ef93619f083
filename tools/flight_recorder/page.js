"use strict";

// The charts of a flight. Times are in ticks, of which a second has `flight.second`; a chart draws what can be seen of its
// curve: of each column of pixels the first, the least, the greatest and the last point.

const flight = JSON.parse(document.getElementById("flight").textContent);
const SHOWN_AT_FIRST = 12;
const LABEL_WIDTH = 62;
const MOST_LISTED = 500;
const CURVE_COLOURS = ["#1f4e79", "#c0504d", "#4f8a3c", "#7a5195", "#d98c21", "#2a9d8f"];
const RED = "217,83,79";
const GREY = "108,117,125";
const VIOLET = "142,68,173";
const STATE_COLOURS = ["#c9d6e4", "#1f4e79", "#e0b184", "#9cc5a1", "#b39cc5", "#c58f8f", "#8fb8c5", "#c5bf8f"];
const NO_WORD = "#eeeeee"; // of a value without a word
const DAY = 86400;
const SAMPLED_THROUGH = ["doubtful", "clock", "event"]; // what is on the axis and takes no samples away
const COLOURS = { clock: "42,157,143", event: "217,140,33", doubtful: VIOLET, gap: RED, break: RED, hole: RED, session: GREY, run: GREY, back: GREY, wrap: GREY };
const EXCEED_COLOUR = "#b8860b";
const APART = { "(part)": "#e67e22", "(doubtful)": `rgb(${VIOLET})` }; // by what a curve's name ends with
const FRAME = 4; // seconds

async function numbers(text, Kind) {
  const signs = atob(text);
  const bytes = new Uint8Array(signs.length);
  for (let at = 0; at < bytes.length; at++) bytes[at] = signs.charCodeAt(at);
  const whole = new Blob([bytes]).stream().pipeThrough(new DecompressionStream("deflate"));
  return new Kind(await new Response(whole).arrayBuffer());
}

// Numbers of which each is so much more than the one before.
function summed(steps) {
  for (let at = 1; at < steps.length; at++) steps[at] += steps[at - 1];
  return steps;
}

class Curve {
  constructor(data, number) {
    Object.assign(this, data);
    this.number = number;
    this.time = null;
    this.apart = APART[this.name.split(" ")[1]];
    this.words = new Map(this.states);
    this.label = this.unit ? `${this.name} [${this.unit}]` : this.name;
  }

  // Reads the points.
  async load() {
    const parts = document.getElementById(`curve-${this.number}`).textContent.split(" ");
    const [time, value, cuts] = await Promise.all([
      numbers(parts[0], Int32Array), numbers(parts[1], this.isWhole ? Int32Array : Float64Array), numbers(parts[2], Int32Array),
    ]);
    const unit = 10 ** this.decimals;
    this.value = this.isWhole ? Float64Array.from(summed(value), (one) => one / unit) : value;
    this.begins = new Uint8Array(time.length);
    for (const cut of cuts) this.begins[cut] = 1;
    this.time = summed(time);
  }

  // The first point that isn't before a time.
  firstFrom(time) {
    let low = 0;
    let high = this.time.length;
    while (low < high) {
      const middle = (low + high) >> 1;
      if (this.time[middle] < time) low = middle + 1;
      else high = middle;
    }
    return low;
  }

  // The points to draw between two times, in so many columns, as rows for dygraphs, with a break after each stretch.
  rows(begin, end, columns) {
    const first = Math.max(0, this.firstFrom(begin) - 1);
    const last = Math.min(this.time.length, this.firstFrom(end) + 1);
    const chosen = last - first <= 4 * columns ? null : this.extremes(first, last, (end - begin) / columns);
    const rows = [];
    const count = chosen ? chosen.length : last - first;
    let before = first;
    for (let at = 0; at < count; at++) {
      const point = chosen ? chosen[at] : first + at;
      if (at > 0 && this.breaks(before, point)) rows.push([this.time[before] / flight.second, null]);
      rows.push([this.time[point] / flight.second, this.value[point]]);
      before = point;
    }
    return rows;
  }

  // Whether a stretch begins after one point, up to another.
  breaks(before, point) {
    for (let at = before + 1; at <= point; at++) if (this.begins[at]) return true;
    return false;
  }

  // Of each stretch of `width` ticks the first, the least, the greatest and the last point.
  extremes(first, last, width) {
    const chosen = [];
    let at = first;
    while (at < last) {
      const column = Math.floor(this.time[at] / width);
      let least = at;
      let greatest = at;
      let end = at;
      while (end < last && Math.floor(this.time[end] / width) === column) {
        if (this.value[end] < this.value[least]) least = end;
        if (this.value[end] > this.value[greatest]) greatest = end;
        end++;
      }
      const four = new Set([at, Math.min(least, greatest), Math.max(least, greatest), end - 1]);
      chosen.push(...four);
      at = end;
    }
    return chosen;
  }

  // The value that was sampled last at a time, as text, with its word or its unit; nothing between stretches.
  at(time) {
    const after = this.firstFrom(time + 1);
    const isThere = this.apart ? after > 0 && time - this.time[after - 1] < FRAME * flight.second : after > 0 && !isBetween(time);
    if (!isThere) return "\u2013";
    const value = this.value[after - 1];
    const more = this.words.get(value) || this.unit;
    return value.toFixed(this.decimals) + (more ? ` ${more}` : "");
  }
}

// The curves of a chart: one, or several on one axis.
class Group {
  constructor(curves) {
    this.curves = curves;
    this.name = curves.map((curve) => curve.name).join(", ");
    this.hasStates = curves.length === 1 && curves[0].states.length > 0;
    this.isBand = this.hasStates || (curves.length === 1 && curves[0].steps);
    this.label = curves.map((curve) => curve.label).join(", ");
    this.title = [...new Set(curves.map((curve) => curve.title).filter((title) => title))].join("; ");
  }

  isLoaded() {
    return this.curves.every((curve) => curve.time);
  }

  load() {
    return Promise.all(this.curves.filter((curve) => !curve.time).map((curve) => curve.load()));
  }

  // The rows for dygraphs: of several curves each has its own column, which is null where it has no point, and a break is NaN.
  rows(begin, end, columns) {
    if (this.curves.length === 1) return this.curves[0].rows(begin, end, columns);
    const rows = new Map();
    this.curves.forEach((curve, column) => {
      for (const [sampled, value] of curve.rows(begin, end, columns)) {
        const time = value === null ? sampled + 0.25 / flight.second : sampled; // a break has a row of its own
        if (!rows.has(time)) rows.set(time, [time, ...this.curves.map(() => null)]);
        rows.get(time)[column + 1] = value === null ? NaN : value;
      }
    });
    return [...rows.values()].sort((one, other) => one[0] - other[0]);
  }

  // The values that were sampled last at a time, as text.
  at(time) {
    return this.curves.map((curve) => `${curve.name}  ${curve.at(time)}`).join("  ");
  }
}

function isBetween(time) {
  return flight.spans.some((span) => !SAMPLED_THROUGH.includes(span.event) && span.begin < time && time < span.end);
}

// A place of the axis: which recording's it is, and the recording's own time there.
function clock(seconds) {
  const place = seconds * flight.second + 1e-6;
  let low = 0;
  let high = flight.recordings.length;
  while (high - low > 1) {
    const middle = (low + high) >> 1;
    if (flight.recordings[middle][0] <= place) low = middle;
    else high = middle;
  }
  const [put, first] = flight.recordings[low];
  const own = seconds - (put - first) / flight.second;
  return { number: low + 1, text: text(own), utc: utc(low, own) };
}

// The time of day at a recording's own time, as far as it is known.
function utc(recording, own) {
  const fit = flight.utc && flight.utc.fits[recording];
  if (!fit) return "";
  const thousandths = Math.floor((fit[0] + own * fit[1]) * 1000 + 1e-3);
  const since = flight.utc.dates ? thousandths : ((thousandths % (DAY * 1000)) + DAY * 1000) % (DAY * 1000);
  return new Date(since).toISOString().slice(flight.utc.dates ? 0 : 11);
}

// Seconds as hours, minutes and seconds.
function text(seconds) {
  const thousandths = Math.round(seconds * 1000);
  const whole = Math.floor(thousandths / 1000);
  const two = (part) => String(part).padStart(2, "0");
  const rest = thousandths % 1000 ? "." + String(thousandths % 1000).padStart(3, "0").replace(/0+$/, "") : "";
  return `${Math.floor(whole / 3600)}:${two(Math.floor(whole / 60) % 60)}:${two(whole % 60)}${rest}`;
}

const STEPS = [0.001, 0.002, 0.005, 0.01, 0.02, 0.05, 0.1, 0.2, 0.5, 1, 2, 5, 10, 15, 30, 60, 120, 300, 600, 900, 1800, 3600, 7200, 14400, 28800, 86400];

// Ticks at whole steps of each recording's own time; where a recording's first one is too close to those before, they are
// left out.
function ticker(begin, end, pixels) {
  const wanted = ((end - begin) / pixels) * 110;
  const step = STEPS.find((one) => one >= wanted) || 86400 * Math.ceil(wanted / 86400);
  const ticks = [];
  flight.recordings.forEach(([put, first], at) => {
    const shift = (put - first) / flight.second;
    const next = (at + 1 < flight.recordings.length ? flight.recordings[at + 1][0] : flight.end) / flight.second;
    const from = Math.max(begin, put / flight.second);
    const to = Math.min(end, next);
    if (from > to) return;
    while (ticks.length && ticks[ticks.length - 1].v > from - wanted / 2) ticks.pop();
    for (let one = Math.ceil((from - shift) / step - 1e-9); one * step + shift <= to; one++) {
      ticks.push({ v: one * step + shift, own: one * step, at });
    }
  });
  return ticks.map(({ v, own, at }) => {
    const day = utc(at, own).slice(-13, step < 1 ? undefined : -5);
    return { v, label: text(own) + (day ? `<br>${day}` : "") };
  });
}

class Page {
  constructor() {
    this.whole = [0, Math.max(flight.end, flight.second) / flight.second];
    this.window = this.whole;
    this.curves = flight.curves.map((data, number) => new Curve(data, number));
    const named = new Map(this.curves.map((curve) => [curve.name, curve]));
    this.groups = flight.groups.map((names) => new Group(names.map((name) => named.get(name))));
    this.charts = new Map();
    this.list();
    this.listEvents();
    window.addEventListener("resize", () => this.setWindow(this.window));
  }

  // Shows the first charts.
  async open() {
    for (const group of this.groups.slice(0, SHOWN_AT_FIRST)) await this.show(group);
    return this;
  }

  // The list of parameters, each with a box that puts its chart on and off.
  list() {
    const nav = document.getElementById("parameters");
    const filter = Object.assign(document.createElement("input"), { type: "search", placeholder: "parameters" });
    nav.append(filter);
    this.boxes = new Map();
    this.groups.forEach((group, at) => {
      const label = document.createElement("label");
      const box = Object.assign(document.createElement("input"), { type: "checkbox", checked: at < SHOWN_AT_FIRST });
      box.addEventListener("change", () => (box.checked ? this.show(group) : this.hide(group)));
      label.title = (group.title ? `${group.title}: ` : "") + group.curves.map(({ count, kept }) =>
        `${count} samples` + (kept < count ? `, thinned to ${kept} with their extremes` : "")).join("; ");
      label.append(box, " ", group.label);
      nav.append(label);
      this.boxes.set(group.name, box);
    });
    filter.addEventListener("input", () => {
      for (const label of nav.querySelectorAll("label")) {
        label.hidden = !label.textContent.toLowerCase().includes(filter.value.toLowerCase());
      }
    });
  }

  // The list of what is numbered in the charts; a click shows what is around it.
  listEvents() {
    const list = document.getElementById("events");
    const texts = new Map();
    for (const one of flight.events) if (!texts.has(one.number)) texts.set(one.number, one);
    for (const one of [...texts.values()].slice(0, MOST_LISTED)) {
      const line = document.createElement("li");
      line.value = one.number;
      line.textContent = `${one.clock}  ${one.text}`;
      line.addEventListener("click", () => this.around(one.place / flight.second));
      list.append(line);
    }
    if (texts.size > MOST_LISTED) list.append(`and ${texts.size - MOST_LISTED} more`);
  }

  // Shows a minute about a time.
  around(time) {
    this.setWindow([time - 30, time + 30]);
  }

  columns() {
    return Math.max(200, document.getElementById("charts").clientWidth - LABEL_WIDTH);
  }

  rowsOf(group) {
    const rows = group.rows(this.window[0] * flight.second, this.window[1] * flight.second, this.columns());
    return rows.length ? rows : [[this.window[0], ...group.curves.map(() => null)]];
  }

  show(group) {
    if (!group.isLoaded()) return group.load().then(() => this.boxes.get(group.name).checked && this.show(group));
    if (this.charts.has(group.name)) return null;
    const section = document.getElementById("charts");
    const chart = Object.assign(document.createElement("div"), { className: group.isBand ? "chart band" : "chart" });
    const [plot, name, pointer] = ["plot", "name", "pointer"].map((kind) =>
      chart.appendChild(Object.assign(document.createElement("div"), { className: kind })));
    name.textContent = group.label;
    if (group.title) chart.appendChild(Object.assign(document.createElement("div"), { className: "title", textContent: group.title }));
    const later = this.groups.slice(this.groups.indexOf(group) + 1).find((other) => this.charts.has(other.name));
    section.insertBefore(chart, later ? this.charts.get(later.name).chart : null);
    const graph = new Dygraph(plot, this.rowsOf(group), this.options(group));
    this.charts.set(group.name, { chart, graph, name, pointer, group });
    return null;
  }

  hide(group) {
    if (!this.charts.has(group.name)) return;
    const { chart, graph } = this.charts.get(group.name);
    graph.destroy();
    chart.remove();
    this.charts.delete(group.name);
  }

  options(group) {
    const band = group.hasStates ? { strokeWidth: 0, valueRange: [0, 1] } : { strokeWidth: 1, fillGraph: true, fillAlpha: 0.85, valueRange: [0, 1] };
    const x = { ticker, axisLabelFormatter: String, axisLabelFontSize: 11, drawAxis: !group.isBand };
    const y = { axisLabelWidth: LABEL_WIDTH - 8, axisLabelFontSize: 11, pixelsPerLabel: 24 };
    return {
      labels: ["time", ...group.curves.map((curve) => curve.name)],
      colors: group.curves.map((curve, at) => curve.apart || CURVE_COLOURS[at % CURVE_COLOURS.length]),
      connectSeparatedPoints: group.curves.length > 1,
      ...(group.isBand ? band : { strokeWidth: 1, yRangePad: 6 }),
      ...(flight.utc && !group.isBand ? { xAxisHeight: 34 } : {}),
      legend: "never",
      dateWindow: this.window,
      stepPlot: group.isBand,
      highlightCircleSize: group.hasStates ? 0 : 3,
      gridLineColor: "#dde",
      axes: {
        x,
        y: group.isBand ? { ...y, ticker: () => [] } : y,
      },
      interactionModel: { ...Dygraph.defaultInteractionModel, dblclick: () => this.setWindow(this.whole) },
      drawCallback: (graph) => this.follow(graph),
      underlayCallback: (canvas, area, graph) => shade(canvas, area, graph, group),
      highlightCallback: (event, time) => this.point(time),
      unhighlightCallback: () => this.point(null),
    };
  }

  // Takes the range of a chart that was zoomed or moved.
  follow(graph) {
    const [begin, end] = graph.xAxisRange();
    const slack = (this.window[1] - this.window[0]) * 1e-6;
    if (Math.abs(begin - this.window[0]) > slack || Math.abs(end - this.window[1]) > slack) {
      requestAnimationFrame(() => this.setWindow([begin, end]));
    }
  }

  setWindow(range) {
    const least = 2 / flight.second;
    const begin = Math.min(Math.max(range[0], this.whole[0]), this.whole[1] - least);
    this.window = [begin, Math.max(begin + least, Math.min(range[1], this.whole[1]))];
    for (const { graph, group } of this.charts.values()) {
      graph.updateOptions({ file: this.rowsOf(group), dateWindow: this.window });
    }
  }

  // Shows all values at a time, or none.
  point(time) {
    const where = document.getElementById("where");
    for (const { graph, name, pointer, group } of this.charts.values()) {
      name.textContent = time === null ? group.label : group.at(Math.round(time * flight.second));
      pointer.style.display = time === null ? "none" : "block";
      if (time !== null) pointer.style.left = `${graph.toDomXCoord(time)}px`;
    }
    if (time === null) {
      where.textContent = "";
      return;
    }
    const { number, text, utc } = clock(time);
    const span = flight.spans.find((one) => one.begin <= time * flight.second && time * flight.second <= one.end);
    where.textContent = (flight.recordings.length > 1 ? `recording ${number}, ` : "") + text + (utc ? `, ${utc}` : "") + (span ? `: ${span.text}` : "");
  }

  // How many points the charts draw.
  drawn() {
    let count = 0;
    for (const { graph } of this.charts.values()) {
      for (let row = 0; row < graph.numRows(); row++) {
        for (let column = 1; column < graph.numColumns(); column++) {
          const value = graph.getValue(row, column);
          if (value !== null && !Number.isNaN(value)) count++;
        }
      }
    }
    return count;
  }
}

function shade(canvas, area, graph, group) {
  canvas.save();
  canvas.beginPath();
  canvas.rect(area.x, area.y, area.w, area.h);
  canvas.clip();
  canvas.font = "10px sans-serif";
  if (group.hasStates) fill(canvas, area, graph, group.curves[0]);
  for (const span of flight.spans) {
    const begin = graph.toDomXCoord(span.begin / flight.second);
    const end = graph.toDomXCoord(span.end / flight.second);
    if (end < area.x || begin > area.x + area.w) continue;
    canvas.fillStyle = `rgba(${COLOURS[span.event]},${span.known ? 0.22 : 0.38})`;
    canvas.fillRect(begin, area.y, Math.max(2, end - begin), area.h);
  }
  mark(canvas, area, graph, group);
  canvas.restore();
}

// Fills a band by the states of its curve, with their words where they have room.
function fill(canvas, area, graph, curve) {
  const [begin, end] = graph.xAxisRange().map((one) => one * flight.second);
  const rows = curve.rows(begin, end, area.w);
  const colours = new Map(curve.states.map(([value], at) => [value, STATE_COLOURS[at % STATE_COLOURS.length]]));
  for (let at = 0, next = 1; at < rows.length; at = next, next = at + 1) {
    const [time, value] = rows[at];
    if (value === null) continue;
    while (next < rows.length && rows[next][1] === value) next++;
    const until = next < rows.length && rows[next][1] !== null ? rows[next][0] : rows[next - 1][0];
    const left = Math.max(area.x, graph.toDomXCoord(time));
    const right = Math.min(area.x + area.w, graph.toDomXCoord(until));
    canvas.fillStyle = colours.get(value) || NO_WORD;
    canvas.fillRect(left, area.y, Math.max(1, right - left), area.h);
    const word = curve.words.get(value);
    if (word && canvas.measureText(word).width + 8 < right - left) {
      canvas.fillStyle = canvas.fillStyle === STATE_COLOURS[1] ? "#ffffff" : "#222222";
      canvas.fillText(word, (left + right - canvas.measureText(word).width) / 2, area.y + area.h / 2 + 3);
    }
  }
}

// Numbers what is in the list, and draws lines where exceedances began, which are behind the curve.
function mark(canvas, area, graph, group) {
  const ends = [-Infinity, -Infinity, -Infinity]; // of the numbers in each of three levels
  for (const one of flight.events) {
    const isExceedance = one.event === "exceed";
    if (one.parameters.length && !group.curves.some((curve) => one.parameters.includes(curve.name))) continue;
    const place = graph.toDomXCoord(one.place / flight.second);
    if (place < area.x || place > area.x + area.w) continue;
    const colour = isExceedance ? EXCEED_COLOUR : `rgb(${COLOURS[one.event]})`;
    canvas.strokeStyle = canvas.fillStyle = colour;
    if (isExceedance) {
      canvas.setLineDash(one.certain ? [] : [4, 3]);
      canvas.beginPath();
      canvas.moveTo(place, area.y);
      canvas.lineTo(place, area.y + area.h);
      canvas.stroke();
    }
    const level = ends.findIndex((end) => end < place);
    if (level >= 0) {
      const text = `${one.number}${one.certain ? "" : "?"}`;
      canvas.fillText(text, place + 3, area.y + area.h - 4 - 11 * level);
      ends[level] = place + canvas.measureText(text).width + 8;
    }
  }
}

new Page().open().then((page) => { window.page = page; });
