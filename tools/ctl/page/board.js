"use strict";
// Asks /state.json each second and draws what it says. Nothing here can have anything done.

const MOST_SAMPLES = 300, FEW_SAMPLES = 60, EVERY = 1000, LATE = 5, MOST_LINES = 8, MOST_ROWS = 40;
const SVG = "http://www.w3.org/2000/svg";
const WELL = { ready: "good", behind: "warn", "begun twice": "bad", away: "bad", alarm: "warn", note: "warn" };
let samples = [], count = 0, now = null, heard = 0;

// An element with a class and what is in it: elements, or texts.
function element(name, style, ...inside) {
  const made = document.createElement(name);
  if (style) made.className = style;
  made.append(...inside.filter((one) => one !== null && one !== undefined));
  return made;
}

function shape(name, members) {
  const made = document.createElementNS(SVG, name);
  for (const [member, value] of Object.entries(members)) made.setAttribute(member, value);
  return made;
}

const byId = (name) => document.getElementById(name);
const digits = (number) => number === undefined || number === null ? "–" : Math.round(number).toLocaleString("en");
const short = (number) => number >= 100 || number === 0 ? digits(number) : number.toFixed(1);
const nameOf = (node) => node.me === null ? node.where : `node ${node.me}`;
const micros = (time) =>
  time < 1000 ? `${time} µs` : time < 1e6 ? `${short(time / 1000)} ms` : `${short(time / 1e6)} s`;

// Before anything is published no frames go, and nobody is heard.
const isBegun = (node) => node.reaches.some((reach) => reach > 0);

function percent(part) {
  const number = 100 * part;
  return number === 0 || number >= 10 ? `${Math.round(number)} %` : number < 0.1 ? "<0.1 %" : `${number.toFixed(1)} %`;
}

// Of each node what a column of the samples is, sample by sample.
function levels(column) {
  return now.nodes.map((_, at) => samples.map((sample) => sample.nodes[at][column]));
}

// Of each node how much a column grows in a second; nothing where the node was away or began anew.
function speeds(column) {
  return levels(column).map((row) => row.map((value, at) => {
    const before = row[at - 1];
    if (at === 0 || value === null || before === null || before === undefined || value < before) return null;
    return (value - before) / Math.max(0.001, samples[at].time - samples[at - 1].time);
  }));
}

// How many samples a chart is wide.
const shown = () => Math.max(FEW_SAMPLES, samples.length);

// The points of a line, broken where there is nothing.
function path(row, width, height, most) {
  let text = "", isDrawn = false;
  row.forEach((value, at) => {
    if (value === null || value === undefined) { isDrawn = false; return; }
    const x = width * (at + shown() - row.length) / (shown() - 1), y = height * (1 - value / most);
    text += `${isDrawn ? "L" : "M"}${x.toFixed(1)} ${y.toFixed(1)}`;
    isDrawn = true;
  });
  return text;
}

// A number that an axis may end at.
function rounded(most) {
  if (most <= 1) return 1;
  const tens = 10 ** Math.floor(Math.log10(most));
  return [1, 2, 5, 10].map((times) => times * tens).find((end) => end >= most);
}

function largest(rows) {
  return rows.reduce((most, row) => row.reduce((top, value) => Math.max(top, value ?? 0), most), 0);
}

const ago = (seconds) => seconds < 90 ? `${Math.round(seconds)} s ago` : `${Math.round(seconds / 60)} min ago`;

function chart(title, rows, told) {
  const end = rounded(largest(rows)), few = rows.length > MOST_LINES ? `, of ${MOST_LINES} nodes` : "";
  const drawn = shape("svg", { viewBox: "0 0 300 100", preserveAspectRatio: "none", role: "img", "aria-label": title });
  for (const y of [0, 50, 100]) drawn.append(shape("line", { class: "grid", x1: 0, x2: 300, y1: y, y2: y }));
  rows.slice(0, MOST_LINES).forEach((row, at) =>
    drawn.append(shape("path", { class: `line line-${at % 8}`, d: path(row, 300, 100, end) })));
  const last = rows.map((row) => row[row.length - 1]).filter((value) => value !== null && value !== undefined);
  const text = last.length ? told(Math.max(...last)) : "";
  const span = samples.length > 1 ? samples[samples.length - 1].time - samples[0].time : 0;
  const each = samples.length > 1 ? span / (samples.length - 1) : 1;
  return element("figure", "chart", element("figcaption", "", title + few, element("span", "", text)),
    element("div", "axis", element("span", "", told(end))), drawn,
    element("div", "axis", element("span", "", ago(each * shown())), element("span", "", "now")));
}

function tile(value, label) {
  return element("div", "tile", element("b", "", value), element("span", "", label));
}

function tiles() {
  const up = now.nodes.filter((node) => node.state !== "away");
  const used = Math.max(0, ...up.map((node) => node.used));
  const [before, last] = samples.slice(-2);
  const speed = last ? Math.max(0, last.most - before.most) / Math.max(0.001, last.time - before.time) : 0;
  const again = up.map((node) => node.again).filter((number) => number !== undefined);
  const all = [
    tile(`${now.nodes.filter((node) => node.state === "ready").length} of ${now.nodes.length}`, "nodes are ready"),
    tile(digits(now.most.reduce((sum, reach) => sum + reach, 0)), "commands delivered"),
    tile(short(speed), "commands a second"),
    tile(percent(used), "of a life span used, at most"),
  ];
  if (again.length) all.push(tile(digits(again.reduce((sum, number) => sum + number, 0)), "messages sent again"));
  byId("tiles").replaceChildren(...all);
}

function head(...names) {
  return element("tr", "", ...names.map((name) => element("th", name.style ?? "", name.text ?? name)));
}

function spark(row, at) {
  const drawn = shape("svg", { class: "spark", viewBox: "0 0 70 20", preserveAspectRatio: "none" });
  drawn.append(shape("path", { class: `line line-${at % 8}`, d: path(row, 70, 20, Math.max(1, largest([row]))) }));
  return drawn;
}

function life(node) {
  const bar = element("meter", "");
  Object.assign(bar, { min: 0, max: 1, low: 0.8, high: 0.9, optimum: 0, value: node.used });
  return element("td", "left", bar, percent(node.used));
}

// What is left of a share, and for how long.
const lasts = (share) => element("td", share && share.soon ? "left warn" : "left", share ? share.text : "–");

function nodeRow(node, at, rates) {
  const key = shape("svg", { class: `key key-${at % 8}`, width: 10, height: 10, viewBox: "0 0 10 10" });
  key.append(shape("circle", { cx: 5, cy: 5, r: 4 }));
  const row = element("tr", "", element("td", "", key, ` ${nameOf(node)}`), element("td", "soft", node.short),
    element("td", "left", element("span", `pill ${WELL[node.state]}`, node.state)));
  if (node.state === "away" && node.at === undefined) {
    for (let left = 0; left < 12; left++) row.append(element("td", "soft", "–"));
    return row;
  }
  const isDeaf = node.hears < node.others && isBegun(node);
  const syncs = node.sound ? `${micros(node.mean)}, ${micros(node.worst)}` : "failed";
  const journal = node.sound === undefined ? "in memory" : syncs;
  const speed = rates[at][rates[at].length - 1];
  row.append(element("td", "left", spark(rates[at], at), ` ${speed === null ? "–" : short(speed)}`),
    element("td", node.behind > 32 ? "warn" : "", digits(node.behind)),
    element("td", "", digits(node.at)), life(node), lasts(node.acts), element("td", "", digits(node.sessions)),
    element("td", isDeaf ? "warn" : "", node.peers ? `${node.hears} of ${node.others}` : "–"),
    element("td", "", digits(node.waiting)), element("td", "", digits(node.again)),
    element("td", "", digits(node.lost)),
    element("td", node.unopened ? "warn" : "", digits(node.unopened)),
    element("td", node.sound === false ? "bad" : "soft", node.peers ? journal : "–"));
  return row;
}

function nodeTable(rates) {
  const left = (text) => ({ text, style: "left" });
  byId("nodes").replaceChildren(head("", "at", left("state"), left("commands a second"), "behind", "history",
    left("life span used"), left("acts left"), "sessions", "hears", "waiting", "sent again", "lost", "unopened",
    "sync: mean, worst"),
  ...now.nodes.map((node, at) => nodeRow(node, at, rates)));
}

function ownerTable() {
  const up = now.nodes.filter((node) => node.reaches).slice(0, 16);
  const owners = now.most.map((most, owner) => ({ most, owner })).filter(({ most }) => most > 0).slice(0, MOST_ROWS);
  const rows = owners.map(({ most, owner }) => element("tr", "", element("td", "", `owner ${owner}`),
    lasts(now.owners[owner]),
    ...up.map((node) => element("td", node.reaches[owner] < most ? "warn" : "", digits(node.reaches[owner])))));
  if (!rows.length) rows.push(element("tr", "", element("td", "soft", "nothing is published yet")));
  byId("owners").replaceChildren(head("", { text: "places left", style: "left" }, ...up.map(nameOf)), ...rows);
}

function link(peer, node, to) {
  if (!peer) return element("td", "soft", "·");
  const [connected, isHeard, waiting, again, lost, unopened] = peer;
  const style = isHeard && connected ? "" : isHeard ? "warn" : isBegun(node) ? "bad" : "soft";
  const cell = element("td", style, `${isHeard ? "heard" : "silent"}${again ? `, ${digits(again)}` : ""}`);
  cell.title = `node ${node.me} and node ${to}: its own connection ${connected ? "stands" : "doesn't stand"}, ` +
    `${waiting} frames wait, ${again} messages sent again, ${lost} frames lost, ${unopened} unopened`;
  return cell;
}

function linkTable() {
  const tell = now.nodes.filter((node) => node.peers && node.me !== null).slice(0, 16);
  const width = Math.min(16, Math.max(0, ...tell.map((node) => node.peers.length)));
  const rows = tell.map((node) => element("tr", "", element("td", "", nameOf(node)),
    ...node.peers.slice(0, width).map((peer, to) => link(peer, node, to))));
  if (!rows.length) rows.push(element("tr", "", element("td", "soft", "these nodes don't say")));
  byId("links").replaceChildren(head("", ...Array.from({ length: width }, (_, to) => `node ${to}`)), ...rows);
}

function whole() {
  const ready = now.nodes.filter((node) => node.state === "ready").length;
  const isBad = now.nodes.some((node) => WELL[node.state] === "bad");
  const text = ready < now.nodes.length ? `${ready} of ${now.nodes.length} nodes are ready` :
    now.findings.length ? "ready, with something to see to" : "all is well";
  byId("whole").textContent = text;
  byId("whole").className = `pill ${isBad ? "bad" : now.findings.length ? "warn" : "good"}`;
  byId("findings").replaceChildren(...now.findings.slice(0, MOST_ROWS).map((finding) =>
    element("li", WELL[finding.kind], finding.text)));
}

function draw() {
  const rates = speeds(0), aSecond = (number) => `${short(number)}/s`;
  const charts = [chart("Commands delivered", rates, aSecond), chart("Commands behind", levels(1), digits),
    chart("Messages sent again", speeds(2), aSecond)];
  if (now.nodes.some((node) => node.sound !== undefined)) {
    charts.push(chart("Mean sync of the journal", levels(3), micros));
  }
  whole();
  tiles();
  byId("charts").replaceChildren(...charts);
  nodeTable(rates);
  ownerTable();
  linkTable();
}

async function look() {
  try {
    const signal = AbortSignal.timeout(EVERY * LATE);
    const answer = await fetch(`/state.json?since=${count}`, { cache: "no-store", signal });
    const state = await answer.json();
    if (state.count < count || state.samples.length === state.count) samples = [];
    samples = [...samples, ...state.samples].slice(-MOST_SAMPLES);
    ({ count, now } = state);
    heard = Date.now();
    draw();
    byId("clock").textContent = new Date(samples[samples.length - 1].time * 1000).toLocaleTimeString("en-GB");
  } catch (_) {
    if (Date.now() - heard > EVERY * LATE) {
      byId("whole").textContent = "no news: the board's process has ended or is slow";
      byId("whole").className = "pill bad";
    }
  }
  setTimeout(look, EVERY);
}

look();
