"use strict";
// What the page shows is `data`; rights stand in it seniors first, and months, nodes, links and lakes by their places.
const data = JSON.parse(document.getElementById("data").textContent);
const {months, nodes, links, rights, lakes} = data;
const RIVER = 1e15;                                 // what an account counts for a river
const HEAD = 16;                                    // the height of the line of years
const NAMES = ["January", "February", "March", "April", "May", "June", "July", "August", "September", "October",
  "November", "December"];
const chosen = {month: 0, right: 0, lake: 0};
const at = id => document.getElementById(id);
const said = amount => amount.toLocaleString("en");
const monthName = m => `${NAMES[+months[m].slice(5) - 1]} ${months[m].slice(0, 4)}`;
const yearOf = r => rights[r][3].slice(0, 4);
const isInstream = r => rights[r][1] === "instream";
const lack = (m, r) => data.want[m][r] - data.got[m][r];
const canals = links.map((link, l) => l).filter(l => links[l][3]);

// --- The account of a right in a month -------------------------------------------------------------------------------
// The nodes that stand after a right's call, as a list of truths by node, or null.
function setOf(m, r) {
  if (!(r in data.cut[m])) return null;
  const bytes = atob(data.sets[data.cut[m][r]]);
  return nodes.map((_, node) => (bytes.charCodeAt(node >> 3) >> (node & 7) & 1) === 1);
}

function carry(m, l) {
  return links[l][3] ? data.carry[m][canals.indexOf(l)] : RIVER;
}

// What is supplied at a node: the amount, and of what it is.
function supply(m, node) {
  const lake = lakes.indexOf(node), back = data.returned[m][node] || 0, inflow = data.inflow[m][node];
  const stored = lake < 0 ? 0 : data.stored[m][lake], lost = lake < 0 ? 0 : data.lost[m][lake];
  const parts = [[inflow, "inflow"], [back, "came back"], [stored, "stored"], [lost, "less evaporated"]];
  return [inflow + back + stored - lost, parts.filter(part => part[0]).map(part => `${part[1]} ${said(part[0])}`)];
}

// The greatest delivery of a right's seniors on a link, and the most senior of those that have it; or null.
function kept(m, l, r) {
  const seniors = data.order.links[l].filter(s => s < r);
  const most = Math.max(0, ...seniors.map(s => data.got[m][s]));
  return most ? [most, seniors.find(s => data.got[m][s] === most)] : null;
}

// The lines of the account that `basin why` writes of a set: its word, a name, an amount that is added, and a remark.
function account(m, r, set) {
  const lines = [], own = isInstream(r) ? rights[r][2] : -1;
  nodes.forEach((name, node) => {
    const [amount, parts] = set[node] ? supply(m, node) : [0];
    if (amount) lines.push(["supply", name, amount, parts.join(", ")]);
  });
  links.forEach(([name, tail, head], l) => {
    if (set[head] && !set[tail] && carry(m, l)) lines.push(["enter", name, carry(m, l), "the most that it can carry"]);
  });
  links.forEach(([name, tail, head], l) => {
    const keeps = set[tail] && !set[head] && l !== own ? kept(m, l, r) : null;
    if (keeps) lines.push(["keep", name, -keeps[0], `for ${rights[keeps[1]][0]} of ${yearOf(keeps[1])}`]);
  });
  rights.forEach(([name], s) => {
    if (s < r && !isInstream(s) && set[rights[s][2]] && data.got[m][s])
      lines.push(["take", name, -data.got[m][s], `senior: ${rights[s][1]} of ${yearOf(s)}`]);
  });
  return lines;
}

// The core of a short right, which are the nodes that `basin where` names, as a list of truths by node: from these its
// node is reached by steps with room, over links that can carry more, and back over links that carry more than is kept
// on them for its seniors.
function coreOf(m, r) {
  const own = isInstream(r) ? rights[r][2] : -1, tails = nodes.map(() => []);
  links.forEach(([, tail, head], l) => {
    const flow = data.flow[m][l], keeps = kept(m, l, r);
    if (flow < carry(m, l)) tails[head].push(tail);
    if (l !== own && flow > (keeps ? keeps[0] : 0)) tails[tail].push(head);
  });
  const core = new Set([own < 0 ? rights[r][2] : links[own][1]]);
  for (const node of core) tails[node].forEach(tail => core.add(tail));
  return nodes.map((_, node) => core.has(node));
}

// --- What is shown ---------------------------------------------------------------------------------------------------
function make(tag, text, parent, kind) {
  const it = document.createElement(tag);
  it.textContent = text;
  if (kind) it.className = kind;
  return parent.appendChild(it);
}

function placeName(r) {
  const [, kind, place] = rights[r];
  return kind === "instream" ? `instream on ${links[place][0]}` : `${kind} at ${nodes[place]}`;
}

function showAccount(set, core) {
  const {month: m, right: r} = chosen, box = at("account"), name = rights[r][0], got = data.got[m][r];
  box.replaceChildren();
  at("headline").textContent = (data.refuted ? "REFUTED. The result says of " : "") +
    `${monthName(m)}: ${name} of ${rights[r][3]} (${placeName(r)}) ` +
    (data.want[m][r] === 0 ? "wants nothing" : `is delivered ${said(got)} of ${said(data.want[m][r])}` +
    (lack(m, r) ? `: ${said(lack(m, r))} short` : ", all that it wants"));
  if (data.refuted) {
    make("p", `basin check answered "${data.refuted}" to this result. So no reason is given here for any shortage, ` +
      "and nobody is named as curtailed.", box);
    return;
  }
  if (set) {
    showBook(box, name, account(m, r, set), got);
    showCore(box, m, r, core);
  }
  showCurtailed(box, m, r);
  // (so that a long account is printed in columns)
  document.body.classList.toggle("long", box.querySelectorAll("tr, span").length > 24);
}

function showBook(box, name, lines, got) {
  make("h3", "Why it gets no more", box);
  make("p", "No water outside the thick nodes of the map could have helped it. Of the water at them, and of all that " +
    "can come in, it got what is left by its seniors:", box);
  const table = make("table", "", box);
  const words = {supply: "water at", enter: "can come in by", keep: "must flow on in", take: "taken by"};
  const row = (kind, text, amount, remark) => {
    const tr = make("tr", "", table, kind), td = make("td", text, tr);
    if (remark) make("small", ` (${remark})`, td);
    make("td", amount, tr, "amount");
  };
  for (const [word, what, amount, remark] of lines)
    row(word, `${words[word]} ${what}`, (amount < 0 ? "\u2212 " : "+ ") + said(Math.abs(amount)), remark);
  const sum = lines.reduce((so, line) => so + line[2], 0);
  row("sum", sum === got ? `left for ${name}, and delivered` : "THIS IS NOT WHAT IT GOT", said(sum));
  make("p", "No junior takes water at the thick nodes, and at none of them does water leave the basin.", box);
}

// Where one more unit of water would have helped a right, and where it would have been a senior's.
function showCore(box, m, r, core) {
  const there = nodes.map((_, node) => node).filter(node => core[node]), next = node => data.next[m][node];
  const text = node => nodes[node] + (next(node) === r ? "" : ` (${rights[next(node)][0]} is next)`);
  make("h3", "Where one more unit of water would have helped it", box);
  make("p", "At the dark nodes, and at no other:", box);
  const list = make("p", "", box, "at");
  for (const node of there) make("span", `${text(node)} `, list);
  if (there.some(node => next(node) !== r))
    make("p", "Where another is next, the unit would be that right's, which is senior to it and short too.", box);
}

// A text with the name of a right that a click chooses.
function nameIn(parent, before, r, after) {
  parent.append(before);
  make("a", rights[r][0], parent).onclick = () => choose(chosen.month, r);
  parent.append(after);
}

// Who has to stand back for whom; and, apart, what the `called` lines of the result say besides.
function showCurtailed(box, m, r) {
  const senior = data.senior[m][r], caller = data.caller[m][r], name = rights[r][0];
  const among = list => rights.map((_, s) => s).filter(s => list[s] === r), curtailed = among(data.senior[m]);
  const others = among(data.caller[m]).filter(s => data.senior[m][s] !== r);
  const list = (text, those, kind) => {
    make("p", text, box);
    const line = make("p", "", box, kind);
    for (const s of those) nameIn(make("span", "", line), "", s, ` of ${yearOf(s)} (${said(data.want[m][s])}) `);
  };
  make("h3", "Who is curtailed", box);
  if (senior !== undefined)
    nameIn(make("p", "", box), `${name} is curtailed for `, senior,
      ` of ${rights[senior][3]}, whose one more unit of water at its node would be. It gets nothing.`);
  if (curtailed.length)
    list(`These are curtailed for ${name}: one more unit at their nodes would be ${name}'s. They get nothing of what ` +
      "they want:", curtailed, "curtailed");
  else make("p", `Nobody is curtailed for ${name} in this month.`, box);
  if (caller !== undefined && caller !== senior)
    nameIn(make("p", "", box), `The line "called ${name} ${rights[caller][0]}" of the result says that ${name} takes ` +
      "in the set of ", caller, " and gets nothing. It needn't stand back for that right, which one more unit of " +
      "water there would not help.");
  if (others.length)
    list(`Lines "called .. ${name}" stand in the result for these too, as they take at thick nodes and get nothing. ` +
      `They needn't stand back for ${name}, which one more unit of water there would not help:`, others, "called");
}

function rightLine(m, s) {
  const curtailed = data.senior[m][s] === chosen.right ? "\u2190 " : "";
  return `${curtailed}${rights[s][0]} ${said(data.got[m][s])} of ${said(data.want[m][s])}`;
}

const most = Math.max(1, ...data.flow.map(row => Math.max(0, ...row)));
const parts = ["node", "link"].map(kind => (kind === "node" ? nodes : links).map((_, place) => {
  const group = at(kind + place);
  return {group, texts: [...group.querySelectorAll("text")], path: group.querySelector("path")};
}));

function writeTexts(texts, first, m, order) {
  texts[0].textContent = first;
  order.forEach((s, line) => {
    texts[line + 1].textContent = rightLine(m, s);
    texts[line + 1].classList.toggle("chosen", s === chosen.right);
  });
}

function showMap(set, core) {
  const m = chosen.month;
  parts[0].forEach(({group, texts}, node) => {
    writeTexts(texts, nodes[node], m, data.order.nodes[node]);
    group.classList.toggle("in", Boolean(set && set[node]));
    group.classList.toggle("core", Boolean(core && core[node]));
  });
  parts[1].forEach(({group, texts, path}, l) => {
    const [name, tail, head] = links[l], flow = data.flow[m][l];
    writeTexts(texts, `${name} ${said(flow)}`, m, data.order.links[l]);
    path.style.strokeWidth = 1 + 6 * Math.sqrt(flow / most);
    group.classList.toggle("dry", flow === 0);
    group.classList.toggle("enter", Boolean(set && set[head] && !set[tail] && carry(m, l)));
  });
  const [, , place] = rights[chosen.right] || [], box = at("mapbox");
  const own = rights.length && parts[isInstream(chosen.right) ? 1 : 0][place].group.getBoundingClientRect();
  const frame = box.getBoundingClientRect();
  if (own && (own.left < frame.left || own.right > frame.right || own.top < frame.top || own.bottom > frame.bottom))
    box.scrollBy(own.left - frame.left - frame.width / 2, own.top - frame.top - frame.height / 2);
}

let scale = 1;
function zoom(by) {
  scale *= by;
  at("map").style.width = `${scale * at("map").viewBox.baseVal.width}px`;
}

// The map as large as its box, but not too small to be read.
function fit() {
  const {width, height} = at("map").viewBox.baseVal, room = at("mapbox").clientWidth - 2;
  zoom(Math.max(0.6, Math.min(1.5, room / width, 0.58 * window.innerHeight / height)));
}

// On paper a map that would be too small is cut to the nodes that show the shortage, or else to where the right is.
function crop() {
  const map = at("map"), {width, height} = map.viewBox.baseVal, across = 760, down = 390, least = 0.45;
  if (!rights.length || Math.min(across / width, down / height) >= least) return;
  const [, , place] = rights[chosen.right], own = parts[isInstream(chosen.right) ? 1 : 0][place].group;
  const box = groups => {
    const to = map.getScreenCTM().inverse(), all = groups.map(group => group.getBoundingClientRect());
    const [left, top] = ["left", "top"].map(side => Math.min(...all.map(it => it[side])));
    const [right, bottom] = ["right", "bottom"].map(side => Math.max(...all.map(it => it[side])));
    const from = new DOMPoint(left, top).matrixTransform(to), end = new DOMPoint(right, bottom).matrixTransform(to);
    return [from.x - 20, from.y - 20, end.x - from.x + 40, end.y - from.y + 40];
  };
  let shown = box([own, ...map.querySelectorAll(".node.in")]);
  if (Math.min(across / shown[2], down / shown[3]) < least || shown[2] + shown[3] < 400) {
    const [x, y, wide, tall] = box([own]);
    shown = [x + wide / 2 - across / least / 4, y + tall / 2 - down / least / 4, across / least / 2, down / least / 2];
  }
  map.dataset.whole = map.getAttribute("viewBox");
  map.setAttribute("viewBox", shown.join(" "));
  const set = setOf(chosen.month, chosen.right);
  at("cut").textContent = "A part of the map." +
    (set ? ` The nodes that show the shortage: ${nodes.filter((_, node) => set[node]).join(", ")}.` : "");
}

function uncrop() {
  const map = at("map");
  if (map.dataset.whole) map.setAttribute("viewBox", map.dataset.whole);
  delete map.dataset.whole;
  at("cut").textContent = "";
}

// --- The grid of all rights and months -------------------------------------------------------------------------------
const row = rights.length > 600 ? 8 : 15;
let column = 3;                                     // how wide a month is

function canvas(it, width, height) {
  const dots = width < 8000 && height < 8000 ? window.devicePixelRatio || 1 : 1;
  Object.assign(it, {width: width * dots, height: height * dots});
  Object.assign(it.style, {width: `${width}px`, height: `${height}px`});
  const pen = it.getContext("2d");
  pen.scale(dots, dots);
  return pen;
}

function drawGrid() {
  const names = at("names"), cells = at("cells"), years = document.createElement("canvas");
  rights.forEach(([name], r) => {
    const it = make("div", `${name} ${yearOf(r)}`, names);
    Object.assign(it.style, {height: `${row}px`, lineHeight: `${row}px`, fontSize: `${Math.min(12, row - 1)}px`});
    it.onclick = () => choose(chosen.month, r);
  });
  column = Math.max(3, Math.min(16, Math.floor((at("gridbox").clientWidth - names.offsetWidth - 20) / months.length)));
  years.id = "years";
  cells.prepend(years);
  const pen = canvas(years, column * months.length, HEAD), step = [1, 2, 5, 10, 20].find(n => n * 12 * column >= 34);
  pen.font = "11px sans-serif";
  months.forEach((month, m) => {
    if (month.endsWith("-01") && +month.slice(0, 4) % step === 0) pen.fillText(month.slice(0, 4), m * column + 2, 12);
  });
  drawCells();
  for (const id of ["column", "mark"]) make("div", "", cells).id = id;
}

function drawCells() {
  const pen = canvas(at("grid"), column * months.length, row * rights.length), gap = column > 5 ? 1 : 0;
  for (let m = 0; m < months.length; m++) {
    for (let r = 0; r < rights.length; r++) {
      const want = data.want[m][r], tall = want ? Math.max(1, Math.round((row - 2) * lack(m, r) / want)) : 0;
      if (!want) continue;
      pen.fillStyle = "#d5d5d5";
      pen.fillRect(m * column, r * row + 1, column - gap, row - 2);
      pen.fillStyle = "#8c1d10";
      if (lack(m, r)) pen.fillRect(m * column, (r + 1) * row - 1 - tall, column - gap, tall);
    }
    pen.fillStyle = "#888";
    if (months[m].endsWith("-01")) pen.fillRect(m * column - 0.5, 0, 0.5, row * rights.length);
  }
}

function showGrid() {
  const {month: m, right: r} = chosen, box = at("gridbox"), left = m * column, top = HEAD + r * row;
  [...at("names").children].forEach((it, s) => it.classList.toggle("chosen", s === r));
  const frame = {left: left - 1, top: top - 1, width: column + 2, height: row + 2};
  for (const side in frame) at("mark").style[side] = `${frame[side]}px`;
  Object.assign(at("column").style, {left: `${left}px`, width: `${column}px`});
  const wide = box.clientWidth - at("names").offsetWidth;
  if (left < box.scrollLeft || left + column > box.scrollLeft + wide) box.scrollLeft = left - wide / 2;
  if (top < box.scrollTop + HEAD || top + row > box.scrollTop + box.clientHeight)
    box.scrollTop = top - box.clientHeight / 2;
}

// --- Plots -----------------------------------------------------------------------------------------------------------
const day = m => new Date(Date.UTC(+months[0].slice(0, 4), +months[0].slice(5) - 1 + m, 1));

// Rows by month for a plot in steps, whose last step needs an end.
const rowsOf = values =>
  [...months.keys(), months.length].map(m => [day(m), ...values(Math.min(m, months.length - 1))]);

// What stands at a mark of the axis: a year, or between years a month.
function tick(time) {
  const month = new Date(time).toISOString();
  return month.slice(5, 7) === "01" ? month.slice(0, 4) : NAMES[+month.slice(5, 7) - 1].slice(0, 3);
}

function plot(id, labels, series) {
  return new Dygraph(at(id), [[day(0), ...labels.map(() => 0)]], {
    labels: ["month", ...labels], series, stepPlot: true, includeZero: true, labelsUTC: true, legend: "follow",
    axes: {
      x: {pixelsPerLabel: 40, axisLabelFormatter: tick, valueFormatter: time => new Date(time).toISOString().slice(0, 7)},
      y: {axisLabelFormatter: said, valueFormatter: said, axisLabelWidth: 70},
    },
    underlayCallback: (pen, area, graph) => {
      const left = graph.toDomXCoord(day(chosen.month)), right = graph.toDomXCoord(day(chosen.month + 1));
      pen.fillStyle = "rgba(0, 102, 255, 0.35)";
      pen.fillRect(left, area.y, Math.max(2, right - left), area.h);
    },
    clickCallback: (event, time, points) => choose(Math.min(points[0].idx, months.length - 1), chosen.right),
  });
}

let rightPlot, lakePlot;
function makePlots() {
  const full = {color: "#2b6c99", fillGraph: true, strokeWidth: 1.5}, dashed = {color: "#111", strokePattern: [5, 3]};
  if (rights.length) rightPlot = plot("right-plot", ["wanted", "delivered"], {wanted: dashed, delivered: full});
  if (lakes.length) lakePlot = plot("lake-plot", ["held"], {held: full});
  at("lake-figure").hidden = lakes.length === 0;
}

function showPlots() {
  const {right: r, lake} = chosen;
  if (rightPlot) rightPlot.updateOptions({file: rowsOf(m => [data.want[m][r], data.got[m][r]])});
  if (lakePlot) lakePlot.updateOptions({file: rowsOf(m => [data.left[m][lake]])});
  if (rightPlot)
    at("right-title").textContent = `${rights[r][0]} of ${yearOf(r)}: wanted (dashed), delivered (shaded), by months`;
  at("lake-name").textContent = lakePlot ? nodes[lakes[lake]] : "";
}

// --- Choosing --------------------------------------------------------------------------------------------------------
const within = (place, list) => Math.max(0, Math.min(list.length - 1, place));

function show() {
  const set = rights.length ? setOf(chosen.month, chosen.right) : null;
  const core = set ? coreOf(chosen.month, chosen.right) : null;
  at("month").textContent = months[chosen.month];
  at("slider").value = chosen.month;
  at("right").value = chosen.right;
  at("lake").value = chosen.lake;
  if (rights.length) showAccount(set, core);
  showMap(set, core);
  showGrid();
  showPlots();
}

// The address holds the choice. (It is written a moment later, since browsers bound how often it may change.)
let later;
function choose(m, r) {
  chosen.month = within(m, months);
  chosen.right = within(r, rights);
  if (rights.length && rights[chosen.right][1] === "zone") chosen.lake = lakes.indexOf(rights[chosen.right][2]);
  show();
  clearTimeout(later);
  later = setTimeout(() => {
    const right = rights.length ? `&right=${rights[chosen.right][0]}` : "";
    history.replaceState(null, "", `#month=${months[chosen.month]}${right}`);
  }, 150);
}

function readAddress() {
  const asked = new URLSearchParams(location.hash.slice(1));
  const m = months.indexOf(asked.get("month")), r = rights.findIndex(([name]) => name === asked.get("right"));
  choose(m < 0 ? chosen.month : m, r < 0 ? chosen.right : r);
}

// Without an address the page begins with the first right that is short, in its first such month.
function begin() {
  for (let m = 0; m < months.length; m++) {
    const r = rights.findIndex((_, s) => lack(m, s) > 0);
    if (r >= 0) return Object.assign(chosen, {month: m, right: r});
  }
}

const KEYS = {ArrowLeft: [-1, 0], ArrowRight: [1, 0], PageUp: [-12, 0], PageDown: [12, 0], ArrowUp: [0, -1],
  ArrowDown: [0, 1], Home: [-1e9, 0], End: [1e9, 0]};

function listen() {
  document.addEventListener("keydown", event => {
    const move = KEYS[event.key];
    if (!move || event.target.tagName === "SELECT" || event.ctrlKey || event.altKey || event.metaKey) return;
    event.preventDefault();
    choose(chosen.month + move[0], chosen.right + move[1]);
  });
  at("slider").addEventListener("input", event => choose(+event.target.value, chosen.right));
  at("back").onclick = () => choose(chosen.month - 1, chosen.right);
  at("on").onclick = () => choose(chosen.month + 1, chosen.right);
  at("right").onchange = event => choose(chosen.month, +event.target.value);
  at("lake").onchange = event => { chosen.lake = +event.target.value; show(); };
  at("smaller").onclick = () => zoom(1 / 1.25);
  at("larger").onclick = () => zoom(1.25);
  at("grid").onclick = event => choose(Math.floor(event.offsetX / column), Math.floor(event.offsetY / row));
  at("grid").onmousemove = event => {
    const m = within(Math.floor(event.offsetX / column), months), r = within(Math.floor(event.offsetY / row), rights);
    at("grid").title = `${rights[r][0]} ${months[m]}: ${said(data.got[m][r])} of ${said(data.want[m][r])}`;
  };
  parts.flat().forEach(({texts}, place) => texts.forEach((text, line) => {
    const order = place < nodes.length ? data.order.nodes[place] : data.order.links[place - nodes.length];
    if (line) text.addEventListener("click", () => choose(chosen.month, order[line - 1]));
  }));
  window.addEventListener("hashchange", readAddress);
  window.addEventListener("beforeprint", crop);
  window.addEventListener("afterprint", uncrop);
}

at("slider").max = months.length - 1;
rights.forEach(([name], r) => { make("option", `${name} ${yearOf(r)}`, at("right")).value = r; });
lakes.forEach((node, lake) => { make("option", nodes[node], at("lake")).value = lake; });
drawGrid();
makePlots();
fit();
begin();
listen();
readAddress();
