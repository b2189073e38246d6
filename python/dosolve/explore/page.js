"use strict";
const D = JSON.parse(document.getElementById("data").textContent), P = D.pool;
const SIDES = ["one", "two"], NAMES = ["One", "Two"];
const $ = id => document.getElementById(id);

// Building the page: names and texts of a report are set as text, never as HTML.
function fill(node, attributes, children) {
  for (const [name, value] of Object.entries(attributes || {})) {
    if (name === "on") node.addEventListener("click", value);
    else if (value !== undefined && value !== false)
      node.setAttribute(name, value === true ? "" : value);
  }
  node.append(...children.flat(3).filter(child => ![null, undefined, false].includes(child)));
  return node;
}
const el = (tag, attributes, ...children) =>
  fill(document.createElement(tag), attributes, children);
const svg = (tag, attributes, ...children) =>
  fill(document.createElementNS("http://www.w3.org/2000/svg", tag), attributes, children);
const who = side => el("span", {class: "who " + SIDES[side]}, NAMES[side]);

// Numbers: bounds are millionths of a payoff, times the scale of a table.
const payoffs = millionths => millionths / D.unscaled / D.scale;
const shown = (value, digits) => Number(value.toFixed(digits))
  .toLocaleString("en", {maximumFractionDigits: digits, useGrouping: false})
  .replace("-", "−").replace(/^−0$/, "0");
const exact = millionths => shown(payoffs(millionths), 6);
const short = millionths => shown(payoffs(millionths), 3);
const count = (number, word) => `${number} ${word}${number === 1 ? "" : "s"}`;
const signed = number => (number > 0 ? "+" : number < 0 ? "−" : "") + Math.abs(number);

// What turns pay, by the rules.
const PAYS = D.states.some(record => record[8]);
const pay = paid => (paid > 0 ? "+" : "") + shown(paid / D.scale, 6);
function payWords(after) {
  const paid = [...new Set(after.map(each => each.paid))].sort((a, b) => a - b);
  return paid.length < 3 ? paid.map(pay).join(" or ")
    : `${pay(paid[0])} to ${pay(paid[paid.length - 1])}`;
}

// A bound of a side, rounded to its safe side where a scale leaves more digits than are shown.
function safe(bound, side) {
  const scaled = side ? Math.ceil(bound / D.scale - 1e-6) : Math.floor(bound / D.scale + 1e-6);
  return shown(scaled / D.unscaled, 6);
}

// Two bounds as one number where both round to it.
function between(low, high) {
  for (const digits of [3, 2]) {
    const texts = [low, high].map(bound => shown(payoffs(bound), digits));
    if (texts[0] === texts[1]) return [texts[0]];
    if (payoffs(high - low) > 0.005) break;
  }
  return [short(low), short(high)];
}

function percent(share) {
  if (share <= 0) return "0%";
  if (share > 1 - 1e-12) return "100%";
  if (share < 0.0005) return "<0.1%";
  return share > 0.9995 ? ">99.9%" : (100 * share).toFixed(1) + "%";
}

// States as the page's data has them.
const WORST = [D.low * D.unscaled, D.high * D.unscaled];
function state(place) {
  const [key, picture, chance, ...rest] = D.states[place];
  if (rest.length === 1)
    return {place, key, picture, chance, end: true, payoff: rest[0], names: [[], []]};
  const [one, two, low, high, cells, paid, ...players] = rest;
  const mine = [null, null];
  players.forEach(([weights, guarantee, reply], at) => {
    mine[D.players[at].side] = {weights: P[weights], weight: D.players[at].weight,
      guarantee: guarantee === undefined ? null : guarantee * D.unscaled, reply};
  });
  return {place, key, picture, chance, end: false, names: [P[one], P[two]], rows: [low, high],
    cells, paid, mine};
}
const read = row => Array.isArray(row) && row.length > 1
  ? {bound: row[0], weights: P[row[1]]} : null;

// What both strategies have proved of a state, in millionths; null where that is nothing.
function bounds(place) {
  if (place < 0) return D.stubs[-1 - place].map(bound => Array.isArray(bound) ? bound[0] : bound);
  const found = state(place);
  if (found.end) return [found.payoff * D.unscaled, found.payoff * D.unscaled];
  return found.rows.map(row => Array.isArray(row) ? row[0] : null);
}
const promised = place =>
  bounds(place).map((bound, side) => bound === null ? WORST[side] : bound);

// What can follow a pair of moves: places, chances in parts of D.chance, what the turn pays.
function draws(found, one, two) {
  const at = one * found.names[1].length + two, cell = found.cells[at];
  const paid = found.paid && found.paid[at] || [];
  if (typeof cell === "number") return [{place: cell, chance: D.chance, paid: paid[0] || 0}];
  const list = [];
  for (let draw = 0; 2 * draw < cell.length; draw++)
    list.push({place: cell[2 * draw], chance: cell[2 * draw + 1], paid: paid[draw] || 0});
  return list;
}

// The bounds of what follows a pair of moves, seen from this state: the mean over the draws,
// each with what its turn pays.
function worth(found, one, two) {
  const after = draws(found, one, two);
  return [0, 1].map(side => after.reduce((sum, {place, chance, paid}) =>
    sum + chance * (promised(place)[side] + paid * D.unscaled), 0) / D.chance);
}

// For each side whether its strategy has a row for a state: an end needs none, and without a row
// a bound is only what can still come.
function haveRows(place) {
  if (place < 0) return D.stubs[-1 - place].map(bound => typeof bound === "number");
  const found = state(place);
  return found.end ? [true, true] : found.rows.map(row => read(row) !== null);
}
// For each side whether no row tells its bound of what follows.
function unknown(found, one, two) {
  const [low, high] = worth(found, one, two);
  return [0, 1].map(side => high - low > 0.5 &&
    draws(found, one, two).some(({place}) => !haveRows(place)[side]));
}

// What the weights of a row prove from the bounds of what follows.
function proved(found, side) {
  const row = read(found.rows[side]), whole = side ? Math.ceil : Math.floor;
  const sums = found.names[1 - side].map((_, reply) => row.weights.reduce((sum, weight, move) => {
    const [one, two] = side ? [reply, move] : [move, reply];
    return sum + (weight ? weight * whole(worth(found, one, two)[side]) : 0);
  }, 0));
  return (side ? Math.max(...sums) : Math.min(...sums)) / D.weight;
}

// What games call their states, turns and draws.
const list = numbers => numbers.length ? numbers.join(" ") : "none";
const cell = at => `row ${Math.floor(at / D.settings.width) + 1}, ` +
  `column ${at % D.settings.width + 1}`;
const TEXTS = {
  goofspiel: found => cardText(found, " "),
  goofspiel_drawn: found => cardText(found, " or "),
  oshi_zumo: ({picture: [at, one, two]}) => `wrestler at ${signed(at)}; coins ${one} and ${two}`,
  tron: ({picture: [one, two, taken]}) =>
    `heads at ${cell(one)} and ${cell(two)}; ${P[taken].length} cells taken`,
  pursuit: ({picture: [caught, rounds, one, two]}) => caught
    ? `Two is caught at node ${one === two ? two : one + " / " + two}`
    : `One at node ${one}, Two at node ${two}; ${count(rounds, "round")} left`,
  table: ({picture: [number, name]}) => name || `state ${number}`,
};
// Where each prize is paid when it is won, the score is no part of what is told.
const SCORES = D.settings.pay !== "prizes";
function cardText(found, between) {
  const [score, prize, coming] = found.picture, told = SCORES ? `score ${signed(score)}` : "";
  if (found.end) return `all cards played${told && ", "}${told}`;
  return `One ${list(found.names[0])}; Two ${list(found.names[1])}; prize ${prize}` +
    (P[coming].length ? `, then ${P[coming].join(between)}` : "") + `${told && "; "}${told}`;
}
const described = found => (TEXTS[D.game] || (() => String(found.picture[0])))(found);

function drawName(found, {place}, draw) {
  if (D.game === "goofspiel_drawn") return `prize ${P[found.picture[2]][draw]}`;
  return D.game === "table" && place >= 0 ? described(state(place)) : `draw ${draw + 1}`;
}
function turnName(found, [one, two, draw]) {
  const after = draws(found, one, two), paid = after[draw].paid;
  return `${found.names[0][one]} – ${found.names[1][two]}` +
    (after.length > 1 ? `, ${drawName(found, after[draw], draw)}` : "") +
    (paid ? ` (pays ${pay(paid)})` : "");
}

function turnWords(found, [one, two, draw]) {
  const after = draws(found, one, two), paid = after[draw].paid;
  return `One ${found.names[0][one]}, Two ${found.names[1][two]}` +
    (after.length > 1 ? `, ${drawName(found, after[draw], draw)}` : "") +
    (paid ? `, pays One ${pay(paid)}` : "");
}

// Where the reader is: a first state and turns from there, which are in the page's address.
let first = 0, turns = [], places = [0], chosen = [null, null], told = "";
const here = () => state(places[places.length - 1]);
function follow(place, [one, two, draw]) {
  const found = state(place);
  if (found.end || !(one < found.names[0].length) || !(two < found.names[1].length)) return null;
  const after = draws(found, one, two)[draw];
  return after && after.place >= 0 ? after.place : null;
}
// The turns of a shortest way from the start to a state of the page; null where there is none.
function wayTo(goal) {
  const came = new Map([[0, null]]), waiting = [0];
  for (const place of waiting) {
    if (place === goal) break;
    const found = state(place);
    found.names[0].forEach((_, one) => found.names[1].forEach((_, two) =>
      draws(found, one, two).forEach((after, draw) => {
        if (after.place < 0 || came.has(after.place)) return;
        came.set(after.place, [place, [one, two, draw]]);
        waiting.push(after.place);
      })));
  }
  if (!came.has(goal)) return null;
  const way = [];
  for (let at = came.get(goal); at; at = came.get(at[0])) way.unshift(at[1]);
  return way;
}
const spelled = list =>
  list.map(turn => turn[2] ? turn.join(".") : turn.slice(0, 2).join(".")).join(",");
const address = () => (first ? `key=${D.states[first][0]}/` : "") + spelled(turns);

// Goes to what the address names, as far as the page has it.
function arrive() {
  const match = /^#?(?:key=(\d+)\/?)?((?:\d+\.\d+(?:\.\d+)?(?:,|$))*)$/.exec(location.hash);
  first = 0; turns = []; told = "";
  if (!match) told = "The address names no turns: this is the start.";
  const [, key, words] = match || [];
  if (key) {
    const goal = D.states.findIndex(record => record[0] === key);
    const way = goal > 0 && !words ? wayTo(goal) : null;
    if (goal < 0) told = `This page has no state with the key ${key}: this is the start.`;
    else if (way) turns = way;
    else first = goal;
  }
  places = [first];
  for (const turn of turns) places.push(follow(places[places.length - 1], turn));
  for (const word of (words || "").split(",").filter(Boolean)) {
    const [one, two, draw] = word.split(".").map(Number), turn = [one, two, draw || 0];
    const after = follow(places[places.length - 1], turn);
    if (after === null) {
      told = "The address goes further than this page: this is the last state that it has.";
      break;
    }
    turns.push(turn);
    places.push(after);
  }
  chosen = fresh();
  render();
}
function go(kept, added) {
  turns = turns.slice(0, kept).concat(added || []);
  const wanted = "#" + address();
  if (location.hash === wanted || (wanted === "#" && !location.hash)) arrive();
  else location.hash = wanted;
}
function home() { first = 0; go(0); }

// Moves and draws. A side that has one move alone has chosen it.
const fresh = () => here().names.map(names => names.length === 1 ? 0 : null);
function choose(side, move) {
  const only = here().names[side].length === 1;
  chosen[side] = chosen[side] === move && !only ? null : move;
  if (chosen[0] !== null && chosen[1] !== null) play(chosen[0], chosen[1]);
  else render();
}
function play(one, two) {
  chosen = [one, two];
  if (draws(here(), one, two).length === 1) return lead(one, two, 0);
  render();
  const button = document.querySelector(".draws button");
  if (button) button.focus();
}
function lead(one, two, draw) {
  const found = here(), {place} = draws(found, one, two)[draw];
  if (place >= 0) return go(turns.length, [[one, two, draw]]);
  const rows = haveRows(place);
  const sure = words(...bounds(place).map((bound, side) => rows[side] ? bound : null));
  told = `The state after ${turnName(found, [one, two, draw])} is not on this page. ` +
    (sure ? `Its rows guarantee: ${sure}.` : "The report has no row for it.");
  chosen = fresh();
  render();
}
const words = (low, high) => [low === null ? "" : `One at least ${safe(low, 0)}`,
  high === null ? "" : `One at most ${safe(high, 1)}`].filter(Boolean).join(", ");

// Turns at random, by both strategies, or by the player's plan and what hurts it most.
function played(found, side) {
  const row = read(found.rows[side]);
  return row ? row.weights.map(weight => weight / D.weight)
    : found.names[side].map((_, move) => move ? 0 : 1);
}
function sampling(found, side) {
  if (!$("player").checked) return played(found, side);
  const mine = found.mine[side], yours = found.mine[1 - side];
  if (mine) return mine.weights.map(weight => weight / mine.weight);
  if (yours && yours.reply !== undefined)
    return found.names[side].map((_, move) => move === yours.reply ? 1 : 0);
  return played(found, side);
}
function drawn(shares) {
  let left = Math.random();
  for (let at = 0; at < shares.length; at++) {
    left -= shares[at];
    if (left < 0 && shares[at]) return at;
  }
  return shares.findIndex(share => share > 0);
}
function sampled(found) {
  const [one, two] = [0, 1].map(side => drawn(sampling(found, side)));
  return [one, two, drawn(draws(found, one, two).map(({chance}) => chance / D.chance))];
}
function random(toEnd) {
  const added = [];
  let found = here();
  while (!found.end && (toEnd || !added.length)) {
    const turn = sampled(found), after = follow(found.place, turn);
    if (after === null) {
      if (!added.length) return lead(...turn);
      break;
    }
    added.push(turn);
    found = state(after);
  }
  if (added.length) return go(turns.length, added);
  told = "The game is over: Back or Start leads to states with moves.";
  render();
}

// Pictures.
const card = (text, kind, more) =>
  el("span", {class: "card " + (kind || ""), ...more}, String(text));
function hand(found, side) {
  const held = found.names[side].map(Number);
  const cards = [...D.settings[SIDES[side]]].sort((a, b) => a - b).map(number => {
    const move = held.indexOf(number);
    if (move < 0) return card(number, "gone");
    return card(number, "held" + (chosen[side] === move ? " chosen" : ""),
      {on: () => choose(side, move)});
  });
  return el("div", {class: SIDES[side]}, el("div", {class: "label who"}, NAMES[side]),
    el("div", {class: "cards"}, cards));
}
function drawCards(found) {
  const [score, prize, coming] = found.picture;
  const order = D.game === "goofspiel" ? "To come, in this order" : "Still to be drawn";
  const labelled = (text, ...what) =>
    el("div", {}, el("div", {class: "label"}, text), ...what);
  const middle = el("div", {class: "middle"},
    found.end ? null : labelled(SCORES ? "Prize" : "Prize, paid when it is won",
      card(prize, "prize")),
    P[coming].length ? labelled(order, el("div", {class: "cards"},
      P[coming].map(number => card(number, "coming")))) : null,
    SCORES ? labelled("Score (One less Two)", el("div", {class: "score num"}, signed(score)))
      : null);
  return el("div", {class: "board"}, hand(found, 0), middle, hand(found, 1));
}

function drawField(found) {
  const [place, one, two] = found.picture, size = D.settings.size, step = 44;
  const width = (2 * size + 3) * step, x = at => (at + size + 1.5) * step, cells = [];
  for (let at = -size - 1; at <= size + 1; at++) {
    const off = Math.abs(at) > size, edge = at < 0 ? "var(--one)" : "var(--two)";
    cells.push(svg("rect", {x: x(at) - 20, y: 34, width: 40, height: 40, rx: 5,
      fill: off ? "none" : "var(--track)", stroke: off ? edge : "var(--edge)",
      "stroke-dasharray": off ? "4 3" : false}),
      svg("text", {x: x(at), y: 88, class: "note"}, off ? "off" : signed(at)));
  }
  const pile = (side, now, before) => el("div", {class: SIDES[side]},
    el("div", {class: "label who"}, `${NAMES[side]}: ${count(now, "coin")}`),
    el("div", {class: "coins"}, Array.from({length: before}, (_, at) =>
      el("span", {class: "coin" + (at < now ? "" : " gone")}))));
  return el("div", {class: "board"},
    svg("svg", {viewBox: `0 0 ${width} 98`, style: `max-width:${1.45 * width}px`,
      "aria-hidden": "true"}, cells,
      svg("text", {x: width / 2, y: 12, class: "note"}, "One pushes →   ← Two pushes"),
      svg("circle", {cx: x(place), cy: 54, r: 14, fill: "var(--ink)"}),
      svg("circle", {cx: x(place), cy: 47, r: 5, fill: "var(--panel)"})),
    el("div", {class: "ends"}, pile(0, one, D.settings.one), pile(1, two, D.settings.two)));
}

const STEPS = {north: [0, -1], east: [1, 0], south: [0, 1], west: [-1, 0]};
const head = (side, x, y, r) => [svg("circle", {cx: x, cy: y, r, fill: `var(--${SIDES[side]})`}),
  svg("text", {x, y, style: "fill:var(--panel);font-weight:700"}, side + 1)];
function arrow(share, x, y, dx, dy, colour) {
  const turn = Math.atan2(dy, dx) * 180 / Math.PI;
  return [svg("line", {x1: x + dx * 17, y1: y + dy * 17, x2: x + dx * 31, y2: y + dy * 31,
    stroke: colour, "stroke-width": 2 + 5 * share}),
  svg("path", {d: "M0,-6 L9,0 L0,6 Z", fill: colour,
    transform: `translate(${x + dx * 30},${y + dy * 30}) rotate(${turn})`})];
}
function drawGrid(found) {
  const {height, width} = D.settings, S = 60, nodes = [], trails = new Map();
  const [one, two, takenAt] = found.picture, taken = new Set(P[takenAt]), heads = [one, two];
  const x = at => (at % width + .5) * S, y = at => (Math.floor(at / width) + .5) * S;
  for (const place of places)
    for (const side of [0, 1]) trails.set(state(place).picture[side], side);
  for (let at = 0; at < height * width; at++) {
    const trail = `color-mix(in srgb, var(--${SIDES[trails.get(at)]}) 35%, var(--panel))`;
    nodes.push(svg("rect", {x: x(at) - S / 2, y: y(at) - S / 2, width: S, height: S,
      stroke: "var(--edge)",
      fill: !taken.has(at) ? "var(--panel)" : trails.has(at) ? trail : "var(--edge)"}));
  }
  for (const side of found.end ? [] : [0, 1]) {
    if (!read(found.rows[side])) continue;
    const colour = `var(--${SIDES[side]})`, cx = x(heads[side]), cy = y(heads[side]);
    played(found, side).forEach((share, move) => {
      const [dx, dy] = STEPS[found.names[side][move]];
      if (share) nodes.push(...arrow(share, cx, cy, dx, dy, colour));
      // One's chances are in the upper half of a cell, Two's in the lower: they never meet.
      nodes.push(svg("text", {x: cx + dx * S, y: cy + dy * S + (side ? 1 : -1) * (dy ? 11 : 19),
        style: `fill:${colour};font-size:11px`}, percent(share)));
    });
  }
  if (one === two) nodes.push(head(0, x(one) - 9, y(one), 13), head(1, x(two) + 9, y(two), 13));
  else nodes.push(head(0, x(one), y(one), 15), head(1, x(two), y(two), 15));
  return svg("svg", {viewBox: `-2 -2 ${width * S + 4} ${height * S + 4}`,
    style: `max-width:${width * 84}px`, "aria-hidden": "true"}, nodes.flat());
}

function drawGraph(found) {
  const spots = D.settings.places, [, rounds, one, two] = found.picture, U = 92, nodes = [];
  const xs = spots.map(spot => spot[0] * U), ys = spots.map(spot => -spot[1] * U);
  const left = Math.min(...xs) - 40, top = Math.min(...ys) - 46;
  const wide = Math.max(...xs) - left + 40, high = Math.max(...ys) - top + 46;
  for (const [a, b] of D.settings.pairs)
    nodes.push(svg("line", {x1: xs[a], y1: ys[a], x2: xs[b], y2: ys[b], stroke: "var(--edge)",
      "stroke-width": 1.5}));
  spots.forEach((_, node) => {
    const ring = (side, r) => svg("circle", {cx: xs[node], cy: ys[node], r, fill: "none",
      stroke: `var(--${SIDES[side]})`, "stroke-width": 4});
    nodes.push(svg("circle", {cx: xs[node], cy: ys[node], r: 15, fill: "var(--panel)",
      stroke: "var(--edge)", "stroke-width": 1.5}));
    if (node === one) nodes.push(ring(0, 22));
    if (node === two) nodes.push(ring(1, 17));
    nodes.push(svg("text", {x: xs[node], y: ys[node]}, node));
  });
  for (const side of found.end ? [] : [0, 1]) {
    if (!read(found.rows[side])) continue;
    played(found, side).forEach((share, move) => {
      const node = Number(found.names[side][move]);
      if (share) nodes.push(svg("text", {x: xs[node], y: ys[node] + (side ? 34 : -33),
        stroke: "var(--panel)", "stroke-width": 4, "paint-order": "stroke",
        style: `fill:var(--${SIDES[side]})`}, percent(share)));
    });
  }
  return el("div", {}, svg("svg", {viewBox: `${left} ${top} ${wide} ${high}`,
    style: `max-width:${1.3 * wide}px;max-height:440px`, "aria-hidden": "true"}, nodes),
  el("p", {class: "small dim"}, who(0), " (outer ring) chases ", who(1),
    ` (inner ring), ${count(rounds, "round")} left.`));
}

// Rows of cells, where the last word of a name reads as a board: ..x/.o./... ; (1) is one cell.
function boardOf(name) {
  const rows = name.split(/\s+/).pop().split("/").map(row => row.match(/\(.\)|./g) || []);
  const even = rows.length > 1 && rows[0].length > 1 &&
    rows.every(row => row.length === rows[0].length);
  return even && rows.flat().includes(".") && rows.some(row => isNaN(row.join(""))) ? rows : null;
}
function drawTable(found) {
  const [number, name] = found.picture, rows = boardOf(name), S = 40;
  const title = el("p", {class: "titled"}, name || `State ${number}`,
    name ? el("span", {class: "small dim"}, ` state ${number}`) : null);
  if (!rows) return title;
  const nodes = rows.map((row, y) => row.map((mark, x) => [
    svg("rect", {x: x * S, y: y * S, width: S, height: S, fill: "var(--panel)",
      stroke: "var(--edge)"}),
    mark === "." ? null : svg("text", {x: (x + .5) * S, y: (y + .5) * S,
      style: "font-size:16px"}, mark)]));
  const [w, h] = [rows[0].length * S, rows.length * S];
  return el("div", {}, title, svg("svg", {viewBox: `-1 -1 ${w + 2} ${h + 2}`,
    style: `max-width:${1.2 * w}px;margin:0`, "aria-hidden": "true"}, nodes));
}
const PICTURES = {goofspiel: drawCards, goofspiel_drawn: drawCards, oshi_zumo: drawField,
  tron: drawGrid, pursuit: drawGraph, table: drawTable};
const picture = found => (PICTURES[D.game] || (() => el("p", {class: "titled"},
  described(found))))(found);

// The panel of bounds.
function axis(low, high) {
  const [least, most] = WORST, x = bound => 12 + 376 * (bound - least) / (most - least || 1);
  const from = x(low === null ? least : low), to = x(high === null ? most : high);
  const mark = (side, bound) => bound === null ? null : svg("path", {
    d: side ? "M0,0 L-6,11 L6,11 Z" : "M0,0 L-6,-11 L6,-11 Z", fill: `var(--${SIDES[side]})`,
    transform: `translate(${x(bound)},${side ? 28 : 22})`});
  const zero = least < 0 && most > 0 ? [
    svg("line", {x1: x(0), x2: x(0), y1: 18, y2: 32, stroke: "var(--ink)"}),
    svg("text", {x: x(0), y: 44, class: "note"}, "0")] : [];
  return svg("svg", {viewBox: "0 0 400 52", "aria-hidden": "true",
    style: "max-width:520px;margin:0"},
  svg("rect", {x: 12, y: 22, width: 376, height: 6, rx: 3, fill: "var(--track)"}),
  svg("rect", {x: from, y: 22, width: Math.max(1, to - from), height: 6, fill: "var(--edge)"}),
  zero, svg("text", {x: 12, y: 44, class: "note start"}, short(least)),
  svg("text", {x: 388, y: 44, class: "note stop"}, short(most)), mark(0, low), mark(1, high));
}
const catches = (bound, most) => D.game !== "pursuit" ? ""
  : ` (a catch in ${most} ${percent((payoffs(bound) + 1) / 2)} of games)`;
function guarantee(found, side) {
  const row = read(found.rows[side]), most = side ? "at most" : "at least", sure = who(side);
  if (!row) {
    const why = found.rows[side] === 1
      ? "has a row here that does not fit its moves, and is not played" : "has no row here";
    return el("p", {}, sure, `’s strategy ${why}: it guarantees no more than the ` +
      `${side ? "greatest" : "least"} payoff${PAYS ? " that can still come" : ""}, `,
    el("b", {class: "num"}, exact(promised(found.place)[side])),
    `, and makes its first move, ${found.names[side][0]}.`);
  }
  const shy = side ? proved(found, 1) - row.bound : row.bound - proved(found, 0);
  return [el("p", {}, sure, side ? "’s strategy holds One to " : "’s strategy gets One ",
    most + " ", el("b", {class: "num"}, safe(row.bound, side)), catches(row.bound, most),
    PAYS ? " from here on" : "", side ? ", whatever One plays." : ", whatever Two plays."),
  shy > 1e-3 ? el("p", {class: "told"}, `But the weights of this row prove no more than `,
    el("b", {class: "num"}, exact(proved(found, side))),
    " from the rows that follow: check refuses such a report.") : null];
}
// What the turns so far have paid, in millionths, and in words with what is still to come.
const paidBefore = () => D.unscaled * turns.reduce((sum, [one, two, draw], at) =>
  sum + draws(state(places[at]), one, two)[draw].paid, 0);
function paidSoFar(found) {
  if (!PAYS || !turns.length) return null;
  const paid = paidBefore(), [least, most] = promised(found.place).map(bound => bound + paid);
  const sum = least === most ? exact(least) : `${safe(least, 0)} to ${safe(most, 1)}`;
  return el("p", {}, first ? "The turns shown paid One " : "The turns so far paid One ",
    el("b", {class: "num", id: "paid"}, pay(paid / D.unscaled)),
    first ? "." : [found.end ? ", the whole game " : ". With that, the whole game gives One ",
      el("b", {id: "sum"}, sum), "."]);
}
function endPanel(found) {
  const wins = found.payoff > 0 ? "One wins." : found.payoff < 0 ? "Two wins." : "A draw.";
  return el("section", {class: "bounds"}, el("h2", {}, "The game is over"),
    el("p", {}, PAYS ? "The end pays One " : "One gets ",
      el("b", {class: "num"}, exact(found.payoff * D.unscaled)),
      ", Two the negative. ", D.game === "table" || PAYS ? "" : wins), paidSoFar(found),
    el("p", {class: "small dim"}, D.meaning));
}
function boundsPanel(found) {
  const [low, high] = bounds(found.place), [least, most] = promised(found.place);
  const sum = low === null && high === null ? "The report knows nothing of the value of this state."
    : least === most ? `So the value of this state is ${exact(least)} exactly.`
    : low !== null && high !== null
      ? `So the value of this state lies between both: the gap is ${exact(high - low)}.`
    : `So the value of this state lies from ${exact(least)} to ${exact(most)}.`;
  return el("section", {class: "bounds"}, el("h2", {}, "What is guaranteed from here"),
    axis(low, high), guarantee(found, 0), guarantee(found, 1), el("p", {}, sum), paidSoFar(found),
    el("p", {class: "small dim"}, D.meaning));
}

// The panels of moves and draws.
function moveButton(found, side, move) {
  const row = read(found.rows[side]), mine = found.mine[side], name = found.names[side][move];
  const share = played(found, side)[move], his = mine ? mine.weights[move] / mine.weight : 0;
  const yours = found.mine[1 - side], hurts = yours && yours.reply === move;
  const label = `${NAMES[side]} plays ${name}: ${row ? percent(share) : "no row"}` +
    (mine ? `; the player ${percent(his)}` : "") + (hurts ? "; hurts the player most" : "");
  return el("button", {class: "move" + (share || his ? "" : " never"),
    "aria-pressed": String(chosen[side] === move), "aria-label": label, "data-side": side,
    "data-move": move, title: row ? `weight ${row.weights[move]} of ${D.weight}` : "no row",
    on: () => choose(side, move)},
  el("span", {class: "name"}, name),
  el("span", {class: "track"},
    el("span", {class: "fill", style: `width:${row ? 100 * share : 0}%`}),
    mine ? el("span", {class: "fill player", style: `width:${100 * his}%`}) : null),
  el("span", {class: "share num"}, row ? percent(share) : move ? "" : "first",
    mine ? [el("br"), percent(his)] : null),
  hurts ? el("span", {class: "hurts dim"}, "hurts the player most") : null);
}
function playerNote(found, side) {
  const mine = found.mine[side];
  if (!mine) return null;
  return el("p", {class: "small dim", style: "margin:6px 0 0"}, mine.guarantee === null
    ? "Striped: the player’s plan, whose own moves do not lead here."
    : `Striped: the player’s plan, which guarantees ${exact(mine.guarantee)} from here.`);
}
// A list of so many moves scrolls by itself: to the first that is played where the state is new.
const MANY = 32;
let listed = null, scrolled = [0, 0];
const lists = () => [...document.querySelectorAll(".many")];
function scrollLists(place) {
  for (const [at, list] of lists().entries()) {
    const first = list.querySelector(".move:not(.never)");
    list.scrollTop = listed === place ? scrolled[at] : first ? first.offsetTop : 0;
  }
  listed = place;
}
function movesPanel(found, side) {
  const names = found.names[side], long = names.some(name => name.length > 4);
  const widest = Math.max(...names.map(name => name.length));
  return el("section", {class: SIDES[side] + (long ? " long" : ""),
    "aria-labelledby": "side" + side},
  el("h3", {id: "side" + side}, who(side), " plays"),
  el("ol", {class: "moves" + (names.length > MANY ? " many" : ""), style: `--name:${widest + 1}ch`},
    names.map((_, move) => el("li", {}, moveButton(found, side, move)))),
  names.length > MANY && read(found.rows[side]) ? el("p", {class: "small dim count"},
    `Plays ${played(found, side).filter(Boolean).length} of ${names.length} moves.`) : null,
  read(found.rows[side]) ? null : el("p", {class: "told"}, "No row: this strategy’s own moves do " +
    "not lead here, or the search ended before it had one."),
  playerNote(found, side));
}
function drawsPanel(found) {
  const [one, two] = chosen;
  if (found.end || one === null || two === null) return null;
  const after = draws(found, one, two);
  if (after.length === 1) return null;
  return el("section", {class: "draw", "aria-labelledby": "draws"},
    el("h2", {id: "draws"}, `${found.names[0][one]} – ${found.names[1][two]}: then chance draws`),
    el("div", {class: "draws"}, after.map((each, draw) =>
      el("button", {"data-draw": draw, on: () => lead(one, two, draw)},
        `${drawName(found, each, draw)} `,
        el("span", {class: "dim num"}, percent(each.chance / D.chance)),
        each.paid ? ` pays ${pay(each.paid)}` : null))));
}

// The matrix of what follows.
function matrix(found) {
  const [ones, twos] = found.names, shares = [played(found, 0), played(found, 1)];
  const worths = ones.map((_, one) => twos.map((_, two) => worth(found, one, two)));
  const open = ones.map((_, one) => twos.map((_, two) => unknown(found, one, two)));
  const middles = worths.flatMap((line, one) => line.filter((_, two) =>
    !open[one][two].some(Boolean)).map(([low, high]) => (low + high) / 2));
  const sure = bounds(found.place);
  const middle = sure.includes(null) ? (Math.min(...middles) + Math.max(...middles)) / 2
    : (sure[0] + sure[1]) / 2;
  return {worths, open, shares, middle,
    reach: Math.max(...middles.map(value => Math.abs(value - middle))),
    yields: twos.map((_, two) => ones.reduce((sum, _, one) =>
      sum + shares[0][one] * worths[one][two][0], 0)),
    holds: ones.map((_, one) => twos.reduce((sum, _, two) =>
      sum + shares[1][two] * worths[one][two][1], 0))};
}
// Blue where a pair of moves is better for One than the state, orange where it is worse.
const heat = (better, reach) => "color-mix(in srgb, var(--" + (better < 0 ? "two" : "one") +
  `) ${reach ? Math.round(38 * Math.abs(better) / reach) : 0}%, var(--panel))`;
function matrixCell(found, {worths, open, shares, middle, reach}, one, two) {
  const after = draws(found, one, two), [low, high] = worths[one][two];
  const [noLow, noHigh] = open[one][two], [ones, twos] = found.names;
  const ends = after.every(({place}) => place >= 0 && state(place).end);
  const off = after.every(({place}) => place < 0);
  const texts = noLow && noHigh ? ["no row"] : noLow ? ["≤ " + short(high)]
    : noHigh ? ["≥ " + short(low)] : between(low, high);
  const sure = noLow && noHigh ? "no row for what follows" : noLow ? `at most ${exact(high)}`
    : noHigh ? `at least ${exact(low)}` : `from ${exact(low)} to ${exact(high)}`;
  const label = `One ${ones[one]}, Two ${twos[two]}: ${sure}` +
    (PAYS ? `, of which this turn pays ${payWords(after)}` : "") + (ends ? ", the game ends" : "") +
    (off ? ", not on this page" : "") + (after.length > 1 ? `, ${after.length} draws` : "");
  const both = shares[0][one] && shares[1][two] && found.rows.every(read);
  return el("button", {class: (ends ? "end" : "") + (off ? " off" : "") + (both ? " played" : ""),
    style: noLow || noHigh ? false : `--heat:${heat((low + high) / 2 - middle, reach)}`,
    tabindex: one || two ? -1 : 0, title: label, "aria-label": label,
    "data-cell": one * twos.length + two, on: () => play(one, two)},
  texts.length > 1 ? [texts[0], el("br"), texts[1]] : texts,
  PAYS ? el("span", {class: "pays"}, `pays ${payWords(after)}`) : null);
}
function matrixTable(found) {
  const [ones, twos] = found.names, all = matrix(found), rows = found.rows.map(read);
  const worst = [Math.min(...all.yields), Math.max(...all.holds)];
  const sum = (side, value, best) =>
    el("td", {class: `sum ${SIDES[side]}${best ? " best" : ""}`}, short(value));
  const top = el("tr", {}, el("td"), twos.map(name => el("th", {scope: "col", class: "two"}, name)),
    rows[1] ? el("th", {scope: "col", class: "two small"},
      el("span", {class: "hidden"}, "Two’s strategy holds One to "), "at most") : null);
  const lines = ones.map((name, one) => el("tr", {},
    el("th", {scope: "row", class: "one"}, name),
    twos.map((_, two) => el("td", {}, matrixCell(found, all, one, two))),
    rows[1] ? sum(1, all.holds[one], all.holds[one] > worst[1] - 2) : null));
  if (rows[0]) lines.push(el("tr", {}, el("th", {scope: "row", class: "one small"},
    el("span", {class: "hidden"}, "One’s strategy gets One "), "at least"),
  all.yields.map(value => sum(0, value, value < worst[0] + 2))));
  return el("table", {class: "matrix"}, el("thead", {}, top), el("tbody", {}, lines));
}
// A matrix of many columns has the whole width of the page.
const isWide = found => found.names[1].length > 7;
function scroller(table) {
  const box = el("div", {class: "scroll"}, table);
  box.addEventListener("scroll", fade, {passive: true});
  return box;
}
function matrixPanel(found) {
  const drawn = found.cells.some(each => typeof each !== "number");
  return el("section", {"aria-labelledby": "leads", class: isWide(found) ? "wide" : false},
    el("h2", {id: "leads"}, "Where each pair of moves leads"),
    el("p", {class: "small dim"},
      "What is guaranteed then, in payoffs of One",
      PAYS ? "; below, what the turn itself pays of that. " : ". ", "A click leads there."),
    scroller(matrixTable(found)),
    el("details", {class: "small dim", id: "how", open: opened.how},
      el("summary", {}, "How to read this"),
      el("p", {}, "Each cell has what both strategies guarantee from the state that follows",
        PAYS ? ", added to what this turn pays" : "", drawn ? ", the mean over the draws" : "",
        ": one number where both bounds round to it, " +
        "else the lower and the upper one; ≥ where only One’s strategy has a row there, ≤ where " +
        "only Two’s has, and “no row” where neither has. Pointing at a cell shows it to a " +
        "millionth. Blue is better for One than the value of this state, orange better for Two. ",
        el("b", {}, "Bold"), " ends the game; both strategies play the framed pairs; a dashed " +
        "cell leads to a state that is not on this page."),
      el("p", {}, "The row “at least” has what One gets of this turn’s bars against each move of " +
        "Two, the column “at most” what Two’s bars hold One to against each move of One. The " +
        "worst of them, underlined, is what is guaranteed.")));
}

// What a player gives away, beside the solver's strategy.
const SORTS = [["what it adds", loss => loss.here * loss.reached, loss => loss.reached > 0],
  ["lost here", loss => loss.here, () => true], ["lost from there on", loss => loss.later,
    () => true]];
const FEW = 20;
const opened = {how: false, given: true, all: false, sort: 0};
const LOSSES = D.players.flatMap(player => player.losses.map(([place, later, here, reached, way]) =>
  ({side: player.side, place, later: later * D.unscaled, here: here * D.unscaled, reached, way})));
function plays(weights, names, weight) {
  if (!weights) return "no row";
  const list = weights.map((share, move) => [share, names[move]]).filter(([share]) => share);
  return list.sort((a, b) => b[0] - a[0]).slice(0, 4).map(([share, name]) =>
    share === weight ? name : `${name}\u00a0${percent(share / weight)}`).join(", ") +
    (list.length > 4 ? ", …" : "");
}
function lossLine(loss, at) {
  const found = state(loss.place), mine = found.mine[loss.side], row = read(found.rows[loss.side]);
  const way = [];
  for (let turn = 0; turn < loss.way.length; turn += 3) way.push(loss.way.slice(turn, turn + 3));
  const link = el("a", {href: "#" + spelled(way)}, described(found));
  if (loss.place === here().place) link.setAttribute("aria-current", "true");
  const number = (name, value) => el("td", {class: "right num", "data-label": name,
    title: exact(value)}, short(value));
  const names = found.names[loss.side];
  return el("tr", {}, el("td", {class: "right num"}, `${at + 1}.`), el("td", {}, link),
    el("td", {"data-label": "player"}, who(loss.side), ": ",
      plays(mine.weights, names, mine.weight)),
    el("td", {"data-label": "solver"}, plays(row && row.weights, names, D.weight)),
    el("td", {class: "right num", "data-label": "reached"}, percent(loss.reached)),
    number("lost here", loss.here), number("adds", loss.here * loss.reached),
    number("from there on", loss.later));
}
function lossSummary(player) {
  const sure = D[player.side ? "upper" : "lower"], mine = player.guarantee * D.unscaled;
  const lost = player.side ? mine - sure : sure - mine;
  return el("p", {}, who(player.side), `: the player’s plan guarantees ${exact(mine)}, the ` +
    `solver’s ${safe(sure, player.side)}. `,
  lost > 1 ? el("b", {}, `It gives away ${exact(lost)}.`) : "It gives nothing away.",
  player.losses.length ? "" : " In no state that the player can come to, and for which the " +
    "solver’s strategy has a row, does it guarantee less.");
}
function lossNotes(player) {
  const left = player.left ? `${count(player.left, "state")} of those to be listed ` +
    `${player.left === 1 ? "is" : "are"} not on this page. ` : "";
  const rest = Math.abs(player.rest) > 1e-6 && player.count > player.losses.length
    ? `${count(player.count - player.losses.length, "state")} that are not listed add ` +
      `${short(player.rest * D.unscaled)}. ` : "";
  const missing = player.missing ? `In ${count(player.missing, "state")} of the player’s plan ` +
    "the solver’s strategy has no row, since its own moves do not lead there: what is lost there " +
    "is counted where the player turned that way. " : "";
  return left + rest + missing;
}
function lossesPanel() {
  if (!D.compared) return null;
  const title = text => el("h2", {style: "display:inline"}, text);
  if (!D.players.length) return el("section", {class: "wide"}, title("The player"),
    el("p", {}, "Both reports have the same plans."));
  const [, sort, among] = SORTS[opened.sort];
  const sorted = LOSSES.filter(among).sort((a, b) => sort(b) - sort(a));
  const lines = opened.all ? sorted : sorted.slice(0, FEW);
  const toggle = ([text], at) => el("button", {"aria-pressed": String(opened.sort === at),
    class: "small", "data-sort": at, on: () => { opened.sort = at; render(); }},
  opened.sort === at ? el("b", {}, text) : text);
  const heads = ["", "State", "The player plays", "The solver plays", "Reached", "Lost here",
    "Adds", "From there on"].map((text, at) =>
    el("th", {scope: "col", class: at > 3 ? "right" : ""},
      text || el("span", {class: "hidden"}, "Number")));
  return el("section", {class: "wide", "aria-labelledby": "gives"},
    el("details", {id: "given", open: opened.given}, el("summary", {id: "gives"},
      title("Where the player loses")), D.players.map(lossSummary),
    LOSSES.length ? [el("p", {class: "small dim"}, "Against the reply that hurts it most. “Lost " +
      "here” is what the solver’s strategy guarantees in a state, less what it guarantees at the " +
      "states that follow (below 0 where the reply gives up something to win more later); “adds” " +
      "is that times the chance of coming there, and all states together add up to what is given " +
      `away. The ${D.listed} greatest of each way to sort are listed. A link leads to the state. `,
    D.players.map(lossNotes)),
    el("p", {class: "tools small"}, "Sort by ", SORTS.map(toggle)),
    el("table", {class: "losses"}, el("thead", {}, el("tr", {}, heads)),
      el("tbody", {}, lines.map(lossLine))),
    sorted.length > FEW ? el("button", {id: "all", on: () => {
      opened.all = !opened.all;
      render();
      $("all").focus();
    }}, opened.all ? `The first ${FEW} alone` : `All ${sorted.length}`) : null] : null));
}

// The whole page for the state where the reader is.
function held() {
  const at = document.activeElement && document.activeElement.dataset;
  if (!at) return null;
  if (document.activeElement === $("where")) return "#where";
  if (at.side !== undefined) return `[data-side="${at.side}"][data-move="${at.move}"]`;
  return at.cell !== undefined ? `[data-cell="${at.cell}"]`
    : at.sort !== undefined ? `[data-sort="${at.sort}"]` : at.draw !== undefined ? ".draws" : null;
}
function wherePanel(found, title) {
  const least = D.exact ? "" : "at least ";
  const reached = found.chance ? `Reached in ${least}${percent(found.chance)} of games between ` +
    "both strategies. " : D.exact ? "Both strategies together never come here. " : "";
  const below = (turns.length || first ? reached : "") +
    (D.game === "table" ? "" : `Key ${found.key}.`);
  return el("section", {class: "where"}, el("h2", {id: "where", tabindex: -1}, title),
    el("figure", {role: "group", "aria-label": described(found)}, picture(found)),
    below ? el("p", {class: "small dim", style: "margin:8px 0 0"}, below) : null,
    el("p", {class: "told", id: "message"}, told));
}
function renderTrail() {
  const crumbs = places.map((_, at) => {
    const before = at ? state(places[at - 1]) : null;
    const text = at ? turnName(before, turns[at - 1])
      : first ? `key ${D.states[first][0]}` : "Start";
    return el("li", {}, el("button", {"aria-current": at === places.length - 1 ? "step" : false,
      "aria-label": at ? `Turn ${at}: ${turnWords(before, turns[at - 1])}` : false,
      on: () => go(at)}, text));
  });
  $("trail").replaceChildren(...crumbs);
  $("trail").scrollLeft = $("trail").scrollWidth;
}
// The matrix fades out where more of it can be scrolled to.
function fade() {
  const box = document.querySelector(".scroll");
  if (!box) return;
  const left = box.scrollWidth - box.clientWidth - box.scrollLeft;
  box.classList.toggle("more", left > 1);
}
// What a screen reader is told of a step: how it went, where it led, and what is guaranteed there.
function spoken(found, title) {
  const last = turns.length - 1, [low, high] = bounds(found.place);
  const turn = last < 0 ? "" : `${turnWords(state(places[last]), turns[last])}. `;
  const ended = PAYS
    ? `the end pays One ${exact(low)}, and the turns ${pay(paidBefore() / D.unscaled)}`
    : `One gets ${exact(low)}`;
  const sure = words(low, high);
  return `${turn}${title}: ${described(found)}. ` + (found.end ? `The game is over, ${ended}. `
    : sure ? `${sure}${PAYS ? " from here on" : ""}. ` : "No rows here. ") + told;
}
function render() {
  const found = here(), focus = held();
  for (const box of document.querySelectorAll("details")) opened[box.id] = box.open;
  scrolled = lists().map(list => list.scrollTop);
  const title = turns.length ? found.end ? `After ${count(turns.length, "turn")}: the end`
    : `Turn ${turns.length + 1}` : first ? "Opened by a link" : "Start";
  const left = [wherePanel(found, title), found.end ? null : boundsPanel(found)];
  const right = found.end ? [endPanel(found)] : [
    el("div", {class: "sides"}, movesPanel(found, 0), movesPanel(found, 1)), drawsPanel(found),
    isWide(found) ? null : matrixPanel(found)];
  $("main").replaceChildren(el("div", {class: "grid"}, el("div", {class: "column"}, left),
    el("div", {class: "column"}, right), !found.end && isWide(found) ? matrixPanel(found) : null,
    lossesPanel()));
  renderTrail();
  $("back").disabled = !turns.length;
  $("home").disabled = !turns.length && !first;
  $("random").disabled = $("game").disabled = found.end;
  fade();
  scrollLists(found.place);
  const target = focus && (document.querySelector(focus) || document.querySelector("[data-side]"));
  if (focus) (target || $("where")).focus({preventScroll: true});
  $("live").textContent = spoken(found, title);
}

// Keys.
function arrows(key) {
  const at = document.activeElement.dataset || {}, found = here();
  if (found.end) return false;
  const dx = {ArrowRight: 1, ArrowLeft: -1}[key] || 0, dy = {ArrowDown: 1, ArrowUp: -1}[key] || 0;
  const clamp = (value, most) => Math.min(most, Math.max(0, value)), width = found.names[1].length;
  let wanted;
  if (at.cell !== undefined) {
    const one = clamp(Math.floor(at.cell / width) + dy, found.names[0].length - 1);
    wanted = `[data-cell="${one * width + clamp(at.cell % width + dx, width - 1)}"]`;
  } else if (at.draw !== undefined) {
    const most = document.querySelectorAll("[data-draw]").length - 1;
    wanted = `[data-draw="${clamp(Number(at.draw) + dx + dy, most)}"]`;
  } else {
    const begun = at.side !== undefined, side = begun ? clamp(Number(at.side) + dx, 1)
      : dx > 0 ? 1 : 0;
    const move = begun ? clamp(Number(at.move) + dy, found.names[side].length - 1) : 0;
    wanted = `[data-side="${side}"][data-move="${move}"]`;
  }
  document.querySelector(wanted).focus();
  return true;
}
const ACTS = {r: () => random(false), g: () => random(true), Home: home,
  b: () => { if (turns.length) go(turns.length - 1); },
  p: () => { if (D.players.length) $("player").checked = !$("player").checked; }};
document.addEventListener("keydown", event => {
  if (event.ctrlKey || event.metaKey || event.altKey || event.defaultPrevented) return;
  if (event.key.startsWith("Arrow") ? arrows(event.key)
    : ACTS[event.key] && (ACTS[event.key](), true)) event.preventDefault();
});
$("back").addEventListener("click", () => go(turns.length - 1));
$("home").addEventListener("click", home);
$("random").addEventListener("click", () => random(false));
$("game").addEventListener("click", () => random(true));
window.addEventListener("hashchange", arrive);
window.addEventListener("resize", fade);

// What does not change.
function footing() {
  const reached = `${D.exact ? "" : "at least "}${D.reached}`;
  const which = D.whole
    ? !D.inner ? "The game is over from the start. "
      : D.inner === 1 ? "This page has the one state with moves. "
      : `This page has all ${D.inner} states with moves that play can reach. `
    : `This page has ${D.inner} states with moves, not all of the game: ` +
      (D.reached > D.likely ? `${D.likely} of the ${reached} that both strategies reach ` +
        "together, the likeliest" : `the ${D.likely} that both strategies reach together`) +
      (D.first > D.likely ? `, ${D.first - D.likely} more where the player loses` : "") +
      (D.inner > D.first ? `, ${D.inner - D.first} more that follow these by any moves` : "") +
      ". A dashed cell of the matrix leads to a state that is not here; explore ";
  return [which, D.whole ? null : [el("span", {class: "num"}, "--most-states"),
    " makes a larger page. "], `The report has ${count(D.rows[0], "row")} of One and ` +
    `${D.rows[1]} of Two; probabilities are parts of ${D.weight}.`];
}
function begin() {
  const [low, high] = bounds(0);
  const unproved = (low === null ? WORST[0] : low) < D.lower ||
    (high === null ? WORST[1] : high) > D.upper;
  const notes = unproved && !state(0).end
    ? [...D.notes, "the rows at the start do not guarantee these bounds: check refuses the report"]
    : D.notes;
  $("about").textContent = D.about;
  $("value").textContent = D.lower === D.upper ? `Value ${exact(D.lower)}.`
    : `Value from ${safe(D.lower, 0)} to ${safe(D.upper, 1)}.`;
  fill($("notes"), {}, notes.map(note =>
    el("p", {class: "told"}, `Note: ${note.replace(/\.?$/, ".")}`)));
  $("line").hidden = !D.players.length;
  fill($("foot"), {}, footing());
  arrive();
}
begin();
