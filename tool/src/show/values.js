// What is known of the run. D.v has a list for each cell: instants at which it changes,
// and the values that it then has, [0, 1, 1, 0, ..]. All of them were read from states
// that the product wrote.
const DELAY = 34;
const isControl = cell => D.cells[cell][0] >= 32 && D.cells[cell][0] <= 39;

// Where in a list the value at an instant stands.
function place(list, t) {
  let low = 0, high = list.length / 2 - 1;
  while (low < high) {
    const middle = (low + high + 1) >> 1;
    if (list[2 * middle] <= t) low = middle; else high = middle - 1;
  }
  return 2 * low;
}
const at = (list, t) => list[place(list, t) + 1];
const changes = (list, t) => t > 0 && list[place(list, t)] === t;
const value = (cell, t) => at(D.v[cell], t);

// For how many instants each pulse in a delay has been there: its input was high so
// long ago, and less long than the delay is.
function inside(cell, t) {
  const [, delay, input] = D.cells[cell];
  const ages = [];
  for (let age = 0; age < delay && age <= t; age++) if (value(input, t - age)) ages.push(age);
  return ages;
}
// The bits that a merge holds: 1 for that of its first input, 2 for that of its second.
const held = (cell, t) => cell in D.held ? at(D.held[cell], t) : 0;
const holds = (cell, t) => held(cell, t) > 0 || D.cells[cell][0] === DELAY && inside(cell, t).length > 0;
const active = (cell, t) => isControl(cell) && (value(cell, t) > 0 || holds(cell, t));

// A word; where its top bit is set, as a number below zero too.
const shown = word => word > 32767 && word < 65536 ? `${word} (${word - 65536})` : `${word}`;

// The instants at which something changes.
const events = [...new Set([D.v, Object.values(D.held), D.elements.map(e => e[1])].flat()
  .flatMap(list => list.filter((_, k) => k % 2 === 0)))].sort((a, b) => a - b);

const $ = id => document.getElementById(id);
function make(name, attributes, text) {
  const node = document.createElementNS('http://www.w3.org/2000/svg', name);
  for (const key in attributes) node.setAttribute(key, attributes[key]);
  if (text !== undefined) node.textContent = text;
  return node;
}
