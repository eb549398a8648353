// The circuit: pulses on wires, dots inside delays, frames that fold.
const svg = document.querySelector('#circuit svg');
const parts = new Map(); // for each cell its wires, flags and box
const part = cell => parts.get(cell) || parts.set(cell, []).get(cell);
for (const path of svg.querySelectorAll('path[id^=w]')) {
  const cell = parseInt(path.id.slice(1));
  part(cell).push(path);
  const hit = make('path', { d: path.getAttribute('d'), class: 'hit' });
  hit.dataset.cell = cell;
  path.after(hit);
}
for (const node of svg.querySelectorAll('[class^=w]')) part(parseInt(node.getAttribute('class').slice(1))).push(node);
const boxes = new Map();
for (const box of svg.querySelectorAll('rect[id^=c]')) {
  const cell = parseInt(box.id.slice(1));
  part(cell).push(box);
  boxes.set(cell, box);
}
if ($('finish')) part(D.finish).push($('finish'));
const number = (node, name) => parseFloat(node.getAttribute(name));
const edges = node => ({ left: number(node, 'x'), top: number(node, 'y'), width: number(node, 'width'), height: number(node, 'height') });

// Frames, with what lies in each.
const covers = make('g', { id: 'covers' }), dots = make('g', { id: 'dots' });
const extents = [...svg.children].map(node => [node, node.getBBox()]);
const frames = [...svg.querySelectorAll('rect[id^=f]')].filter(node => node.id !== 'finish').map(border => {
  const own = edges(border), title = $('t' + border.id.slice(1));
  const lies = box => box.x > own.left && box.y > own.top && box.x + box.width < own.left + own.width && box.y + box.height < own.top + own.height;
  const nodes = extents.filter(([node, box]) => node !== title && lies(box)).map(([node]) => node);
  const cells = [...boxes].filter(([, box]) => nodes.includes(box)).map(([cell]) => cell);
  return { border, title, own, nodes, cells, folded: false, cover: null };
});
svg.append(covers, dots);

function fold(frame) {
  frame.folded = !frame.folded;
  const gone = new Set(frames.filter(f => f.folded).flatMap(f => f.nodes));
  for (const [node] of extents) node.classList.toggle('gone', gone.has(node));
  covers.replaceChildren();
  for (const f of frames) {
    f.cover = null;
    if (!f.folded || gone.has(f.border)) continue;
    const { left, top, width, height } = f.own;
    f.cover = make('rect', { x: left, y: top, width, height, rx: 5, 'data-frame': f.border.id });
    const cells = f.cells.length === 1 ? ' (1 cell)' : ` (${f.cells.length} cells)`;
    const title = `▸ ${f.title.textContent}`, fits = (title + cells).length * 6.1 + 8 < width;
    covers.append(f.cover, make('text', { x: left + 5, y: top + 12, 'font-size': 10 }, fits ? title + cells : title));
  }
  show(now);
}
const frameOf = node => frames.find(f => f.border === node || f.title === node || f.cover === node);
const cellOf = node => {
  if (node.dataset.cell) return parseInt(node.dataset.cell);
  if (node.id === 'finish') return D.finish;
  const found = /^[cw](\d+)/.exec(node.id) || /^w(\d+)/.exec(node.getAttribute('class') || '');
  return found ? parseInt(found[1]) : null;
};
svg.addEventListener('click', event => {
  const frame = frameOf(event.target), cell = cellOf(event.target);
  if (frame) fold(frame); else if (cell !== null) toggle(cell);
});
svg.addEventListener('mouseover', event => {
  const cell = cellOf(event.target);
  $('under').textContent = cell === null ? '' : `${D.names[cell]} = ${shown(value(cell, now))}   ${D.abouts[cell]}`;
});

function paintCircuit(t) {
  for (const [cell, nodes] of parts) {
    const high = isControl(cell) && value(cell, t) > 0, fresh = !isControl(cell) && changes(D.v[cell], t);
    for (const node of nodes) { node.classList.toggle('high', high); node.classList.toggle('fresh', fresh); }
    if (boxes.has(cell)) boxes.get(cell).classList.toggle('holds', isControl(cell) && holds(cell, t));
  }
  const drawn = [];
  for (const [cell, box] of boxes) {
    if (box.classList.contains('gone')) continue;
    const { left, top, width, height } = edges(box);
    const dot = (x, y, more) => drawn.push(make('circle', { cx: x, cy: y, r: 4.2 / Math.sqrt(Math.min(1, factor)), 'data-in': cell, ...more }));
    if (D.cells[cell][0] === DELAY) for (const age of inside(cell, t)) dot(left + 7 + (width - 14) * age / D.cells[cell][1], top + height - 4, { 'data-age': age });
    const bits = held(cell, t);
    if (bits & 1) dot(left + 7, top + height / 4, { class: 'held', 'data-held': 'a' });
    if (bits & 2) dot(left + 7, top + 3 * height / 4, { class: 'held', 'data-held': 'b' });
  }
  dots.replaceChildren(...drawn);
  for (const frame of frames) {
    const on = frame.cells.some(cell => active(cell, t));
    frame.border.classList.toggle('on', on);
    if (frame.cover) frame.cover.classList.toggle('on', on);
  }
}

// Zoom: the picture's own size times a factor, or as large as fits.
const size = { width: number(svg, 'width'), height: number(svg, 'height') };
let factor = 1;
function zoom(to) {
  factor = Math.min(3, Math.max(0.1, to));
  svg.setAttribute('width', size.width * factor);
  svg.setAttribute('height', size.height * factor);
  dots.querySelectorAll('circle').forEach(dot => dot.setAttribute('r', 4.2 / Math.sqrt(Math.min(1, factor))));
  $('factor').textContent = `${Math.round(100 * factor)} %`;
}
const fit = () => zoom(Math.min(1.25, $('circuit').clientWidth / size.width, Math.max(0.35, $('circuit').clientHeight / size.height)));
$('out').onclick = () => zoom(factor / 1.25);
$('in').onclick = () => zoom(factor * 1.25);
$('fit').onclick = fit;
$('foldall').onclick = () => {
  const open = frames.filter(f => !f.folded);
  const inner = open.filter(f => !f.border.classList.contains('gone') && !frames.some(g => g !== f && g.folded && g.nodes.includes(f.border)));
  for (const f of inner) if (!frames.some(g => g !== f && f.nodes.includes(g.border))) fold(f);
};
$('unfold').onclick = () => { for (const f of frames) if (f.folded) fold(f); };
