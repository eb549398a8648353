// Waves: a row for each wire that was chosen, and a cursor at the instant.
const ROW = 24, TOP = 20;
let rows = [], pixels = 8;
const rowOf = cell => ({ key: `c${cell}`, name: D.names[cell], about: D.abouts[cell], list: D.v[cell], control: isControl(cell) });
const elementRow = k => ({ key: `e${k}`, name: D.elements[k][0], about: '', list: D.elements[k][1], control: false });
function toggleRow(row) {
  rows = rows.some(r => r.key === row.key) ? rows.filter(r => r.key !== row.key) : [...rows, row];
  paintWaves();
  paintCursor(now);
}
const toggle = cell => toggleRow(rowOf(cell));

const stretches = list => list.filter((_, k) => k % 2 === 0).map((from, k) =>
  [from, 2 * k + 2 < list.length ? list[2 * k + 2] : D.to + 1, list[2 * k + 1]]);
function paintRow(row, top) {
  if (row.control) {
    const path = stretches(row.list).map(([from, to, v], k) => {
      const y = top + (v ? 4 : 19);
      return `${k ? 'L' : 'M'}${from * pixels} ${y}L${to * pixels} ${y}`;
    });
    return [make('path', { class: 'control', d: path.join('') })];
  }
  return stretches(row.list).flatMap(([from, to, v]) => {
    const x = from * pixels, width = (to - from) * pixels, nodes = [make('rect', { class: 'band', x, y: top + 4, width, height: 15 })];
    if (`${v}`.length * 6.8 + 4 <= width) nodes.push(make('text', { x: x + 3, y: top + 16 }, v));
    return nodes;
  });
}
function paintWaves() {
  const picture = $('picture'), width = (D.to + 1) * pixels + 1, height = TOP + ROW * rows.length;
  for (const [key, v] of Object.entries({ width, height })) picture.setAttribute(key, v);
  const nodes = [];
  let step = 1;
  for (let k = 0; step * pixels < 46; k++) step = [1, 2, 5][k % 3] * 10 ** Math.floor(k / 3);
  for (let t = 0; t <= D.to; t += step) {
    nodes.push(make('line', { class: 'grid', x1: t * pixels, x2: t * pixels, y1: 14, y2: height }));
    nodes.push(make('text', { x: t * pixels + 2, y: 12 }, t));
  }
  rows.forEach((row, k) => nodes.push(...paintRow(row, TOP + ROW * k)));
  picture.replaceChildren(...nodes, make('rect', { id: 'cursor', y: 0, height, width: Math.max(1, pixels) }));
  $('labels').replaceChildren(...rows.map(row => {
    const label = document.createElement('div'), drop = document.createElement('a'), told = document.createElement('b');
    label.dataset.row = row.key;
    label.title = row.about;
    drop.textContent = '×';
    drop.onclick = () => toggleRow(row);
    label.append(drop, row.name, told);
    return label;
  }));
}
function paintCursor(t) {
  $('cursor').setAttribute('x', t * pixels);
  rows.forEach((row, k) => { $('labels').children[k].lastChild.textContent = shown(at(row.list, t)); });
  const pane = $('waves'), labels = $('labels').offsetWidth, x = t * pixels;
  if (x < pane.scrollLeft || x > pane.scrollLeft + pane.clientWidth - labels - 2 * pixels) pane.scrollLeft = x - (pane.clientWidth - labels) / 3;
}
$('picture').addEventListener('click', event => show(Math.floor((event.clientX - $('picture').getBoundingClientRect().left) / pixels)));
const stretch = to => { pixels = Math.min(40, Math.max(0.5, to)); paintWaves(); paintCursor(now); };
$('narrower').onclick = () => stretch(pixels / 1.5);
$('wider').onclick = () => stretch(pixels * 1.5);
$('whole').onclick = () => stretch(($('waves').clientWidth - $('labels').offsetWidth - 4) / (D.to + 1));
$('none').onclick = () => { rows = []; paintWaves(); };
$('first').onclick = () => { rows = D.rows.map(rowOf); paintWaves(); paintCursor(now); };
