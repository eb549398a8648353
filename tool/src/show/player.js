// The instant that is shown, and how it moves; the source and the words at it.
let now = 0, playing = null;
const statements = [...document.querySelectorAll('#source span')].map(node => ({
  node,
  cells: (node.dataset.cells || '').split(' ').filter(Boolean).map(Number),
  start: node.dataset.start === undefined ? null : Number(node.dataset.start),
}));
function paintSource(t) {
  for (const { node, cells, start } of statements) {
    const on = cells.some(cell => active(cell, t)) || start !== null && value(start, t) > 0;
    node.classList.toggle('on', on);
  }
  for (const { node } of statements) node.classList.toggle('in', node.querySelector('.on') !== null);
}
const stores = [];
function addStore(name, list, row) {
  const node = document.createElement('span'), told = document.createElement('b'), said = document.createElement('i');
  said.textContent = `${name} `;
  node.dataset.word = name;
  node.append(said, told);
  node.onclick = () => toggleRow(row());
  $('store').append(node);
  stores.push({ node, told, list });
}
for (const [name, cell] of D.words) addStore(name, D.v[cell], () => rowOf(cell));
D.elements.forEach(([name, list], k) => addStore(name, list, () => elementRow(k)));
addStore('in flight', D.flight, () => ({ key: 'flight', name: 'in flight', about: '', list: D.flight, control: false }));
function paintStore(t) {
  for (const { node, told, list } of stores) {
    told.textContent = shown(at(list, t));
    node.classList.toggle('fresh', changes(list, t));
  }
}

function show(t) {
  now = Math.max(0, Math.min(D.to, t));
  $('slider').value = now;
  $('instant').textContent = now;
  $('ended').textContent = value(D.finish, now) ? 'finish' : '';
  paintCircuit(now);
  paintSource(now);
  paintStore(now);
  paintCursor(now);
}
const next = t => events.find(e => e > t) ?? D.to;
const before = t => [...events].reverse().find(e => e < t) ?? 0;
function stop() { clearInterval(playing); playing = null; $('play').textContent = '▶'; }
function play() {
  if (playing !== null) return stop();
  if (now === D.to) show(0);
  $('play').textContent = '❚❚';
  playing = setInterval(() => { if (now >= D.to) stop(); else show(now + 1); }, 1000 / Number($('speed').value));
}
const moves = {
  start: () => show(0), back: () => show(before(now)), less: () => show(now - 1), play,
  more: () => show(now + 1), ahead: () => show(next(now)), end: () => show(D.to),
};
for (const id in moves) $(id).onclick = moves[id];
$('speed').onchange = () => { if (playing !== null) { stop(); play(); } };
$('slider').addEventListener('input', () => show(Number($('slider').value)));
document.addEventListener('keydown', event => {
  if (['INPUT', 'SELECT'].includes(event.target.tagName) && event.key !== ' ') return;
  const keys = { ArrowLeft: event.shiftKey ? 'back' : 'less', ArrowRight: event.shiftKey ? 'ahead' : 'more', Home: 'start', End: 'end', ' ': 'play' };
  if (keys[event.key]) { event.preventDefault(); moves[keys[event.key]](); }
});
rows = D.rows.map(rowOf);
paintWaves();
fit();
stretch(Math.min(18, Math.max(3, ($('waves').clientWidth - $('labels').offsetWidth - 20) / (D.to + 1))));
show(Number((/\d+/.exec(location.hash) || ['0'])[0]));
