// Buttons, keys, pointer, address.
const KINDS = ['refusal', 'crash', 'quiet'];

// The frames with a property, and the next of them or the one before.
const placesOf = (has) => data.moments.flatMap((moment, at) => (has(moment) ? [at] : []));
const nextOf = (places, step) => (step > 0 ? places.find((at) => at > now) : places.filter((at) => at < now).pop());

function jumpTo(kind, step) {
  const at = nextOf(placesOf((moment) => moment.is.includes(kind)), step);
  part('found').textContent = at === undefined ? 'no ' + (step > 0 ? 'further ' : 'earlier ') + kind : '';
  if (at !== undefined) show(at);
}

// Round the end; in class mode what is hidden is not searched.
function find(step) {
  const wanted = part('find').value.trim().toLowerCase();
  if (wanted === '') return;
  const said = (moment) => (asking ? question(moment) : [moment.head, ...moment.text].join('\n'));
  const places = placesOf((moment) => said(moment).toLowerCase().includes(wanted));
  const at = nextOf(places, step) ?? places.at(step > 0 ? 0 : -1);
  part('found').textContent = at === undefined ? 'nowhere' : places.indexOf(at) + 1 + ' of ' + places.length;
  if (at !== undefined) show(at);
}

function openNumber(text) {
  if (!/^\d+$/.test(text)) return false;
  show(Number(text) - 1);
  return true;
}

part('back').addEventListener('click', () => show(now - 1));
part('next').addEventListener('click', next);
part('smaller').addEventListener('click', () => zoomBy(1 / STEP));
part('larger').addEventListener('click', () => zoomBy(STEP));
part('fit').addEventListener('click', () => {
  fit();
  keepInSight();
});
part('class').addEventListener('click', () => ask(!asking));
part('more').addEventListener('click', () => {
  const on = part('tools').classList.toggle('open');
  part('more').setAttribute('aria-expanded', String(on));
});
for (const kind of KINDS) part(kind).addEventListener('click', () => jumpTo(kind, 1));
part('go').addEventListener('keydown', (event) => {
  if (event.key !== 'Enter') return;
  if (openNumber(event.target.value.trim())) event.target.blur();
  else event.target.select();
});
part('find').addEventListener('keydown', (event) => {
  if (event.key === 'Enter') find(event.shiftKey ? -1 : 1);
});

function focusOn(id) {
  part('tools').classList.add('open');
  part(id).focus();
  part(id).select();
}

const DOES = {
  ArrowRight: next,
  ArrowDown: next,
  ArrowLeft: () => show(now - 1),
  ArrowUp: () => show(now - 1),
  Home: () => show(0),
  End: () => show(count - 1),
  '+': () => zoomBy(STEP),
  '=': () => zoomBy(STEP),
  '-': () => zoomBy(1 / STEP),
  0: () => part('fit').click(),
  g: () => focusOn('go'),
  '/': () => focusOn('find'),
  n: () => find(1),
  N: () => find(-1),
  h: () => ask(!asking),
};
for (const kind of KINDS) {
  DOES[kind[0]] = () => jumpTo(kind, 1);
  DOES[kind[0].toUpperCase()] = () => jumpTo(kind, -1);
}

document.addEventListener('keydown', (event) => {
  if (event.ctrlKey || event.altKey || event.metaKey) return;
  const at = event.target;
  if (at.matches('input')) {
    if (event.key === 'Escape') at.blur();
    return;
  }
  // The panel scrolls by itself where it has the focus; a button is pressed with Space.
  if (['ArrowUp', 'ArrowDown'].includes(event.key) && part('side').contains(at)) return;
  const opens = event.key === ' ' && !open && !at.matches('button, summary');
  const does = opens ? next : DOES[event.key];
  if (does === undefined) return;
  event.preventDefault();
  does();
});
picture.addEventListener('click', (event) => {
  const y = new DOMPoint(event.clientX, event.clientY).matrixTransform(svg.getScreenCTM().inverse()).y;
  const at = data.rows.findIndex(([top, height]) => top <= y && y < top + height);
  // In class mode what is still to come is no place to go to.
  if (at >= 0 && part('rows').contains(event.target) && !(asking && at > now)) show(at);
});
picture.addEventListener('mouseover', (event) => {
  if (asking) return;
  const packet = event.target.closest('.packet');
  part('packet').textContent = packet ? packet.querySelector('title').textContent : HINT;
});
window.addEventListener('hashchange', () => openNumber(location.hash.slice(1)));
window.addEventListener('resize', () => {
  if (fitted) fit();
  keepInSight();
});
fit();
if (!openNumber(location.hash.slice(1))) show(0);
