// What came before a processing and after it.
const works = Array.isArray(data.works) ? data.works : [];
// The words why nothing of it is told.
const untold = works === data.works ? 'The list has no processing.' : data.works;
const GO = 'Go to an accepted work: what came before it and after it stands here, and is marked in the picture.';
const KEY = 'In the picture: thick frames came before it, dashed ones after it, thin ones are its own.';
const BEFORE = { stroke: '#00695c', 'stroke-width': 2.5, fill: 'none' };
const OWN = { stroke: '#222', 'stroke-width': 1, fill: 'none' };
const AFTER = { stroke: '#bf360c', 'stroke-width': 2.5, fill: 'none', 'stroke-dasharray': '7 4' };
const marks = shape('g', { 'pointer-events': 'none', 'aria-hidden': 'true' });

// A processing's clock says how many of each chare's came before it.
const precedes = (one, other) => one.tn <= other.clock[one.chare - 1];

// Round every mark of a processing; one that is folded away has a place on its lane, and no width.
function framed(work, look) {
  return work.marks.map(([x, y, width]) => shape('rect', { x: x - width / 2 - 5, y: y - 11, width: width + 10, height: 22, rx: 5, ...look }));
}

// From where one was first done to where the other was; on one lane round what stands between. Two may be folded into one place.
function arrow([[x1, y1, w1]], [[x2, y2, w2]], look) {
  if (x1 === x2 && y1 === y2) return [];
  const [ax, ay, bx, by] = x1 === x2 ? [x1 + w1 / 2 + 5, y1, x2 + w2 / 2 + 5, y2] : [x1, y1 + 11, x2, y2 - 11];
  const [cx, cy] = [x1 === x2 ? Math.max(ax, bx) + 60 : (ax + bx) / 2, (ay + by) / 2];
  const turn = (Math.atan2(by - cy, bx - cx) * 180) / Math.PI;
  return [
    shape('path', { d: `M${ax} ${ay}Q${cx} ${cy} ${bx} ${by}`, ...look }),
    shape('polygon', { points: '0,0 -13,-6 -13,6', transform: `translate(${bx} ${by}) rotate(${turn})`, fill: look.stroke }),
  ];
}

// Buttons that go along arrows.
function way(title, others) {
  const made = line('p', title, 'way');
  for (const other of others) {
    const go = line('button', other.chare + ':' + other.tn);
    go.type = 'button';
    go.addEventListener('click', () => {
      show(other.frames[0]);
      part('order').focus();
    });
    made.append(' ', go);
  }
  return made;
}

// In words and in the picture.
function showOrder(frame) {
  const work = works.find((one) => one.frames.includes(frame));
  if (!work) {
    hideOrder(works.length > 0 ? GO : untold);
    return;
  }
  const place = works.indexOf(work);
  const from = work.from.map((at) => works[at]);
  const to = works.filter((one) => one.from.includes(place));
  part('order').replaceChildren(
    ...work.text.map((text) => line('p', text)),
    line('p', KEY, 'key'),
    way(from.length ? 'Arrows from' : 'No arrow comes to it.', from),
    way(to.length ? 'Arrows to' : 'No arrow goes from it.', to),
  );
  marks.replaceChildren(
    ...framed(work, OWN),
    ...works.filter((one) => precedes(one, work)).flatMap((one) => framed(one, BEFORE)),
    ...works.filter((one) => precedes(work, one)).flatMap((one) => framed(one, AFTER)),
    ...from.flatMap((one) => arrow(one.marks, work.marks, BEFORE)),
    ...to.flatMap((one) => arrow(work.marks, one.marks, AFTER)),
  );
}

function hideOrder(words) {
  part('order').replaceChildren(line('p', words));
  marks.replaceChildren();
}

