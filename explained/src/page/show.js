// Shows one moment at a time: its row in the picture, its words, the state after it.
const HINT = 'Point at a packet of the picture: what it says stands here.';
const ASKED = 'Which line, and why? Space or Next shows it.';
const HIDDEN = 'Hidden in class mode.';
const row = shape('rect', { x: 0, width: wide, fill: '#ffd54a', 'fill-opacity': '0.28', 'pointer-events': 'none' });
// In class mode the picture ends with the frame that is shown, or with the question that it asks.
const covers = [data.answers, 0].map((x) => shape('rect', { x, width: wide - x, fill: '#fff' }));
if (count > 0) svg.append(marks, ...covers, row);

let now = 0;
// Class mode: is it on, and is the answer to the frame open?
let asking = false;
let open = true;

function showState(title, sections) {
  const shown = [];
  for (const [title, entries] of sections) {
    shown.push(line('h3', title));
    if (entries.length === 0) shown.push(line('p', '  nothing'));
    for (const [sign, text] of entries) {
      shown.push(line('p', sign + ' ' + text, { '*': 'new', '-': 'gone' }[sign]));
    }
  }
  part('moment').textContent = title;
  part('state').replaceChildren(...shown);
}

// What stood before a frame: what stands after the one before it, without signs of what that one changed.
function stateBefore(at) {
  if (at === 0) return [];
  const stays = (entries) => entries.filter(([sign]) => sign !== '-').map(([, text]) => [' ', text.replace(/ \(before: .*\)$/, '')]);
  return data.moments[at - 1].state.map(([title, entries]) => [title, stays(entries)]);
}

// The frame without its line.
const question = (moment) => moment.head.slice(0, moment.head.lastIndexOf('  ->  '));

function showAnswer(moment) {
  part('head').textContent = moment.head;
  part('text').replaceChildren(...moment.text.map((text) => line('p', text)));
  showState('What stands', moment.state);
  if (asking) hideOrder(HIDDEN);
  else showOrder(now);
}

function showQuestion(moment) {
  part('head').textContent = question(moment);
  part('text').replaceChildren(line('p', ASKED, 'key'));
  showState('What stands before it', stateBefore(now));
  hideOrder(HIDDEN);
}

// Covers the answers of this frame and all that comes after it.
function cover(top, height) {
  const [answer, rest] = covers;
  answer.setAttribute('y', top);
  answer.setAttribute('height', asking && !open ? height : 0);
  // Half a line over the row's edge, so that nothing shines through.
  rest.setAttribute('y', top + height - 0.5);
  rest.setAttribute('height', asking ? Math.max(0, svg.viewBox.baseVal.height - top - height) : 0);
  picture.classList.toggle('hidden', asking);
}

function keepInSight() {
  if (count > 0) scrollTo(row.getBoundingClientRect(), asking && !open ? 0 : data.rows[now][2]);
}

// The address follows. A browser allows only so many changes in a time, and refuses more with an error or without: then it follows later.
let later = 0;
function setAddress() {
  clearTimeout(later);
  const address = '#' + (now + 1);
  try {
    history.replaceState(null, '', address);
  } catch {}
  if (location.hash !== address) later = setTimeout(setAddress, 500);
}

function render() {
  if (count === 0) {
    part('place').textContent = 'the list is empty';
    part('order').textContent = untold;
    return;
  }
  const moment = data.moments[now];
  part('place').textContent = 'frame ' + (now + 1) + ' of ' + count;
  if (open) showAnswer(moment);
  else showQuestion(moment);
  part('packet').textContent = asking ? HIDDEN : HINT;
  part('back').disabled = now === 0;
  part('next').disabled = open && now === count - 1;
  const [top, height] = data.rows[now];
  row.setAttribute('y', top);
  row.setAttribute('height', height);
  cover(top, height);
  keepInSight();
  setAddress();
}

// In class mode a later frame is asked anew, an earlier one was answered.
function show(at) {
  const to = Math.max(0, Math.min(count - 1, at));
  if (to !== now) open = !asking || to < now;
  now = to;
  render();
}

// The answer first, if it is still hidden.
function next() {
  if (open) return show(now + 1);
  open = true;
  render();
}

function ask(on) {
  asking = on;
  open = !on;
  part('class').setAttribute('aria-pressed', String(on));
  render();
}

