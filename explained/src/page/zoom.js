// The picture's size. Its type is 12 high at full size, and never less than 9.
const LEAST = 0.76;
const MOST = 4;
const STEP = 1.25;
const wide = svg.viewBox.baseVal.width;
const pictures = [svg, part('heads').querySelector('svg')];
let zoom = 1;
// As wide as the window, until somebody wants another size.
let fitted = true;

// Where there is room, the columns at the left stay in view.
const columns = [part('columns'), part('names')];
const taken = columns[0].querySelector('rect').width.baseVal.value;
const stay = () => picture.clientWidth > 3 * taken * LEAST;

function keepColumns() {
  const x = stay() ? picture.scrollLeft / zoom : 0;
  for (const one of columns) one.setAttribute('transform', `translate(${x} 0)`);
}

function setZoom(to) {
  zoom = Math.min(MOST, Math.max(LEAST, to));
  for (const one of pictures) one.style.width = wide * zoom + 'px';
  part('zoom').textContent = Math.round(zoom * 100) + ' %';
  part('smaller').disabled = zoom === LEAST;
  part('larger').disabled = zoom === MOST;
  keepColumns();
}

function fit() {
  fitted = true;
  setZoom(Math.min(1.25, picture.clientWidth / wide));
}

function zoomBy(factor) {
  fitted = false;
  setZoom(zoom * factor);
  keepInSight();
}

// Keeps a place of the picture in sight, below the names of the lanes, without moving the rest of the page.
function scrollTo(area, x) {
  const frame = picture.getBoundingClientRect();
  const names = part('heads').getBoundingClientRect().height;
  if (area.top < frame.top + names || area.bottom > frame.top + picture.clientHeight) {
    picture.scrollTop += area.top - frame.top - names - (picture.clientHeight - names) / 3;
  }
  const left = stay() ? taken * zoom : 0;
  const room = Math.min(100, (picture.clientWidth - left) / 4);
  const [least, most] = [x * zoom + room - picture.clientWidth, x * zoom - room - left];
  picture.scrollLeft = Math.min(most, Math.max(least, picture.scrollLeft));
}

picture.addEventListener('scroll', keepColumns);

