
// The picture of a session's frames: what each holds after an event, and what it held before. It is
// drawn of the lines of session_frames, which are those of the host.

const MOVE = /^(\d+) (\d+) ([-+]) (\d+) (\d+)(?: (\w+))?$/;
const MOST_CELLS = 600, COLOURS = 15;

// The moves of a session in their order: at an event a page of a tenant comes into a frame, or
// leaves it.
function movesOf(text) {
  return text.split('\n').map(line => MOVE.exec(line)).filter(it => it).map(
    ([, event, id, sign, frame, page, place]) => ({event: Number(event), id, comes: sign === '+',
      frame: Number(frame), page: Number(page), place}));
}

// The frames that held a page up to an event: what each holds, and what it held before.
function framesAfter(moves, event) {
  const frames = new Map();
  for (const it of moves.filter(move => move.event <= event)) {
    const own = frames.get(it.frame) || {frame: it.frame, now: null, before: []};
    if (own.now) own.before.push({...own.now, until: it.event});
    own.now = it.comes ? {id: it.id, page: it.page, place: it.place, since: it.event} : null;
    frames.set(it.frame, own);
  }
  return [...frames.values()].sort((one, other) => one.frame - other.frame);
}

const pageText = it => '0x' + (it.page * 4096).toString(16) + ' (' + it.place + ') of tenant ' +
  it.id;

function heldText({frame, now, before}) {
  const held = before.map(it => pageText(it) + ' from event ' + it.since + ' to ' + it.until);
  return 'Frame ' + frame + ': ' + (now ? 'the page ' + pageText(now) + ' since event ' + now.since
    : 'free') + (held.length ? '; before that ' + held.reverse().join(', ') : '');
}

// The tenants that a frame was of before, but for the one that has it.
const otherOwners = it => [...new Set(it.before.map(held => held.id))].filter(
  id => !it.now || id !== it.now.id);

// How many frames were of which tenant before, in words.
function ownersText(frames) {
  const counts = new Map();
  for (const id of frames.flatMap(otherOwners)) counts.set(id, (counts.get(id) || 0) + 1);
  const parts = [...counts].map(([id, count]) => 'tenant ' + id + ' had ' + count);
  return parts.length ? '; ' + parts.join(', ') + ' of them before' : '';
}

function putFrames(area, title, frames, about, colourOf) {
  put(area, 'h4', title + ': ' + frames.length + ownersText(frames));
  const cells = put(area, 'div', undefined, 'pages');
  for (const it of frames.slice(0, MOST_CELLS)) {
    const others = otherOwners(it), text = heldText(it), own = it.now ? it.now.place : 'free';
    const cell = putButton(cells, own.charAt(0), 'cell ' + (it.now ? colourOf(it.now.id) : 'none'),
      () => { about.textContent = text; });
    for (const id of others.slice(-1)) put(cell, 'sub', id, 'was ' + colourOf(id));
    cell.tabIndex = -1;
    cell.title = text;
    cell.setAttribute('aria-label', text);
    cell.onpointerenter = () => { about.textContent = text; };
  }
  const more = frames.length - MOST_CELLS;
  if (more > 0) put(area, 'p', 'and ' + more + ' more', 'soft');
}

// Draws the frames after an event: a row a tenant, and one of those that are free again.
function drawFrames(area, moves, order, event) {
  area.replaceChildren();
  const frames = framesAfter(moves, event);
  const colourOf = id => 't' + (order.indexOf(id) % COLOURS + 1).toString(16);
  const about = document.createElement('p');
  about.className = 'soft';
  about.textContent = 'A cell is a frame: i holds a page of the image, h of the heap, s of the ' +
    'stack. A small number is the tenant that had it last before. Point at one.';
  for (const id of order) {
    const own = frames.filter(it => it.now && it.now.id === id);
    if (own.length) putFrames(area, 'Frames of tenant ' + id, own, about, colourOf);
  }
  const free = frames.filter(it => !it.now);
  if (free.length) putFrames(area, 'Free again', free, about, colourOf);
  area.append(about);
}

// The picture with the slider that chooses the event.
function showFrames(area, moves, events, order) {
  area.replaceChildren();
  if (!moves.length) return;
  put(area, 'h3', 'Frames: whose they are, and whose they were');
  const row = put(area, 'div', undefined, 'row'), label = put(row, 'label', 'After event ');
  const slider = put(row, 'input'), picture = put(area, 'div', undefined, 'frames');
  slider.type = 'range';
  slider.id = 'event';
  label.htmlFor = 'event';
  [slider.min, slider.max] = ['0', String(events.length)];
  slider.value = slider.max;
  const said = put(row, 'output');
  slider.oninput = () => {
    const event = Number(slider.value);
    said.textContent = event ? event + ': ' + shown(events[event - 1].join(' ')) : 'none';
    drawFrames(picture, moves, order, event);
  };
  slider.oninput();
}
