
// Why a tenant ended: the end and its cause, calls next to their source lines, and tags.

let sourceTexts = new Map(), chooseSource = null;

// The lines of the report that begin with the program's name, without it.
function saidLines(report) {
  const name = 'mte_run: ', lines = report.split('\n').filter(line => line.startsWith(name));
  return lines.map(line => line.slice(name.length));
}

// The line that says how the tenant ended, and for one that exited what it lost, if it was asked.
const OTHERS = /^(\d+ seeds: |statistics:|lost at the end|no tag differed|a request of|ended by|exited with)/;
const endLine = report => saidLines(report).find(line => !OTHERS.test(line));
const lostLine = report => saidLines(report).find(line => /^lost at the end: [1-9]/.test(line));

function showVerdict(run, report) {
  const isExit = run.status.kind === 'exit', verdict = find('verdict');
  const cause = run.cause || (isExit && lostLine(report)) || '';
  const isGood = isExit && run.status.code === 0 && !cause;
  verdict.className = isGood ? 'good' : isExit && !cause ? '' : 'bad';
  const steps = ', after ' + run.steps.toLocaleString('en') + ' steps';
  const end = isExit ? 'It exited with ' + run.status.code + steps
    : endLine(report) || run.status.kind + steps;
  find('cause').textContent = shown(cause);
  find('ended').textContent = shown(end);
}

// A number in as many digits as the report has.
const digits = text => '0x' + BigInt(text).toString(16).padStart(16, '0');

// A path has the same last part as a file that is there.
const lastPart = path => String(path).split('/').pop();
const sourceOf = frame => frame.file && sourceTexts.has(lastPart(frame.file))
  ? lastPart(frame.file) : null;

function frameText(frame) {
  const offset = frame.offset ? '+0x' + Number(frame.offset).toString(16) : '';
  const name = frame.function ? frame.function + offset : frame.address;
  const place = frame.file ? ' at ' + frame.file + ':' + frame.line : '';
  return name + place + (frame.inlined ? ' (inlined)' : '');
}

function showStack(title, frames, kind) {
  const part = put(find('stacks'), 'section', undefined, 'stack ' + kind);
  put(part, 'h3', title);
  const list = put(part, 'ol');
  list.start = 0;
  for (const frame of frames) {
    const item = put(list, 'li'), name = sourceOf(frame);
    if (name === null) put(item, 'span', frameText(frame), 'code');
    else putButton(item, frameText(frame), 'frame', () => showLine(name, frame.line, true));
  }
  if (!frames.length) put(part, 'p', 'No calls are known.', 'soft');
}

// The stacks of a run, each with a label for its source line.
function stacksOf(run) {
  const isExit = run.status.kind === 'exit';
  const found = isExit ? [] : [{title: 'Where it ended', why: 'ended here', frames: run.stack,
    kind: 'end'}];
  for (const chunk of run.chunks || []) {
    const about = chunk.size + ' bytes at ' + digits(chunk.pointer);
    found.push({title: 'Allocated: ' + about + ', by call ' + chunk.allocated.number + ' at step ' +
      chunk.allocated.step, why: 'allocated here', frames: chunk.allocated.stack, kind: 'made'});
    if (!chunk.freed) continue;
    found.push({title: 'Freed by call ' + chunk.freed.number + ' at step ' + chunk.freed.step,
      why: 'freed here', frames: chunk.freed.stack, kind: 'freed'});
  }
  if (run.last_store) {
    found.push({title: 'The target was written at step ' + run.last_store.step,
      why: 'written here', frames: run.last_store.stack, kind: 'made'});
  }
  return found;
}

// Whether a call is of a helper that most programs have: in a header, or an operator of C++.
const isHelper = frame => /\.h$/.test(sourceOf(frame)) || /^operator (new|delete)/.test(
  frame.function || '');

// Of each source file the lines to mark: of each stack the innermost call that is no helper.
function marksOf(stacks) {
  const marks = new Map();
  for (const {frames, kind, why} of stacks) {
    const known = frames.filter(sourceOf);
    const first = known.find(frame => !isHelper(frame)) || known[0];
    if (!first) continue;
    const name = sourceOf(first), lines = marks.get(name) || new Map();
    if (!lines.has(first.line)) lines.set(first.line, {kind, why});
    else lines.get(first.line).why += ', ' + why;
    marks.set(name, lines);
  }
  return marks;
}

function showSources(marks) {
  const area = find('source');
  area.replaceChildren();
  if (!sourceTexts.size) {
    const hint = 'Drop source files with the program to see them here.';
    put(area, 'p', hint, 'soft');
    return;
  }
  const list = put(area, 'div');
  list.setAttribute('role', 'tablist');
  list.setAttribute('aria-label', 'Source files');
  for (const name of sourceTexts.keys()) {
    const tab = put(list, 'button', name);
    tab.type = 'button';
    tab.setAttribute('role', 'tab');
    tab.setAttribute('aria-controls', 'source-text');
    tab.dataset.name = name;
  }
  const text = put(area, 'div', undefined, 'code');
  text.id = 'source-text';
  text.tabIndex = 0;
  text.setAttribute('role', 'tabpanel');
  chooseSource = makeTabs(list, tab => showText(text, tab.dataset.name, marks));
}

function showText(area, name, marks) {
  area.replaceChildren();
  area.setAttribute('aria-label', name);
  const marked = marks.get(name) || new Map();
  sourceTexts.get(name).replace(/\n$/, '').split('\n').forEach((line, index) => {
    const mark = marked.get(index + 1);
    const row = put(area, 'span', undefined, mark ? 'line mark ' + mark.kind : 'line');
    row.dataset.line = index + 1;
    put(row, 'b', index + 1);
    row.append(readable(line));
    if (mark) put(row, 'span', '  <- ' + mark.why, 'why');
  });
}

function showLine(name, line, isFocused) {
  const tabs = Array.from(find('source').querySelectorAll('[role=tab]'));
  const tab = tabs.find(it => it.dataset.name === name);
  if (!tab) return;
  chooseSource(tab);
  const area = find('source-text');
  const row = area.querySelector('[data-line="' + Number(line) + '"]');
  if (!row) return;
  if (isFocused && !row.classList.contains('mark')) row.classList.add('mark', 'made');
  area.scrollTop = row.offsetTop - area.offsetTop - area.clientHeight / 3;
  if (isFocused) area.focus({preventScroll: true});
}

// What a tag means, in words.
function tagText(cell, tag, run) {
  const place = '0x' + cell.toString(16) + ' to 0x' + (cell + 15n).toString(16) + ': ';
  if (tag === null) return place + 'no page with tags';
  const use = tag === 0 ? 'tag 0, as of headers and of bytes that no chunk has'
    : 'tag ' + tag.toString(16) + ': a pointer opens it that has tag ' + tag.toString(16) +
      ' in its bits 59 to 56';
  const status = run.status;
  const own = status.pointer_tag === undefined ? ''
    : status.pointer_tag === tag ? '; the pointer of the access has this tag'
      : '; the pointer of the access has tag ' + status.pointer_tag.toString(16);
  return place + use + own;
}

function showTags(run) {
  const area = find('tags');
  area.replaceChildren();
  if (!run.tags) return;
  put(area, 'h3', 'Tags of the memory there, a cell for 16 bytes');
  const cells = put(area, 'div'), about = put(area, 'p', 'Point at a cell, or reach it by Tab.',
    'soft');
  cells.id = 'cells';
  about.setAttribute('role', 'status');
  const first = BigInt(run.tags.from);
  const hit = run.status.address === undefined ? -1n
    : BigInt(run.status.address) & 0xfffffffffffff0n;
  run.tags.tags.forEach((tag, index) => {
    const place = first + BigInt(index) * 16n, text = tagText(place, tag, run);
    const kind = tag === null ? 'none' : 't' + tag.toString(16);
    const cell = putButton(cells, tag === null ? '.' : tag.toString(16),
      'cell ' + kind + (place === hit ? ' hit' : ''), () => { about.textContent = text; });
    cell.title = text;
    cell.setAttribute('aria-label', text);
    cell.onpointerenter = cell.onfocus = () => { about.textContent = text; };
  });
}

function showRun(run, report, sources) {
  sourceTexts = sources;
  find('stacks').replaceChildren();
  showVerdict(run, report);
  showTags(run);
  const stacks = stacksOf(run);
  for (const {title, frames, kind} of stacks) showStack(title, frames, kind);
  find('stacks').parentElement.classList.toggle('single', !stacks.length);
  const marks = marksOf(stacks);
  showSources(marks);
  const [name] = marks.keys(), [any] = sourceTexts.keys();
  if (name) showLine(name, Array.from(marks.get(name).keys())[0], false);
  else if (any) showLine(any, 1, false);
}
