
// A session of several tenants: its script, which may be edited; its report and frames as the host
// says them; and of each tenant why it ended. For that each is run alone by the script, which gives
// its lines of the report once more.

const ALONE = ['seed', 'seeds', 'async', 'steps', 'slices', 'pages', 'out'];
const MOST_FRAMES = '65536', MOST_TURNS = 60;
let linesBefore = new Map(), sessionRuns = new Map(), sessionMoves = [];

const scriptOf = () => subject.files.find(file => file.role === 'script');
const looksLikeScript = bytes =>
  /^(\s*#.*\n|\s*\n)*admit \d/.test(decoder.decode(bytes.subarray(0, 4000)));
const chosenFrames = () => scriptOf() ? {frames: find('frames').value.trim()} : {};

// The events of a script, each with its words, and the identifiers that they name.
const eventsOf = text => text.split('\n').filter(line => /^(admit|slice|stop) /.test(line)).map(
  line => line.split(' '));
const namedIn = events => [...new Set(events.map(it => it[1]))].filter(it => /^\d{1,9}$/.test(it));

// The files of the session, with names of their own.
function sessionFiles() {
  const files = [['the-script', encoder.encode(find('script').value)]];
  subject.files.filter(file => file.role === 'file').forEach((file, index) =>
    files.push([(index + 1) + '-' + plainName(file.name), file.bytes]));
  return files;
}

// What runs the session, and one of its tenants alone.
function wholeRequest() {
  const files = sessionFiles(), names = files.map(([name]) => name);
  return {program: 'session_frames', words: [find('frames').value.trim(), ...names], files,
    made: []};
}
function sessionRequest(id, made) {
  const chosen = chosenOptions(), files = sessionFiles();
  for (const name of ALONE) delete chosen[name];
  const words = ['--script', 'the-script', id, '--frames', find('frames').value.trim(),
    ...files.slice(1).map(([name]) => name)];
  for (const name of made) words.push('--' + name, 'run.' + name);
  return {words: [...words, ...wordsOf(chosen)], files, made: made.map(name => 'run.' + name)};
}

async function startSession() {
  const script = find('script').value, events = eventsOf(script), ends = new Map();
  const ids = namedIn(events);
  scriptOf().bytes = encoder.encode(script);
  if (!ids.length) return showState('The script has no event');
  sessionModule ||= await WebAssembly.compile(archive.get('session.wasm'));
  const whole = (await timedRun(wholeRequest(), () => {})).end;
  if (whole === null) return showStop();
  for (const id of ids) {
    const {end} = await timedRun(sessionRequest(id, ['json']), () => {});
    if (end === null) return showStop();
    ends.set(id, end);
  }
  sessionRuns = ends;
  showSession(events, ids, whole);
  document.body.dataset.first ||= performance.now();
  document.body.dataset.status = 'session';
  return undefined;
}

const reportOf = end => decoder.decode(new Uint8Array(
  end.texts[1].parts.flatMap(part => Array.from(part))));

const hasRun = id => Boolean(sessionRuns.get(id).made && sessionRuns.get(id).made['run.json']);
const isRefused = line => line.startsWith('refused ');
// The lines of a report, without those of refused events.
const linesOf = report => report.split('\n').filter(line => !isRefused(line)).join('\n');

// The tenants of a report, in the order of their admissions, each with its lines.
function tenantsIn(report) {
  const parts = linesOf(report).split(/^(?=tenant )/m).filter(it => it);
  return new Map(parts.map(lines => [/^tenant (\d+)/.exec(lines)[1], lines]));
}

function showSession(events, ids, whole) {
  const area = find('tenants'), report = reportOf(whole), lines = tenantsIn(report);
  sessionMoves = movesOf(whole.texts[2].parts.map(part => decoder.decode(part)).join(''));
  const order = [...lines.keys(), ...ids.filter(id => !lines.has(id))];
  area.replaceChildren();
  showFrames(find('host-frames'), sessionMoves, events, order);
  showTurns(area, events, order);
  for (const id of order) showLines(area, id, lines.get(id) || '');
  linesBefore = lines;
  const ran = order.filter(hasRun);
  find('output-text').textContent = report || shown(whole.failed || whole.texts[2].text);
  showState('Tenants that ran: ' + ran.length);
  showTenant(ran.find(id => sessionRuns.get(id).status > 128) || ran[0] || ids[0]);
}

// The lines of a tenant: whether they are those of the run before, and of it alone.
function showLines(area, id, lines) {
  const end = sessionRuns.get(id), part = put(area, 'section', undefined, 'stack');
  const same = !linesBefore.has(id) ? '' : linesBefore.get(id) === lines
    ? ' - the same lines as in the run before' : ' - other lines than in the run before';
  put(part, 'h3', 'Tenant ' + id + same);
  put(part, 'pre', lines || end.texts[2].text);
  if (!hasRun(id)) return;
  put(part, 'p', linesOf(reportOf(end)) === lines ? 'Run alone it has the same lines.'
    : 'Run alone it has other lines: this should not be, please report it.', 'soft');
  putButton(part, 'Why tenant ' + id + ' ended', '', () => {
    showTenant(id);
    showTab(find('tab-why'));
  });
}

// Who has the core when: a row a tenant, a column an event of the script.
function showTurns(area, events, order) {
  put(area, 'h3', 'Turns');
  const wide = put(area, 'div', undefined, 'wide'), made = put(wide, 'table', undefined, 'turns');
  wide.tabIndex = 0;
  wide.setAttribute('aria-label', 'Turns');
  for (const id of order.filter(hasRun)) {
    const line = put(made, 'tr');
    put(line, 'th', 'Tenant ' + id).scope = 'row';
    for (const [kind, of, steps, ...rest] of events.slice(0, MOST_TURNS)) {
      const marks = {admit: 'in', slice: steps, stop: 'out'}, isOwn = of === id;
      const cell = put(line, 'td', isOwn ? marks[kind] : '', isOwn ? 'own ' + kind : '');
      cell.title = shown([kind, of, steps, ...rest].join(' '));
    }
  }
}

function showTenant(id) {
  const end = sessionRuns.get(id);
  find('report-text').textContent = shown(end.texts[2].text);
  if (!hasRun(id)) {
    find('cause').textContent = 'Tenant ' + id + ' was not run';
    find('ended').textContent = shown(end.failed || end.texts[2].text);
    return;
  }
  showRun(JSON.parse(decoder.decode(end.made['run.json'])), end.texts[2].text, subjectSources());
  listMade(end);
  lastRequest = sessionRequest(id, ['json', 'html', 'map', 'core']);
  find('heap-state').textContent = 'This runs tenant ' + id + ' once more, and watches each step.';
  find('frame').hidden = true;
}

// Shows the script of a session, or takes that away where there is one program.
function showScript() {
  const file = scriptOf();
  find('tab-session').hidden = find('script-row').hidden = !file;
  find('input-row').hidden = Boolean(file);
  linesBefore = new Map();
  if (file) find('script').value = decoder.decode(file.bytes);
  else if (!find('session').hidden) showTab(find('tab-why'));
}
