
// The page: a program with its files is chosen, run, and shown.

const ROLES = ['input', 'source', 'suppressions', 'script', 'file'];
const LIVE_MILLISECONDS = 300, MOST_LIVE = 50_000, MOST_TYPED = 20_000;
const MOST_READ = 16 << 20;
let archive = null, examples = [], sessions = [];
let subject = {name: '', image: new Uint8Array(), files: []};
let lastRequest = null, wantsHeap = false;

const isImage = bytes => bytes.length > 4 && bytes[0] === 0x7f && decoder.decode(
  bytes.subarray(1, 4)) === 'ELF';
const isSourceName = name => /\.(c|cc|cpp|cxx|h|hh|hpp|rs|s|S|inc)$/.test(name);

function showState(text) {
  find('state').textContent = shown(text);
}

// A name as a file of the run: no path, no name that the page itself needs.
const plainName = name => lastPart(name).replace(/[^\w.+-]|^-/g, '_').slice(0, 100) || 'image.elf';

function typedInput() {
  return encoder.encode(find('input').value);
}

// What is chosen now, as a link or a saved page keeps it.
function currentRun() {
  return {name: subject.name, image: subject.image, input: typedInput(), files: subject.files,
    options: {...chosenOptions(), ...chosenFrames()}, words: typedWords()};
}

const typedWords = () => find('words').value.split('\n').filter(word => word);

// The image, with arguments and files where it was linked by tenant-cc and there are some.
function givenImage() {
  const words = typedWords(), files = subject.files.filter(file => file.role === 'file').map(
    file => ({name: '/' + lastPart(file.name), bytes: file.bytes}));
  const isPlain = find('words-row').hidden || !(words.length || files.length);
  return isPlain ? subject.image : imageWith(subject.image, words, files);
}

function fileOf(role) {
  return subject.files.find(file => file.role === role);
}

// The words and files of a run. The large documents are made only where they are asked for.
function requestOf(made) {
  const words = wordsOf(chosenOptions()), files = [[subject.name, givenImage()]];
  const input = fileOf('input');
  if (input || find('input').value) {
    files.push(['the-input', input ? input.bytes : typedInput()]);
    words.push('--input', 'the-input');
  }
  const suppressions = fileOf('suppressions');
  if (suppressions) {
    files.push(['the-suppressions', suppressions.bytes]);
    words.push('--suppressions', 'the-suppressions');
  }
  for (const name of made) words.push('--' + name, 'run.' + name);
  return {words: [...words, subject.name], files, made: made.map(name => 'run.' + name)};
}

function subjectSources() {
  const found = subject.files.filter(file => file.role === 'source');
  return new Map(found.map(file => [lastPart(file.name), decoder.decode(file.bytes)]));
}

// A run with the clock that is shown while it runs.
async function timedRun(request, show) {
  const start = performance.now(), seconds = () => ((performance.now() - start) / 1000).toFixed(1);
  let written = 0, steps = 0;
  const counts = () => steps.toLocaleString('en') + ' steps, ' + written.toLocaleString('en') +
    ' bytes written';
  const timer = setInterval(() => showState('Runs for ' + seconds() + ' s, ' + counts()), 100);
  find('stop').disabled = false;
  find('progress').hidden = false;
  const end = await startRun(request, (texts, count) => {
    written = texts[1].bytes + texts[2].bytes;
    steps = count;
    show(texts);
  });
  clearInterval(timer);
  find('stop').disabled = true;
  find('progress').hidden = true;
  return {end, seconds: seconds()};
}

function showTexts(texts) {
  const cut = it => it.bytes > MOST_SHOWN ? '\n.. (the rest is in the tab Files)' : '';
  find('report-text').textContent = shown(texts[2].text) + cut(texts[2]);
  find('output-text').textContent = readable(texts[1].text) + cut(texts[1]);
}

// What is written first, while it runs.
let firstShown = 0;
function showFirst(texts) {
  if (performance.now() - firstShown < LIVE_MILLISECONDS) return;
  firstShown = performance.now();
  find('report-text').textContent = shown(texts[2].text.slice(0, MOST_LIVE));
  find('output-text').textContent = readable(texts[1].text.slice(0, MOST_LIVE));
}

function clearResult() {
  find('ended').textContent = '';
  find('cause').textContent = '';
  find('verdict').className = '';
  for (const id of ['stacks', 'source', 'tags', 'made-list', 'tenants', 'host-frames']) {
    find(id).replaceChildren();
  }
  find('report-text').textContent = find('output-text').textContent = '';
  find('heap-state').textContent = '';
  find('frame').hidden = true;
  find('frame').removeAttribute('srcdoc');
  lastRequest = null;
}

async function start() {
  if (!module || !(subject.image.length || scriptOf())) return undefined;
  clearResult();
  document.body.removeAttribute('data-status');
  if (scriptOf()) return startSession();
  const {end, seconds} = await timedRun(requestOf(['json', 'sarif']), showFirst);
  if (end === null) return showStop();
  showTexts(end.texts);
  if (end.failed) {
    find('ended').textContent = 'The run was ended by the browser';
    find('cause').textContent = shown(end.failed);
    find('verdict').className = 'bad';
    showState('Failed after ' + seconds + ' s');
  } else showEnd(end, seconds);
  document.body.dataset.first ||= performance.now();
  document.body.dataset.status = end.failed ? 'failed' : String(end.status);
  return undefined;
}

function showStop() {
  showState('Stopped');
  find('ended').textContent = 'You stopped it';
  document.body.dataset.status = 'stopped';
}

function showEnd(end, seconds) {
  const json = end.made['run.json'];
  showState('Exit status ' + end.status + ', ' + seconds + ' s, ' +
    Math.ceil(end.memory / 1048576) + ' MiB of memory');
  listMade(end);
  if (!json) {
    const [first] = end.texts[2].text.replace(/^mte_run: /, '').split('\n');
    find('cause').textContent = shown(first);
    find('ended').textContent = 'It was not run.';
    find('verdict').className = 'bad';
    return;
  }
  const run = JSON.parse(decoder.decode(json));
  showRun(run, end.texts[2].text, subjectSources());
  lastRequest = requestOf(['json', 'html', 'map', 'core']);
  find('heap-state').textContent = 'This runs it once more, and watches each step.';
  if (!find('heap').hidden) showHeap();
}

// The heap step by step is made when its tab is opened first.
async function showHeap() {
  if (!lastRequest) return;
  const request = lastRequest;
  lastRequest = null;
  find('heap-state').textContent = 'Watches each step';
  const {end, seconds} = await timedRun(request, () => {});
  const page = end && end.made && end.made['run.html'];
  if (!page) {
    find('heap-state').textContent = end ? 'There is no page of the heap: ' +
      shown(end.failed || end.texts[2].text) : 'Stopped; the button Run begins again.';
    return;
  }
  listMade(end);
  find('heap-state').textContent = '';
  showState('Watched each step in ' + seconds + ' s');
  find('frame').hidden = false;
  find('frame').srcdoc = withHover(decoder.decode(page));
}

// The page of the heap, with what says the meaning of a tag; its policy names that script too.
function withHover(page) {
  const at = page.lastIndexOf('</body>');
  const policy = page.replace("script-src '", "script-src '" + table.hover + "' '");
  const end = at + policy.length - page.length;
  const script = '<script>' + find('hover-text').textContent + '<' + '/script>';
  return policy.slice(0, end) + script + policy.slice(end);
}

const MADE = {'run.json': ['JSON', 'application/json'], 'run.sarif': ['SARIF 2.1.0',
  'application/json'], 'run.html': ['The heap step by step, a page', 'text/html'],
'run.map': ['The heap and its tags at the end, a picture', 'image/svg+xml'],
'run.core': ['An ELF core for GDB', 'application/octet-stream']};

function putFile(name, text, parts, type) {
  const list = find('made-list'), id = 'made-' + name;
  if (find(id)) find(id).remove();
  const item = put(list, 'li');
  item.id = id;
  const bytes = parts.reduce((sum, part) => sum + part.length, 0);
  const size = ' (' + bytes.toLocaleString('en') + ' bytes)';
  putButton(item, 'Save ' + name, '', () => saveFile(name, parts, type));
  put(item, 'span', ' ' + text + size);
}

function listMade(end) {
  for (const [name, bytes] of Object.entries(end.made)) {
    const shownName = name === 'run.map' ? 'run.svg' : name;
    putFile(shownName, MADE[name][0], [bytes], MADE[name][1]);
  }
  if (find('made-report.txt')) return;
  putFile('report.txt', 'The report', end.texts[2].parts, 'text/plain');
  putFile('output.bin', 'What it wrote', end.texts[1].parts, 'application/octet-stream');
}

// Files that are there besides the program.
function showFiles() {
  const body = find('files').tBodies[0];
  body.replaceChildren();
  const input = fileOf('input');
  find('input').disabled = Boolean(input);
  find('input').placeholder = input ? 'the file ' + shown(input.name)
    : 'what the program may read';
  find('file-list').hidden = !subject.files.length;
  find('file-count').textContent = subject.files.map(file => shown(file.name)).join(', ');
  for (const file of subject.files) {
    const line = put(body, 'tr');
    put(line, 'td', file.name);
    put(line, 'td', file.bytes.length.toLocaleString('en'));
    const choice = put(put(line, 'td'), 'select');
    choice.setAttribute('aria-label', 'What ' + shown(file.name) + ' is');
    for (const role of ROLES) choice.add(new Option(role, role, false, role === file.role));
    choice.onchange = () => {
      file.role = choice.value;
      showFiles();
      showScript();
    };
    putButton(put(line, 'td'), 'Remove', '', () => {
      subject.files = subject.files.filter(it => it !== file);
      showFiles();
    });
  }
}

// Whether a text field gives bytes back as they are.
const isTyped = bytes => bytes.length < MOST_TYPED &&
  bytes.every(byte => (byte >= 32 && byte < 127) || byte === 9 || byte === 10);

function choose(run) {
  const input = run.input || new Uint8Array(), files = [...run.files];
  if (!isTyped(input)) files.push({name: 'input', role: 'input', bytes: input});
  subject = {name: plainName(run.name), image: run.image, files};
  find('input').value = isTyped(input) ? decoder.decode(input) : '';
  find('words').value = (run.words || []).join('\n');
  find('words-row').hidden = readImage(run.image) === null;
  chooseOptions(run.options || {});
  find('frames').value = (run.options || {}).frames || MOST_FRAMES;
  find('shared').hidden = true;
  showFiles();
  showScript();
  return start();
}

function chooseExample(name) {
  if (sessions.some(it => it.name === name)) return chooseSession(name);
  const it = examples.find(example => example.name === name);
  if (!it) return Promise.resolve();
  find('example').value = name;
  find('about').textContent = it.about;
  const files = it.sources.map(path => ({name: path, role: 'source',
    bytes: archive.get('sources/' + path)}));
  return choose({name: name + '.elf', image: archive.get('images/' + name + '.elf'),
    input: encoder.encode(it.input || ''), options: it.options, files});
}

// A session by its name: its script, and as files the images of examples and texts.
function chooseSession(name) {
  const it = sessions.find(session => session.name === name);
  find('example').value = name;
  find('about').textContent = it.about;
  const files = [{name: 'script', role: 'script', bytes: encoder.encode(it.script)}];
  for (const image of it.images.map(known => known + '.elf')) {
    files.push({name: image, role: 'file', bytes: archive.get('images/' + image)});
  }
  files.push({name: 'input', role: 'file', bytes: encoder.encode(it.input)});
  for (const path of it.sources) {
    files.push({name: path, role: 'source', bytes: archive.get('sources/' + path)});
  }
  return choose({name: 'session', image: new Uint8Array(), files,
    options: {frames: it.frames}});
}

// Files of a session are numbered by the order of their names.
function takeSession(files, script) {
  for (const file of files) {
    file.role = file === script ? 'script' : isSourceName(file.name) ? 'source' : 'file';
  }
  showLessons(false);
  files.sort((one, other) => one.name.localeCompare(other.name, 'en', {numeric: true}));
  return choose({name: 'session', image: new Uint8Array(), files, options: chosenOptions()});
}

async function takeFiles(list) {
  const large = list.find(file => file.size > MOST_READ), files = [];
  if (large) {
    showState(large.name + ' has more than 16 MiB: it is not read.');
    return undefined;
  }
  for (const file of list) {
    files.push({name: file.name, bytes: new Uint8Array(await file.arrayBuffer())});
  }
  const script = files.find(file => looksLikeScript(file.bytes));
  if (script) return takeSession(files, script);
  const image = files.find(file => isImage(file.bytes));
  const others = files.filter(file => file !== image);
  const data = others.filter(file => !isSourceName(file.name));
  const isGiven = image && data.length > 1 && readImage(image.bytes) !== null;
  for (const file of others) {
    file.role = !data.includes(file) ? 'source' : isGiven ? 'file' : 'input';
  }
  if (image) {
    showLessons(false);
    find('example').value = '';
    find('about').textContent = '';
    return choose({name: image.name, image: image.bytes, files: others, options: chosenOptions()});
  }
  const isNew = it => others.some(file => file.name === it.name ||
    (file.role === 'input' && it.role === 'input'));
  subject.files = [...subject.files.filter(it => !isNew(it)), ...others];
  showFiles();
  if (others.some(file => file.role === 'source')) return start();
  const text = others.length === 1 ? others[0].name + ' is no ELF file: it is taken as input. '
    : 'There is no ELF file among them. ';
  showState(text + 'Run begins the run.');
  return undefined;
}
