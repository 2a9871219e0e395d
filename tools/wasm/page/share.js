
// A run as text: in a link, and in a saved page. It is an archive, packed, with its sum in front.

const MOST_IN_LINK = 60_000;

async function runToText(run) {
  const parts = [['image', run.image], ['input', run.input],
    ...run.files.map(file => ['file', file.bytes])];
  const files = run.files.map(({name, role}) => ({name, role}));
  const head = {format: 1, name: run.name, options: run.options, words: run.words, files};
  const bytes = await packed(joinArchive(head, parts));
  return await sumOf(bytes) + '.' + toLetters(bytes);
}

async function textToRun(text) {
  const [sum, letters] = text.trim().split('.');
  const bytes = fromLetters(letters || '');
  const found = await sumOf(bytes);
  if (sum && found && sum !== found) throw new Error('its sum is ' + found + ', not ' + sum);
  const whole = await unpacked(bytes), {head} = splitArchive(whole);
  if (head.format !== 1) throw new Error('its format is ' + head.format);
  const sizes = head.parts.map(it => it[1]);
  let at = whole.length - sizes.reduce((sum, it) => sum + it, 0);
  const contents = sizes.map(size => whole.slice(at, at += size));
  const files = head.files.map((file, index) => ({name: String(file.name),
    role: String(file.role), bytes: contents[2 + index]}));
  return {name: String(head.name), options: head.options || {}, image: contents[0],
    input: contents[1], words: (head.words || []).map(String), files};
}

// The page as it was written, before anything changed in it.
const pristine = '<!doctype html>\n' + document.documentElement.outerHTML;

function pageWith(text) {
  const start = '<script type="text/plain" id="run">', at = pristine.indexOf(start) + start.length;
  const end = pristine.indexOf('<' + '/script>', at);
  return pristine.slice(0, at) + text + pristine.slice(end) + '\n';
}

function saveFile(name, parts, type) {
  const link = document.createElement('a');
  link.href = URL.createObjectURL(new Blob(parts, {type}));
  link.download = name;
  link.click();
  setTimeout(() => URL.revokeObjectURL(link.href), 60_000);
}

async function shareLink(run) {
  const text = await runToText(run), area = find('shared');
  area.hidden = false;
  area.replaceChildren();
  if (text.length > MOST_IN_LINK) {
    area.textContent = 'This run is too large for a link (' + text.length.toLocaleString('en') +
      ' letters): save the page, which has it inside.';
    return;
  }
  const base = location.href.split('#')[0], link = put(area, 'a', 'A link with this run');
  link.href = base + '#run=' + text;
  put(area, 'span', ' of ' + link.href.length.toLocaleString('en') + ' letters; the part after # ' +
    'is sent to no server. ');
  history.replaceState(null, '', link.href);
  try {
    await navigator.clipboard.writeText(link.href);
    put(area, 'span', 'It is copied.');
  } catch (error) {
    put(area, 'span', 'It is in the address bar.');
  }
}

async function savePage(run) {
  const name = run.name.replace(/[^\w.-]/g, '_') + '.html';
  saveFile(name, [pageWith(await runToText(run))], 'text/html');
  find('shared').hidden = false;
  find('shared').textContent = 'Saved as ' + name + ': whoever opens it sees this run, and may ' +
    'change and repeat it.';
}
