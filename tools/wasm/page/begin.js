
// What happens when the page is opened, and what its controls do.

const PANELS = ['why', 'session', 'report', 'output', 'heap', 'made'];
const showTab = makeTabs(find('result').querySelector('[role=tablist]'), tab => {
  for (const name of PANELS) find(name).hidden = tab.id !== 'tab-' + name;
  if (tab.id === 'tab-heap') showHeap();
});

function listExamples() {
  const list = find('example');
  list.add(new Option('(your own)', ''));
  for (const it of [...examples, ...sessions]) list.add(new Option(it.title, it.name));
  list.onchange = () => {
    history.replaceState(null, '', list.value ? '#example=' + list.value : '#');
    chooseExample(list.value);
  };
}

// Takes files that were dropped or chosen; a folder, and a file that is gone, can't be read.
function take(list) {
  takeFiles(Array.from(list)).catch(error =>
    showState('The files were not read: ' + error.message));
}

function bindDrop() {
  const area = find('drop');
  addEventListener('dragover', event => {
    event.preventDefault();
    area.classList.add('over');
  });
  addEventListener('dragleave', event => {
    if (!event.relatedTarget) area.classList.remove('over');
  });
  addEventListener('drop', event => {
    event.preventDefault();
    area.classList.remove('over');
    take(event.dataTransfer.files);
  });
  find('pick').onchange = () => {
    take(find('pick').files);
    find('pick').value = '';
  };
}

function bindControls() {
  find('start').onclick = start;
  find('stop').onclick = stopRun;
  find('share').onclick = () => shareLink(currentRun());
  find('save').onclick = () => savePage(currentRun());
  find('show-help').onclick = openHelp;
  const saved = {'save-start': 'start.c', 'save-header': 'tenant.h'};
  for (const [id, name] of Object.entries(saved)) {
    find(id).onclick = () => saveFile(name, [archive.get('sources/' + name)], 'text/plain');
  }
  find('help-close').onclick = () => find('help').close();
  find('theme').onchange = () => { document.documentElement.dataset.theme = find('theme').value; };
  document.addEventListener('keydown', event => {
    if (event.key === 'Enter' && (event.ctrlKey || event.metaKey)) start();
    else if (event.key === 'Escape' && !find('help').open) stopRun();
    else if (event.key === '?' && !/INPUT|TEXTAREA|SELECT/.test(event.target.tagName)) openHelp();
  });
  addEventListener('hashchange', () => openAddress());
}

// The help, with what the module says of its build.
async function openHelp() {
  find('help').showModal();
  if (!module || find('version').textContent) return;
  const end = await startRun({words: ['--version'], files: [], made: []}, () => {});
  find('version').textContent = end && end.texts ? shown(end.texts[1].text) : '';
}

// The run of a saved page or of the address, else an example.
async function openAddress() {
  const inside = find('run').textContent.trim(), address = location.hash.slice(1);
  const [kind, text] = [address.split('=')[0], address.slice(address.indexOf('=') + 1)];
  const given = kind === 'run' ? text : kind === 'example' || !inside ? '' : inside;
  if (given) {
    try {
      return await choose(await textToRun(given));
    } catch (error) {
      find('missing').textContent = 'The run of this address or page is damaged: ' +
        shown(error.message);
      find('missing').hidden = false;
    }
  }
  if (kind === 'lesson') return openLesson(text);
  const named = [...examples, ...sessions].some(it => it.name === text);
  return chooseExample(named ? text : examples[0].name);
}

async function begin() {
  putGroups();
  showTab(find('tab-why'));
  bindControls();
  bindDrop();
  bindLessons();
  if (!hasWideMemory()) {
    find('missing').textContent = 'This browser has no WebAssembly memories of 64 bits, which ' +
      'the program in this page needs. Chrome and Edge from 133 on and Firefox from 134 on have ' +
      'them.';
    find('missing').hidden = false;
    showState('Not there');
    return;
  }
  makeWorker();
  const {head, parts} = splitArchive(await unpacked(fromLetters(find('archive').textContent)));
  archive = parts;
  examples = head.examples;
  sessions = head.sessions;
  listExamples();
  module = await WebAssembly.compile(parts.get('module.wasm'));
  document.body.dataset.ready = 'yes';
  await openAddress();
}

begin().catch(error => {
  find('missing').textContent = 'The page did not begin: ' + shown(error.message);
  find('missing').hidden = false;
});
