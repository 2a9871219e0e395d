
// The options of a run: a form by their groups, from the table, and the words of a command line.

const table = JSON.parse(find('table').textContent);
const allOptions = table.group.flatMap(group => group.option);
const fieldOf = option => find('option-' + option.name);

// The name and the text of an option.
function putName(label, option) {
  put(label, 'code', '--' + option.name);
  label.append(' ' + option.label);
}

function putField(parent, option) {
  const label = put(parent, 'label', undefined, 'option');
  if (option.kind === 'flag') {
    const box = put(label, 'input');
    box.type = 'checkbox';
    box.id = 'option-' + option.name;
    putName(label, option);
    return;
  }
  putName(label, option);
  const field = put(label, option.kind === 'words' ? 'select' : 'input');
  field.id = 'option-' + option.name;
  if (option.kind === 'words') {
    for (const word of option.words) field.add(new Option(word || 'no', word));
    return;
  }
  field.type = 'text';
  field.spellcheck = false;
  field.autocomplete = 'off';
  field.placeholder = option.default || '';
  if (option.kind === 'number') field.inputMode = 'numeric';
}

function putSet(parent, option) {
  putName(put(parent, 'div'), option);
  for (const word of option.words) {
    const label = put(parent, 'label', undefined, 'word');
    const box = put(label, 'input');
    box.type = 'checkbox';
    box.value = word;
    box.dataset.set = option.name;
    label.append(word);
  }
}

function putGroups() {
  for (const group of table.group) {
    const set = put(find('groups'), 'fieldset');
    put(set, 'legend', group.name);
    for (const option of group.option) {
      if (option.kind === 'set') putSet(set, option);
      else putField(set, option);
    }
  }
  find('groups').addEventListener('change', showChosen);
}

const boxesOf = option => Array.from(document.querySelectorAll('[data-set=' + option.name + ']'));

// What is chosen, by the names of options: a text, or true.
function chosenOptions() {
  const chosen = {};
  for (const option of allOptions) {
    if (option.kind === 'set') {
      const words = boxesOf(option).filter(box => box.checked).map(box => box.value);
      if (words.length) chosen[option.name] = words.join(',');
    } else if (option.kind === 'flag') {
      if (fieldOf(option).checked) chosen[option.name] = true;
    } else {
      const text = fieldOf(option).value.trim();
      if (text && text !== option.default) chosen[option.name] = text;
    }
  }
  return chosen;
}

function chooseOptions(chosen) {
  for (const option of allOptions) {
    const value = chosen[option.name];
    if (option.kind === 'set') {
      const words = String(value || '').split(',');
      const isAll = words.includes('all') || value === true;
      boxesOf(option).forEach((box, at) => {
        box.checked = words.includes(box.value) || (isAll && at < 4);
      });
    } else if (option.kind === 'flag') fieldOf(option).checked = value === true;
    else fieldOf(option).value = value === undefined ? '' : value === true ? 'all' : String(value);
  }
  showChosen();
}

// The words of a command line. A value that may be left out, or that is one of some, follows `=`.
function wordsOf(chosen) {
  const words = [];
  for (const option of allOptions) {
    const value = chosen[option.name];
    if (value === undefined) continue;
    if (value === true) words.push('--' + option.name);
    else if (['words', 'set', 'value'].includes(option.kind)) {
      words.push('--' + option.name + '=' + value);
    } else words.push('--' + option.name, value);
  }
  return words;
}

function showChosen() {
  find('chosen').textContent = shown(wordsOf(chosenOptions()).join(' '));
}
