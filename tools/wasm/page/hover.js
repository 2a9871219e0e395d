'use strict';
// In the page of the heap: says what a cell's tag means while the pointer is over it.
const MEANINGS = {live: 'in a live chunk', freed: 'in a chunk that was freed',
  header: 'the header of a chunk'};
document.addEventListener('pointerover', event => {
  const cell = event.target.closest && event.target.closest('#heap td');
  if (!cell || !cell.title || cell.title.includes(':')) return;
  const tag = cell.firstChild.textContent, kinds = Array.from(cell.classList);
  const use = kinds.map(kind => MEANINGS[kind]).find(it => it) || 'in no chunk';
  const meaning = tag === '' ? 'nothing has reached it yet'
    : tag === '.' ? 'its page is not mapped'
    : tag === '?' ? 'its tag is not known, ' + use
    : 'tag ' + tag + ', ' + use + (tag === '0' ? '' : ': a pointer opens it that has tag ' + tag);
  const touched = kinds.includes('touch') ? '; this step accesses it' : '';
  cell.title += ': ' + meaning + touched;
});
