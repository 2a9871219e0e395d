
// Five lessons, each a screen with a running example.

const lessons = Array.from(find('lessons').querySelectorAll('article'));

// With a lesson the controls that choose another program are away.
function showLessons(isShown) {
  find('lessons').hidden = !isShown;
  document.body.classList.toggle('teaching', isShown);
  find('show-lessons').setAttribute('aria-expanded', String(isShown));
}

function openLesson(text) {
  const at = Math.min(Math.max(Number(text) || 1, 1), lessons.length) - 1;
  showLessons(true);
  lessons.forEach((it, index) => { it.hidden = index !== at; });
  Array.from(find('lesson-list').children).forEach((it, index) => {
    if (index === at) it.setAttribute('aria-current', 'true');
    else it.removeAttribute('aria-current');
  });
  const chosen = chooseExample(lessons[at].dataset.example);
  showTab(find('tab-' + (lessons[at].dataset.tab || 'why')));
  return chosen;
}

function bindLessons() {
  lessons.forEach((_, index) => {
    putButton(find('lesson-list'), index + 1, '', () => {
      history.replaceState(null, '', '#lesson=' + (index + 1));
      openLesson(index + 1);
    }).setAttribute('aria-label', 'Lesson ' + (index + 1));
  });
  find('show-lessons').onclick = () => {
    if (find('lessons').hidden) return openLesson(1);
    showLessons(false);
    return undefined;
  };
}
