// What words mean: a legend of them, and a tip where one stands. It shows once the pointer or the focus rests there; a screen reader has it as a description.
const REST = 500;                       // in milliseconds
let resting = 0;

// What a word, or a part of the header, means.
const meaningOf = words => given.words[words.includes(' of at most ') ? 'pages' : words in given.words ? words : words.split(' ')[0]] || '';
// What is sent by a step with this outcome.
const sentBy = outcome => outcome.includes(' ! ') ? `It sends the message ${outcome.split(' ! ')[1]}.` : '';

// Gives something a tip, and a screen reader a description, which may be shorter.
function explain(box, words, aloud = words) {
  box.dataset.says = words;
  box.setAttribute('aria-description', aloud);
  return box;
}
// Gives a word its meaning, where it has one; the keyboard comes to it.
function explained(box) {
  const meaning = meaningOf(box.textContent);
  if (!meaning) return box;
  box.tabIndex = 0;
  box.setAttribute('role', 'note');
  box.ariaLabel = box.textContent;
  return explain(box, meaning);
}
// What has a tip without having been given one, and what that says, by where it stands: modes and messages of the picture, and numbers.
const KINDS = {
  '#view .mode, #view .word': box => meaningOf(box.textContent),
  '#view .band': box => meaningOf(box.classList[1]),
  '#now .card small': box => `the low key of this page: it has the keys from ${box.textContent.replace('≥ ', '')} on`,
  '#now .card code': box => `the row at key ${box.textContent.replace('=', ' has the value ')}`,
  '#now .lockt': () => 'a lock of this transaction on the page: shared with others that read, or exclusive',
  '#now .regs span': box => `register ${box.textContent.replace('=', ' of this transaction has the value ')}`,
  '#now .tag.committed': box => `committed, as number ${box.textContent.split(' ').pop()} of all commits`};
function tipOf(target) {
  if (!(target instanceof Element)) return null;
  const box = target.closest('[data-says]') || target.closest(Object.keys(KINDS).join());
  return box && {box, words: box.dataset.says || Object.entries(KINDS).find(([where]) => box.matches(where))[1](box)};
}
function showTip({box, words}) {
  const tip = $('tip'), {left, top, bottom} = box.getBoundingClientRect();
  tip.textContent = words;
  tip.hidden = false;
  tip.style.left = Math.max(4, Math.min(left, innerWidth - tip.offsetWidth - 4)) + 'px';
  tip.style.top = (top > tip.offsetHeight + 8 ? top - tip.offsetHeight - 6 : bottom + 6) + 'px';
}
function hideTip() {
  clearTimeout(resting);
  $('tip').hidden = true;
}
function come({type, target}) {
  hideTip();
  const tip = tipOf(target), isMeant = type === 'mouseover' || target.matches(':focus-visible');
  if (tip && tip.words && isMeant) resting = setTimeout(() => { if (tip.box.isConnected) showTip(tip); }, REST);
}
for (const kind of ['mouseover', 'focusin']) document.addEventListener(kind, come);
for (const kind of ['mousedown', 'keydown', 'focusout', 'scroll']) document.addEventListener(kind, hideTip, true);
for (const box of document.querySelectorAll('#search label')) {
  explain(box, meaningOf(box.textContent.trim()));
  box.querySelector('input').setAttribute('aria-description', box.dataset.says);
}
$('legend').append(...Object.entries(given.words).flatMap(([word, meaning]) => [el('dt', '', word), el('dd', '', meaning)]));
