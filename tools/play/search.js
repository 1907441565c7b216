// The search from the cursor.
let searching = null;                   // what cancels the search that is under way

const search = guarded(async () => {
  if (searching) return searching.abort();
  const from = {...origin(), id: current, whole: doc.text, sought: soughtNow()};
  const body = {text: from.text, position: from.at, way: $('way').value, goal: goalText(), kill: $('kill').checked, states: +$('states').value};
  searching = new AbortController();
  $('go').textContent = 'Cancel';
  answered(from, null);
  report({progress: 'searching'}, from);
  try {
    const answer = await post('search', body, searching.signal);
    if (!answer.ok) throw new Error('no such search');
    await eachLine(answer.body.pipeThrough(new TextDecoderStream()).getReader(), line => report(JSON.parse(line), from));
  } catch (error) {
    answered(from, {words: error.name === 'AbortError' ? 'cancelled' : 'the search broke off'});
  } finally {
    searching = null;
    $('go').textContent = 'Search';
    drawAnswer();
  }
});
// The position from which is searched, and the text up to it.
const origin = () => $('origin').value === 'opening' ? {text: edited(doc.text, 0, []), at: 0} : {text: textHere(), at: now};
const soughtNow = () => `${$('origin').value} ${$('way').value} ${goalText()}`;
const goalText = () => $('goal').value.trim() ? $('goal').value : 'differs';
async function eachLine(reader, work) {
  let rest = '';
  for (let piece; !(piece = await reader.read()).done;) {
    const lines = (rest + piece.value).split('\n');
    rest = lines.pop();
    lines.forEach(work);
  }
  if (rest) work(rest);
}
// Shows how far a search is; or keeps its answer, or the fault of its goal, in the branch that it is about.
function report({progress, words, found: choices, goal, fault}, from) {
  if (progress) $('report').textContent = progress;
  if (progress || !words && !fault) return;
  if (choices && choices.length) guarded(make)(choices, from, true);
  const about = choices && choices.length ? {...from, id: current, whole: doc.text} : from;
  answered(about, {words: fault ? fault.words : goal ? words : answerOf(words, choices, from.at), goal});
  if (goal) showGoalFault(goal);
}
// An answer with the step from which was searched.
function answerOf(words, choices, at) {
  const begins = at ? `from step ${at} on: ` : 'from the opening: ', isHere = choices && !choices.length;
  return begins + words[0].toLowerCase() + words.slice(1) + (isHere ? '; it is so there already' : '');
}
// Keeps an answer in its branch, unless the text there or the goal is another one now.
function answered({id, whole, sought}, answer) {
  if (branchOf(id) && branchOf(id).text === whole && sought === soughtNow()) putIn(id, {answer});
}
// Shows the answer in the branch that is shown, unless a search is under way.
function drawAnswer() {
  const {words, goal} = branchOf(current).answer || {};
  if (!searching) $('report').textContent = words || '';
  $('report').classList.toggle('bad', !!goal);
  if (goal) $('goal').setAttribute('aria-invalid', 'true');
  else $('goal').removeAttribute('aria-invalid');
}
function showGoalFault({column, length}) {
  $('goal').focus();
  $('goal').setSelectionRange(column - 1, column - 1 + length);
}
$('goals').append(...Object.entries(given.goals).map(([goal, words]) => { const option = new Option(words, goal); option.label = words; return option; }));
$('search').oninput = () => { put({answer: null}); note(''); drawAnswer(); };
$('search').onkeydown = event => { if (event.key === 'Escape') $('view').focus(); };
$('search').onsubmit = event => { event.preventDefault(); search(); };
