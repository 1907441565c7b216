// The page of zplay: a text, the run of it (`D`, which page.js shows), and the choices that can be made next. What a step does is asked of
// the server; here texts are changed and answers shown.
const ACTORS = ['C', 'A', 'B'];
let name = '';                          // what the scenario is named
let doc = {text: '', at: 0};            // the text, and the position that is wanted
const past = [], future = [];           // what it was, and what it was before an undo
let question = 0, busy = false;         // the number of the last question for a run, and whether its answer is still to come
let typed = 0;                          // when the text was last typed in

// ---- the text
const wordsOf = line => line.split(';')[0].split(/\s+/).filter(word => word);

// The choice of a line and how often it is made; null for another line. It is kept, since long schedules have the same lines again and again.
const choices = new Map();
function choiceOf(line) {
  if (choices.size > 9999) choices.clear();
  if (!choices.has(line)) choices.set(line, readChoice(line));
  return choices.get(line);
}
function readChoice(line) {
  const words = wordsOf(line), repeats = words.length > 3 && words[words.length - 2] === 'x';
  if (!ACTORS.includes(words[0])) return null;
  return {choice: words.slice(0, repeats ? -2 : undefined).join(' '), times: repeats ? +words[words.length - 1] : 1};
}
const written = (choice, times) => choice + (times > 1 ? ' x ' + times : '');

// A text with its first choices and some more. The lines that stay are as they were, with their comments.
function edited(text, count, more) {
  const kept = [];
  for (const line of text.split('\n')) {
    const made = choiceOf(line);
    if (/^\s*end\s*(;|$)/.test(line) || made && !count) break;
    kept.push(made && made.times > count ? written(made.choice, count) : line);
    count -= made ? Math.min(count, made.times) : 0;
  }
  for (const choice of more) add(kept, choice);
  return [...kept, 'end', ''].join('\n');
}
// Adds a choice to lines: to the last one, if that makes the same choice and has no comment.
function add(kept, choice) {
  const line = kept[kept.length - 1] || '', last = choiceOf(line), isSame = last && last.choice === choice && !line.includes(';');
  kept.splice(isSame ? -1 : kept.length, 1, written(choice, isSame ? last.times + 1 : 1));
}
// The line in which a step is made; -1 for the opening.
function lineOf(step) {
  return step ? lines.findIndex(line => { step -= (choiceOf(line) || {times: 0}).times; return step <= 0; }) : -1;
}
const nameOf = t => D.names[t].split(' ')[1];
// A choice with the name of its transaction, where it has one.
const named = choice => choice.replace(/\d+$/, t => nameOf(t) || t);

function painted(line) {
  const [, code, comment] = line.match(/^([^;]*)(.*)$/s), [, space, head, rest] = code.match(/^(\s*)(\S*)(.*)$/s);
  const look = ACTORS.includes(head) ? head : head === 'txn' || head === 'end' ? 'txn' : '';
  return el('div', 'line', space, el('i', 'w' + look, head), rest, el('i', 'remark', comment));
}
// Paints the lines anew that are other ones. They are in blocks; a browser spares itself those that are out of sight.
const BLOCK = 100, LINE = 18;           // as many lines, and the height of each in pixels
let lines = [];
function paint() {
  const old = lines;
  lines = doc.text.split('\n');
  const most = Math.min(old.length, lines.length);
  let top = 0, end = 0;
  while (top < most && old[top] === lines[top]) top++;
  while (end < most - top && old[old.length - 1 - end] === lines[lines.length - 1 - end]) end++;
  const boxes = [...$('paint').querySelectorAll('.line')], made = lines.slice(top, lines.length - end).map(painted);
  const above = boxes[top - 1], below = boxes[old.length - end], beside = above || below;
  for (const line of boxes.slice(top, old.length - end)) line.remove();
  if (!beside || beside.parentElement.childElementCount + made.length > 2 * BLOCK) fill([...boxes.slice(0, top), ...made, ...boxes.slice(old.length - end)]);
  else if (above) above.after(...made);
  else below.before(...made);
  measure();
}
// Puts all lines into blocks, which have a list of lines each: the count of lines that a list begins with does not come into a block from outside.
function fill(boxes) {
  const count = Math.ceil(boxes.length / BLOCK), list = k => el('div', 'list', ...boxes.slice(k * BLOCK, (k + 1) * BLOCK));
  $('paint').replaceChildren(...Array.from({length: count}, (_, k) => el('div', 'block', list(k))));
}
// How wide a line is at most, in letters: a tab is up to four, and letters of some scripts are two.
const widthOf = line => line.length + 3 * (line.split('\t').length - 1) + (line.match(/[\u1100-\uffff]/g) || []).length;
// Tells each block its height, which is known without it being drawn, and each list the number of its first line; and how large all lines are.
function measure() {
  let count = 0;
  for (const list of $('paint').querySelectorAll('.list')) {
    list.style.counterReset = `line ${count}`;
    list.parentElement.style.containIntrinsicHeight = LINE * list.childElementCount + 'px';
    count += list.childElementCount;
  }
  $('paint').style.width = $('text').style.width = `${lines.reduce((most, line) => Math.max(most, widthOf(line)), 0) + 8}ch`;
  $('text').style.height = `${LINE * count + 38}px`;  // with what is above and below the lines, so that each of them can be clicked
}
// The box of a painted line; none for -1.
function boxOf(line) {
  for (const list of $('paint').querySelectorAll('.list')) {
    if (line < list.childElementCount) return list.children[line];
    line -= list.childElementCount;
  }
  return undefined;
}
// Gives a look to one line, which no other line has then.
function mark(look, line) {
  for (const old of $('paint').querySelectorAll('.' + look)) old.classList.remove(look);
  const marked = boxOf(line);
  if (marked) marked.classList.add(look);
  return marked;
}
// Marks the line of the shown step, and brings it into sight unless the text is being typed in.
function markStep() {
  const line = lineOf(now), box = $('edit'), y = LINE * line;
  if (!mark('here', line) || document.activeElement === $('text')) return;
  if (y < box.scrollTop || y > box.scrollTop + box.clientHeight - 40) box.scrollTop = y - box.clientHeight / 2;
}

// ---- the run
// Takes away what was found in another text, and shows the answer of the search in this one.
function forget() {
  $('found').textContent = '';
  drawAnswer();
}
// Puts the text where it is typed in. Nobody sees it there, but what is painted; and a browser lays a long one out anew as a whole. So it is put there once
// the picture is drawn and no other click has come, or at once where the pointer or the focus comes to it.
function fillText() {
  if ($('text').value !== doc.text) $('text').value = doc.text;
}
const fillTextSoon = debounced(fillText, 600);
// Takes another text, and shows its run at a position; Infinity is its end.
async function setText(text, at) {
  doc = {text, at};
  if (branchOf(current).text !== text) put({text, same: undefined, answer: null});
  forget();
  if (document.activeElement === $('text')) fillText();
  else fillTextSoon();
  paint();
  $('beside').hidden = true;
  const mine = ++question;
  busy = true;
  try {
    const title = name, answer = await ask('run', {text, title, at: Math.min(at, 4096), base: D ? D.name : ''});
    if (mine !== question) return;
    busy = false;
    showFault(answer.fault);
    $('link').disabled = false;
    if (answer.fault) {
      if (!D) drawNoRun();
      return storeSoon();
    }
    const run = {...runOf(answer), text, title};
    put({same: run.verdict[0][1]});
    drawTree();
    load(run, at);
    $('chips').querySelectorAll('.chip').forEach(explained);
  } finally {
    if (mine === question) busy = false;
  }
}
function showFault(fault) {
  document.body.classList.toggle('stale', !!fault);
  $('text').ariaInvalid = String(!!fault);
  $('fault').textContent = fault ? (fault.line ? `line ${fault.line}: ` : '') + fault.words : '';
  const line = mark('wrong', fault ? fault.line - 1 : -1);
  if (line && document.activeElement !== $('text')) line.scrollIntoView({block: 'nearest'});
}
onShow = () => {
  if (!busy) doc.at = now;
  hideTip();
  $('now').querySelectorAll('.col>b i, .queue span').forEach(explained);
  markStep();
  drawFound();
  drawVerdict();
  drawSpot();
  drawNodes();
  drawNext();
  storeSoon();
};
// What undo brings back: the text with its position, the branches, and the texts of the user's own.
const snapshot = () => ({doc: {...doc}, branches, current, name, own});
function remember() {
  past.push(snapshot());
  [future.length, typed] = [0, 0];
  drawUndo();
}
// Undo and redo can be clicked where there is something to undo or redo.
function drawUndo() {
  $('undo').disabled = !past.length;
  $('redo').disabled = !future.length;
}
// Makes choices behind a position. Where a branch has them there already it is shown; else where other choices come next, or where a search found
// these, they make a new branch.
function make(choices, from = doc, isFound = false) {
  const isOfThese = scheduleOf(from.text).head === scheduleOf(doc.text).head;  // else the names are other ones
  const text = edited(from.text, from.at, isOfThese ? choices.map(named) : choices), at = from.at + choices.length;
  const there = [branchOf(current), ...branches].find(branch => begins(branch, text)), more = isFound ? {found: [from.at + 1, at]} : {};
  remember();
  note('');
  if (there) return visit(there.id, at, more);
  if (isFound || from.text !== doc.text || from.at < scheduleOf(doc.text).choices.length) {
    fork(text);
    put(more);
    note(`branch ${current} begins after step ${from.at}; branch ${previous} stays as it is`);
  }
  return setText(text, at);
}
// Takes the choices behind the shown step away.
function cut() {
  if (!D || now === D.last) return;
  remember();
  note(`${D.last - now} ${D.last - now === 1 ? 'choice is' : 'choices are'} taken away; undo brings them back`);
  return setText(textHere(), now);
}
// The text up to the shown step. It is kept, since all that is asked of the server is asked behind it.
let here = {};
function textHere() {
  if (here.of !== doc.text || here.at !== doc.at) here = {of: doc.text, at: doc.at, text: edited(doc.text, doc.at, [])};
  return here.text;
}

function undo(from, to) {
  if (!from.length) return note('nothing was done');
  to.push(snapshot());
  note('');
  const before = from.pop();
  typed = 0;
  ({branches, current, name, own} = before);
  showName();
  drawUndo();
  return setText(before.doc.text, before.doc.at);
}
// The edge beside the steps that a search added.
function drawFound() {
  const box = $('added'), {found} = branchOf(current);
  box.style.height = 0;
  if (!found || found[1] > D.last || found[1] < found[0]) return;
  place(box, found[0]);
  box.style.height = (D.rowOf[found[1]] - D.rowOf[found[0]] + 1) * row() + 'px';
}

// ---- the verdict
const verdicts = new Map();             // by the text up to a commit

// The last step up to a position that is a commit; 0 where there is none. Only a commit changes the database, and so the verdict.
function commitBefore(n) {
  while (n && !D.lines[n].includes('-> committed ')) n--;
  return n;
}
const textToCommit = () => edited(doc.text, commitBefore(now), []);
// Transactions in an order; of many the first and the last ones.
function namesOf(txns) {
  const names = txns.map(t => D.names[t]), left = names.length - 12;
  return (left > 1 ? [...names.slice(0, 8), `${left} others`, ...names.slice(-4)] : names).join(', then ');
}
const verdictChip = same => el('span', 'chip ' + (same ? 'good' : 'wrong'), same ? 'serial same' : 'serial differs');

function drawVerdict() {
  const found = verdicts.get(textToCommit());
  $('serial').classList.toggle('pending', !found);
  $('here').classList.toggle('pending', !found);
  if (!found) return judgeSoon();
  $('here').replaceChildren(verdictChip(found.same));
  $('serial').replaceChildren(el('h2', '', `database after step ${now}`), ...verdictParts(found));
}
function verdictParts({same, order, explained, known, rows}) {
  const by = order.length ? `One by one in commit order: ${namesOf(order)}.` : 'Nothing is committed.';
  const why = explained.length ? `The rows are those of ${namesOf(explained)}: in each migration who committed at the source comes first.` : '';
  const shown = rows.filter(([, here, there]) => rows.length <= 8 || here !== there);
  const table = el('table', '', el('tr', '', ...['key', 'here', 'one by one'].map(word => el('th', '', word))), ...shown.map(rowCells));
  const more = rows.length > shown.length ? `${rows.length - shown.length} ${shown.length ? 'other ' : ''}rows are alike` : '';
  return [el('p', '', verdictChip(same), ' ', by), el('p', '', why), known ? table : el('p', '', 'Which rows differ is not known.'), el('small', '', more)]
    .filter(part => part.textContent && part.querySelector('td') || !part.matches('table') && part.textContent);
}
const rowCells = row => el('tr', row[1] === row[2] ? '' : 'wrong', ...row.map(word => el('td', '', word)));
const judgeSoon = debounced(guarded(async () => {
  if (busy) return;                     // the next run asks again
  const text = textToCommit(), found = await ask('verdict', {text});
  if (found.fault) return;              // the page says so of the whole text
  if (verdicts.size > 200) verdicts.clear();
  verdicts.set(text, found);
  drawVerdict();
}), 30);

// ---- the next choice
const known = new Map();                // what would come of choices, by the text that they are made behind
let lookup = new AbortController();

// The choices that are offered, by actor: of a node first those that it always has, then the runs in the order in which their transactions began. So a
// button stays where it is when a transaction begins.
function candidates() {
  const lanes = {C: ['C start'], A: [], B: []}, runs = [];
  for (const node of 'AB') lanes[node].push(`${node} take`, `${node} finish`, `${node} push`);
  D.txns.forEach((line, t) => {
    const [, , status, node] = at(line, now)[1].split(' ');
    if (status === 'new') lanes.C.push('C begin ' + t);
    if (status === 'active') { runs.push([begun(line), node, t]); lanes.C.push('C kill ' + t); }
  });
  for (const [, node, t] of runs.sort(([a], [b]) => a - b)) lanes[node].push(`${node} run ${t}`);
  return lanes;
}
// The step at which a transaction began.
const begun = line => line.find(([, words]) => words.split(' ')[2] === 'active')[0];
// What a choice is about: the instruction that is next, or the message that is in front.
function about(choice) {
  const [actor, action, t] = choice.split(' ');
  if (action === 'run') return D.programs[t][txn(now, +t).pc];
  const front = action === 'take' && D.messages.find(m => m[0][1] === actor && m[2] <= now && now < m[3]);
  return front ? front[1] : '';
}
function choiceButton(choice, outcome) {
  const [, action, t] = choice.split(' ');
  const look = outcome ? `${outcome.look} ${outcome.acts ? '' : 'still'}` : '', whom = t ? ' ' + (nameOf(t) || D.names[t]) : '';
  const parts = [el('b', '', action + whom), el('code', '', about(choice)), el('span', '', outcome ? outcome.outcome : '…')];
  const button = el('button', `choice ${action} ${look}`, ...parts);
  button.dataset.choice = choice;
  button.ariaLabel = [action + whom, about(choice), outcome && outcome.outcome, outcome && !outcome.acts && 'changes nothing'].filter(word => word).join(', ');
  if (outcome) explainOutcome(button, outcome);
  button.tabIndex = -1;
  button.onclick = event => event.shiftKey && action === 'run' ? runUntil(choice) : guarded(make)([choice]);
  return action === 'run' ? el('div', 'pair', button, untilButton(choice)) : button;
}
// What an outcome means, what it sends and whom it waits for; the lines of the state that it changes are in the tip alone.
function explainOutcome(button, {outcome, says, waits}) {
  const [meaning, ...lines] = says.split('\n'), wait = waits && waits[0].toUpperCase() + waits.slice(1) + '.';
  const sentence = [meaning, sentBy(outcome), wait].filter(words => words).join(' ');
  explain(button, [sentence, ...lines].join('\n'), sentence);
}
function untilButton(choice) {
  const button = el('button', 'until', '»');
  button.dataset.until = choice;
  button.title = 'Shift+Enter: until it waits, asks for a page, ends or can do nothing';
  button.ariaLabel = `run ${nameOf(choice.split(' ')[2]) || choice.split(' ')[2]} until it waits, asks for a page, ends or can do nothing`;
  button.tabIndex = -1;
  button.onclick = () => runUntil(choice);
  return button;
}
function laneOf(actor, choices, outcomeOf) {
  const head = el('h3', actor, actor === 'C' ? 'client' : 'node ' + actor), buttonOf = choice => choiceButton(choice, outcomeOf(choice));
  if (actor !== 'C') head.append(explained(modeChip(actor, now)));
  const lane = el('div', 'lane', head, ...(actor === 'C' ? clientRows(choices, buttonOf) : choices.map(buttonOf)));
  lane.setAttribute('role', 'group');
  lane.ariaLabel = actor === 'C' ? 'choices of the client' : `choices of node ${actor}`;
  firstOf(lane).tabIndex = 0;
  return lane;
}
// The choice of a lane to which the keyboard comes.
const firstOf = lane => lane.querySelector('.choice.run') || lane.querySelector('.choice');
// The client's rows: a start, and one for each transaction, which begins there and is killed there. Of many transactions those that have ended have none.
const MOST_ROWS = 12;
function clientRows([start, ...choices], buttonOf) {
  const ofTxn = new Map(choices.map(choice => [+choice.split(' ')[2], choice]));
  const rows = D.txns.map((_, t) => clientRow(t, ofTxn.get(t), buttonOf)).filter(row => row.querySelector('button') || row.matches('button') || D.txns.length <= MOST_ROWS);
  return [buttonOf(start), ...rows];
}
function clientRow(t, choice, buttonOf) {
  if (choice && / begin /.test(choice)) return buttonOf(choice);
  const state = el('small', 'row', `${nameOf(t) || D.names[t]} ${txn(now, t).why.join(' ')}`);
  return el('div', 'pair', state, ...(choice ? [buttonOf(choice)] : []));
}
function drawLanes(lanes, outcomes) {
  const focus = document.activeElement.closest('#lanes') && document.activeElement.dataset.choice;
  const all = Object.values(lanes).flat(), outcomeOf = choice => outcomes && outcomes[all.indexOf(choice)];
  if (outcomes) drawWaits(all, outcomes);
  if (outcomes) $('migrate').disabled = isSettled() && !outcomeOf('C start').acts;
  if (offered !== all.join()) [offered, changedAt] = [all.join(), performance.now()];
  $('lanes').style.setProperty('--rows', 3 + D.txns.length);  // as many as a node may have, so that they take the same room all the time
  $('lanes').replaceChildren(...ACTORS.map(actor => laneOf(actor, lanes[actor], outcomeOf)));
  if (focus) focusAfter(focus);
}
// Moves the focus to a choice, or where it is gone to the next one of its transaction, or else to the picture, where Enter makes no choice.
function focusAfter(choice) {
  const find = end => $('lanes').querySelector(`[data-choice$="${end}"]`), t = choice.split(' ')[2];
  (find(choice) || t && find(` run ${t}`) || $('view')).focus();
}
// Whether no migration is on its way.
const isSettled = () => ['A', 'B'].every(node => ['normal', 'empty'].includes(at(D.modes[node], now)[1]));
function drawNext() {
  $('after').textContent = `After step ${now}`;
  $('cut').disabled = now === D.last;
  $('migrate').textContent = isSettled() ? 'A whole migration' : 'Let the migration end';
  const lanes = candidates(), text = textHere();
  drawLanes(lanes, known.get(text));
  if (!known.has(text)) lookUpSoon();
}
const lookUpSoon = debounced(guarded(async () => {
  if (busy) return;                     // the choices are still those of the run before; the next run asks again
  const lanes = candidates(), text = textHere(), choices = Object.values(lanes).flat();
  lookup.abort();
  lookup = new AbortController();
  const outcomes = await ask('outcomes', {text, choices}, lookup.signal);
  const none = () => ({outcome: '', look: 'quiet', acts: false, waits: '', says: outcomes.fault.words});  // as where there is no room for one more choice
  if (known.size > 200) known.clear();
  known.set(text, outcomes.fault ? choices.map(none) : outcomes);
  if (text === textHere() && !busy) drawLanes(lanes, known.get(text));
}), 30);
// Where there is no run yet, there is nothing to go on with; branches may have come with an address.
function drawNoRun() {
  for (const button of ['cut', 'migrate']) $(button).disabled = true;
  $('migrate').textContent = 'A whole migration';
  drawTree();
}
// Adds choices that the server has found.
async function makeAnswered(path, body) {
  const from = {...doc}, answer = await ask(path, body);
  if (answer.fault) return note(answer.fault.words);
  if (answer.added.length) await make(answer.added, from);
  if (answer.words) note(answer.words);
}
const runUntil = guarded(choice => makeAnswered('until', {text: textHere(), choice}));
const migrate = guarded(() => makeAnswered('migrate', {text: textHere()}));

// A click is not taken that soon after another one at the same place hits another choice, or what makes many: it was meant for what was there.
const SOON = 400, NEAR = 12;            // in milliseconds, and in pixels
let offered = '', changedAt = 0;        // the choices that are offered, and since when
let clicked = {x: 0, y: 0, meant: '', time: -SOON};

function isStray({clientX: x, clientY: y, timeStamp: time}, meant) {
  const isThere = Math.abs(x - clicked.x) < NEAR && Math.abs(y - clicked.y) < NEAR, isSame = meant && meant === clicked.meant;
  return isThere && !isSame && time - Math.max(clicked.time, changedAt) < SOON;
}
$('next').addEventListener('click', event => {
  const button = event.target.closest('.choice, .until, #migrate');
  if (!button || !event.detail) return;  // a key has made it
  const meant = button.dataset.choice || '', isLost = isStray(event, meant);
  if (isLost) event.stopPropagation();
  clicked = {x: event.clientX, y: event.clientY, meant: isLost ? clicked.meant : meant, time: event.timeStamp};
}, true);

// Arrows move between the choices; a click leaves them to the cursor.
$('lanes').onmousedown = event => event.preventDefault();
$('lanes').onkeydown = event => {
  const lane = event.target.closest('.lane'), mine = [...lane.querySelectorAll('.choice')], lanes = [...$('lanes').children];
  const beside = way => firstOf(lanes[lanes.indexOf(lane) + way] || lane), below = way => mine[mine.indexOf(event.target) + way];
  const to = {ArrowDown: () => below(1), ArrowUp: () => below(-1), ArrowRight: () => beside(1), ArrowLeft: () => beside(-1)}[event.key];
  const runs = event.key === 'Enter' && event.shiftKey && / run /.test(event.target.dataset.choice);
  if (to || runs) event.preventDefault();
  if (to) { event.stopPropagation(); (to() || event.target).focus(); }
  if (runs) runUntil(event.target.dataset.choice);
};

// ---- files
function download(file, ending, type) {
  const link = el('a');
  link.href = URL.createObjectURL(new Blob([file], {type}));
  link.download = name + ending;
  link.click();
  setTimeout(() => URL.revokeObjectURL(link.href), 1000);
}
const save = guarded(async as => {
  document.querySelector('.menu').open = false;
  if (as === 'scenario') return download(doc.text, '.zephyr', 'text/plain');
  const answer = await ask('save', {text: doc.text, as, title: name});
  if (answer.fault) return note(answer.fault.words);
  download(answer.file, as === 'svg' ? '.svg' : '.listing', as === 'svg' ? 'image/svg+xml' : 'text/plain');
});

// ---- what is clicked and typed
const setTypedSoon = debounced(guarded(() => setText(doc.text, doc.at)), 120);
$('text').oninput = () => {
  if (Date.now() - typed > 1500) remember();
  typed = Date.now();
  doc = {text: $('text').value, at: D && doc.at < D.last ? doc.at : Infinity};
  if (!own.has(name)) name = setOwn(freeName('your own text'), doc.text);
  showName();
  put({text: doc.text, same: undefined, found: null, answer: null});
  note('');
  forget();
  busy = true;
  paint();
  setTypedSoon();
};
$('text').onfocus = $('text').onpointerenter = fillText;
$('text').onkeydown = event => {
  if (event.key === 'Escape') $('view').focus();
  if (event.key.toLowerCase() !== 'z' || !(event.ctrlKey || event.metaKey)) return;
  event.preventDefault();
  guarded(undo)(...(event.shiftKey ? [future, past] : [past, future]));
};
$('undo').onclick = () => guarded(undo)(past, future);
$('redo').onclick = () => guarded(undo)(future, past);
$('cut').onclick = guarded(cut);
$('migrate').onclick = migrate;
for (const button of document.querySelectorAll('[data-as]')) button.onclick = () => save(button.dataset.as);
const toTree = () => branches.length > 1 ? $('branches').querySelector('[aria-current]').focus() : note('there is one branch');
const toLane = actor => () => firstOf($('lanes').children[ACTORS.indexOf(actor)]).focus();
Object.assign(KEYS, {u: $('undo').onclick, r: $('redo').onclick, x: guarded(cut), m: migrate, s: () => $('goal').focus(), e: () => $('text').focus(),
  c: toLane('C'), a: toLane('A'), b: toLane('B'), t: toTree, d: () => layBeside(),
  '[': () => guarded(neighbour)(-1), ']': () => guarded(neighbour)(1), Escape: () => { closeBeside(); $('view').focus(); }});
addEventListener('click', event => { if (!event.target.closest('.menu')) document.querySelector('.menu').open = false; });
drawUndo();
