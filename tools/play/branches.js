// The branches: texts whose schedules part somewhere. One of them is shown. A list of branches is never changed in place, so that undo brings one back.
let branches = [{id: 1, text: ''}];
let current = 1, previous = 0;          // the numbers of the branch that is shown, and of the one that was shown before

const branchOf = id => branches.find(branch => branch.id === id);
// Notes something of a branch; of the one that is shown also another text.
const putIn = (id, more) => { branches = branches.map(branch => branch.id === id ? {...branch, ...more} : branch); };
const put = more => putIn(current, more);
// Makes a new branch with a text the one that is shown.
function fork(text) {
  put({at: now});
  const id = Math.max(...branches.map(branch => branch.id)) + 1;
  branches = [...branches, {id, text}];
  [previous, current] = [current, id];
}
// Shows a branch at a position, or else where it was left, and notes something of it.
function visit(id, at, more = {}) {
  const branch = branchOf(id), to = at === undefined ? placeIn(branch) : at, isShown = D && id === current && !busy;
  put({at: now});
  note('');
  if (id !== current) [previous, current] = [current, id];
  put(more);
  if (isShown) return show(to);
  return setText(branch.text, to);
}
// Where a branch was left, or else its end.
const placeIn = ({at = Infinity}) => at;
// The branch before or after the one that is shown.
function neighbour(way) {
  const beside = branches[branches.findIndex(branch => branch.id === current) + way];
  return beside ? visit(beside.id) : note(branches.length > 1 ? 'there is no other branch that way' : 'there is one branch');
}
function removeBranch(id) {
  if (branches.length < 2) return;
  remember();
  branches = branches.filter(branch => branch.id !== id);
  note(`branch ${id} is taken away; undo brings it back`);
  storeSoon();
  if (id !== current) return drawTree();
  current = (branchOf(previous) || branches[0]).id;
  return setText(branchOf(current).text, placeIn(branchOf(current)));
}

// ---- where schedules part
const schedules = new Map();            // what was read of texts

function scheduleOf(text) {
  if (schedules.size > 200) schedules.clear();
  if (!schedules.has(text)) schedules.set(text, readSchedule(text));
  return schedules.get(text);
}
// What a text has before its choices, without comments, and its choices one by one, with the numbers of transactions.
function readSchedule(text) {
  const head = [], made = [], numbers = new Map();
  for (const line of text.split('\n')) {
    const words = wordsOf(line), read = choiceOf(line);
    if (words[0] === 'end') break;
    if (words[0] === 'txn') numbers.set(words[1], String(numbers.size));
    if (read) made.push(...Array(Math.min(read.times, 4097) || 0).fill(read.choice.replace(/\S+$/, word => numbers.get(word) || word)));
    else if (words.length) head.push(words.join(' '));
  }
  return {head: head.join('\n'), choices: made};
}
// How many choices two texts both begin with; none where their programs differ.
function parting(one, two) {
  const [a, b] = [one, two].map(scheduleOf);
  if (a.head !== b.head) return 0;
  const first = a.choices.findIndex((choice, n) => choice !== b.choices[n]);
  return first < 0 ? a.choices.length : first;
}
// Whether a branch begins with the choices of a text.
const begins = (branch, text) => scheduleOf(branch.text).head === scheduleOf(text).head && parting(text, branch.text) === scheduleOf(text).choices.length;
// The branch from which each one parts: of those above it the one that it has most in common with.
function parentOf(k) {
  return branches.slice(0, k).map((branch, row) => ({row, at: parting(branch.text, branches[k].text)})).reduce(
    (best, it) => it.at > best.at ? it : best, {row: 0, at: -1});
}

// ---- the map
const BRANCH = 24, MAP = 84;            // the height of a row of the map, and its width, in pixels
let longest = 1;                        // how many choices the longest branch has

function drawTree() {
  $('tree').hidden = branches.length < 2;
  const focus = document.activeElement.closest('#branches') && document.activeElement.dataset.branch;
  const rows = branches.map((branch, k) => ({branch, parent: k ? parentOf(k) : null, last: scheduleOf(branch.text).choices.length}));
  longest = Math.max(1, ...rows.map(row => row.last));
  const map = drawing(rows.map(twig).join('') + '<circle id="spot" class="ring page" r="5.5"/>', MAP, BRANCH * rows.length);
  map.setAttribute('width', MAP);
  map.setAttribute('aria-hidden', 'true');
  $('branches').replaceChildren(...rows.map(branchRow));
  $('twigs').replaceChildren(map);
  drawSpot();
  if (focus) ($('branches').querySelector(`[data-branch="${focus}"]`) || $('branches').querySelector('button')).focus();
}
const acrossMap = n => 8 + (MAP - 16) * n / longest, downMap = row => BRANCH * (row + 0.5);
// The line of a branch, from where it parts to its end, and how it ends.
function twig({branch, parent, last}, row) {
  const from = parent ? `M${acrossMap(parent.at)} ${downMap(parent.row)}V${downMap(row)}` : `M${acrossMap(0)} ${downMap(row)}`;
  const end = branch.same === undefined ? 'unknown' : branch.same ? 'ok' : 'bad';
  const line = `<path class="twig${branch.id === current ? ' on' : ''}" d="${from}H${acrossMap(last)}"/>`;
  return line + `<circle class="${end}" cx="${acrossMap(last)}" cy="${downMap(row)}" r="3.5"/>`;
}
// Puts the cursor on the map.
function drawSpot() {
  $('spot').setAttribute('cx', acrossMap(now));
  $('spot').setAttribute('cy', downMap(branches.findIndex(branch => branch.id === current)));
}
function branchRow({branch: {id, same}, parent, last}) {
  const ends = same === undefined ? '' : same ? ', serial same' : ', serial differs';
  const steps = `${last} ${last === 1 ? 'step' : 'steps'}`, from = parent ? `, from branch ${branches[parent.row].id} after step ${parent.at}` : '';
  const go = el('button', 'branch', el('b', '', id), ` ${steps}`);
  go.dataset.branch = id;
  go.title = go.ariaLabel = `branch ${id}: ${steps}${from}${ends}`;
  go.onclick = () => guarded(visit)(id);
  if (id === current) go.setAttribute('aria-current', 'true');
  return el('li', '', go, ...(id === current ? [] : [branchButton('⇆', `lays branch ${id} beside the one that is shown`, () => layBeside(id))]),
    branchButton('×', `takes branch ${id} away`, () => guarded(removeBranch)(id)));
}
function branchButton(sign, words, work) {
  const button = el('button', '', sign);
  button.title = button.ariaLabel = words;
  button.tabIndex = -1;
  button.onclick = work;
  return button;
}
$('branches').onkeydown = event => {
  const all = [...$('branches').querySelectorAll('.branch')], id = +event.target.dataset.branch;
  const move = way => (all[all.indexOf(event.target) + way] || event.target).focus();
  const work = {ArrowDown: () => move(1), ArrowUp: () => move(-1), Delete: () => guarded(removeBranch)(id), d: () => layBeside(id)}[event.key];
  if (!id || !work) return;
  event.preventDefault();
  event.stopPropagation();
  work();
};

// ---- two branches side by side
const MOST_BESIDE = 300;                // as many steps are shown of each

// Lays a branch beside the one that is shown; where that is itself, or without a number, the one that was shown before, or any other.
const layBeside = guarded(async id => {
  const two = [branchOf(id), branchOf(previous), ...branches].find(branch => branch && branch.id !== current);
  if (!two) return note('there is one branch');
  const pair = [current, two.id], answer = await ask('beside', {texts: [doc.text, two.text]});
  if (answer.fault) return note(`branch ${pair.join(' or ')}: ${answer.fault.words}`);
  drawBeside(pair, answer);
  $('beside').hidden = false;
  $('beside').querySelector('button').focus();
});
function closeBeside() {
  if ($('beside').hidden) return;
  $('beside').hidden = true;
  $('view').focus();
}
function drawBeside(pair, {scenarios, both, steps, verdicts: ends, states}) {
  const close = el('button', '', 'Close');
  close.title = 'Esc';
  close.onclick = closeBeside;
  const differ = scenarios.length ? 'are of different scenarios, and ' : '';
  const title = el('h2', '', `branches ${pair.join(' and ')} ${differ}part ${both ? `after step ${both}` : 'at the opening'}`);
  const scenarioRows = scenarios.map(([subject, ...parts]) => el('tr', 'state', el('th', '', subject), ...parts.map(part => el('td', '', part || '—'))));
  const count = Math.max(...steps.map(list => list.length)), rows = Array.from({length: Math.min(count, MOST_BESIDE)}, (_, k) => k);
  const body = rows.map(k => el('tr', '', el('th', '', both + k + 1), ...pair.map((id, side) => stepCell(id, both + k + 1, steps[side][k]))));
  const heads = ['step', ...pair.map(id => `branch ${id}`)].map(word => el('th', '', word));
  const more = count > MOST_BESIDE ? [el('p', '', `and ${count - MOST_BESIDE} more steps`)] : [];
  const verdictRow = el('tr', '', el('th', '', 'end'), ...ends.map(word => el('td', '', verdictChip(word === 'serial same'))));
  const stateRows = states.map(lines => el('tr', 'state', el('th', '', ''), ...lines.map(line => el('td', '', line || '—'))));
  const table = el('table', '', el('tr', '', ...heads), ...scenarioRows, ...body, verdictRow, ...stateRows);
  $('beside').replaceChildren(el('div', 'bar', title, el('span', 'fill'), close), table, ...more);
}
// A step of one of two branches: a click shows it there.
function stepCell(id, number, step) {
  if (!step) return el('td', '', '');
  const [choice, instr, outcome, look] = step, go = el('button', '', el('b', '', choice), el('code', '', instr), el('span', look, outcome));
  go.onclick = () => { closeBeside(); guarded(visit)(id, number); };
  return el('td', '', go);
}
