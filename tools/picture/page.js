'use strict';
const $ = id => document.getElementById(id);
let D = null, pieces = [];            // the run, and its picture in pieces
let now = -1, pinned = -1, zoom = 1;  // the step, the page that was clicked, and how large the picture is
let onShow = () => {};                // what else is done when a step is shown
let onMissing = () => {};             // what is done where pieces are in sight that are not there

// The entry of a timeline that holds at a position.
function at(line, n) {
  let low = 0, high = line.length;
  while (low < high) { const mid = (low + high) >> 1; if (line[mid][0] <= n) low = mid + 1; else high = mid; }
  return line[low - 1];
}
const fresh = (line, n) => n > 0 && at(line, n)[0] === n;

function el(tag, look, ...inner) {
  const made = document.createElement(tag);
  if (look) made.className = look;
  made.append(...inner);
  return made;
}

// Two buttons: to the last and to the next step at which a timeline changes.
function jumps(line, n) {
  const last = line.filter(([m]) => m < n).pop(), next = line.find(([m]) => m > n);
  return el('span', 'jumps', ...[[last, '◂', 'last'], [next, '▸', 'next']].map(([entry, sign, name]) => {
    const button = el('button', '', sign);
    button.title = button.ariaLabel = entry ? `the ${name} step at which this changes: ${entry[0]}` : 'no other change';
    button.disabled = !entry;
    button.onclick = () => show(entry[0]);
    return button;
  }));
}

// ---- the state
function page(n, p) {
  const line = at(D.pages[p], n)[1];
  if (!line) return null;
  const words = line.split(' ');
  const locks = words.indexOf('locks');
  return {p, place: words[2], low: words[4], rows: words.slice(6, locks), locks: words.slice(locks + 1), fresh: fresh(D.pages[p], n)};
}
function pageCard(n, it) {
  const old = n ? page(n - 1, it.p) : it;
  const rows = it.rows.map(row => el('code', old && old.rows.includes(row) ? '' : 'new', row));
  const locks = it.locks.map(lock => {
    const [node, txn, kind] = lock.split(':');
    const away = node !== it.place;
    return el('span', 'lockt' + (away ? ' away' : '') + (old && old.locks.includes(lock) ? '' : ' new'),
      `${kind === 'x' ? '▌' : '▏'}t${txn} ${kind === 'x' ? 'exclusive' : 'shared'}${away ? ' at ' + node : ''} `);
  });
  const head = el('div', it.fresh && old && old.place !== it.place ? 'new' : '', el('b', '', 'page ' + it.p), ' ', el('small', '', '≥ ' + it.low), jumps(D.pages[it.p], n));
  return el('div', 'card ' + it.place, head, el('div', 'values', ...(rows.length ? rows : [el('small', '', 'no rows')])), ...(locks.length ? [el('div', '', ...locks)] : []));
}
function modeChip(node, n) {
  const mode = at(D.modes[node], n)[1], chip = el('i', fresh(D.modes[node], n) ? 'fresh' : '', mode);
  chip.style.background = `var(--${mode})`;
  return chip;
}
function column(n, name, places, count, pages) {
  const head = el('b', '', `${name} · ${count}`);
  if (places.length === 1) head.append(modeChip(places[0], n));
  return el('div', 'col', head, ...pages.filter(it => places.includes(it.place)).map(it => pageCard(n, it)));
}
function pagesPart(n) {
  const all = D.pages.map((_, p) => page(n, p)).filter(it => it);
  const few = all.length <= 24;
  const shown = few ? all : all.filter(it => it.fresh || it.p === pinned || it.place.length > 1);
  const part = [el('h2', '', few ? 'pages' : 'pages, and those that move, change or were clicked')];
  if (!few) part.push(map(all));
  part.push(el('div', 'three', ...[['A', ['A']], ['on the way', ['AB', 'BA']], ['B', ['B']]].map(([name, places]) =>
    column(n, name, places, all.filter(it => places.includes(it.place)).length, few ? shown : []))));
  if (!few) part.push(el('div', 'flow', ...shown.slice(0, 24).map(it => pageCard(n, it))));
  if (!few && shown.length > 24) part.push(el('small', '', `and ${shown.length - 24} more that are moving`));
  const locked = all.filter(it => it.locks.length);
  if (!few && locked.length) part.push(lockList(locked));
  return part;
}
function lockList(locked) {
  const items = locked.slice(0, 24).map(it => {
    const item = el('button', it.fresh ? 'new' : '', `${it.p} ${it.locks.join(' ')}`);
    item.onclick = () => { pinned = it.p; show(now); };
    return item;
  });
  return el('p', 'locks', el('small', '', `${locked.length} locked${locked.length > 24 ? ', the first of them' : ''}: `), ...items.flatMap(item => [item, ' ']));
}
function map(all) {
  const cells = all.map(it => {
    const cell = el('i', it.place + (it.locks.length ? ' locked' : '') + (it.fresh ? ' fresh' : ''));
    cell.title = `page ${it.p} from ${it.low}`;
    cell.onclick = () => { pinned = it.p; show(now); };
    return cell;
  });
  return el('div', 'map', ...cells);
}
function queue(n, link, name) {
  const waiting = D.messages.filter(m => m[0] === link && m[2] <= n && n < m[3]);
  const items = waiting.slice(0, 12).map(m => { const it = el('span', m[2] === n ? 'new' : '', m[1]); it.title = 'sent at ' + m[2]; return it; });
  if (waiting.length > 12) items.push(`and ${waiting.length - 12} more`);
  return el('div', 'queue', el('b', '', name), ...(items.length ? items : [el('small', '', 'empty')]));
}
function txn(n, t) {
  const [position, line] = at(D.txns[t], n);
  const words = line.split(' '), status = words[2], pc = words.indexOf('pc'), regs = words.indexOf('regs'), own = words.indexOf('private');
  const why = line.split(' pc ')[0].split(' done ')[0].split(' ').slice(2);
  const old = n ? at(D.txns[t], n - 1)[1].split(' ') : words;
  return {t, n, status, why, pc: pc < 0 ? -1 : +words[pc + 1], regs: regs < 0 ? [] : words.slice(regs + 1, regs + 9), fresh: position === n && n > 0,
    oldRegs: old.includes('regs') ? old.slice(old.indexOf('regs') + 1, old.indexOf('regs') + 9) : [], own: own < 0 ? [] : words.slice(own + 1),
    oldOwn: old.includes('private') ? old.slice(old.indexOf('private') + 1) : []};
}
function txnCard(it, me, open) {
  const head = el('div', '', el('b', '', D.names[it.t]), el('span', 'tag ' + it.status + (it.fresh && it.status !== 'active' ? ' fresh' : ''), it.why.join(' ')));
  if (it.pc >= 0) head.append(el('small', '', 'next: '), el('code', '', D.programs[it.t][it.pc]));
  head.append(el('span', 'fill'), jumps(D.txns[it.t], it.n));
  const card = el('div', 'tx' + (me ? ' me' : ''), head);
  if (!open) return card;
  if (it.regs.length) card.append(el('div', 'regs mono', ...it.regs.map((value, r) => el('span', (value !== '0' ? 'has' : '') + (it.oldRegs.length && it.oldRegs[r] !== value ? ' new' : ''), `r${r}=${value}`))));
  if (it.own.length) card.append(el('div', '', el('small', '', 'private '), ...it.own.map(row => el('code', it.oldOwn.includes(row) ? '' : 'new', row + ' '))));
  if (it.pc >= 0) card.append(program(it));
  return card;
}
function program(it) {
  const all = D.programs[it.t], from = all.length > 9 ? Math.max(0, it.pc - 3) : 0;
  return el('ol', 'prog mono', ...all.slice(from, from + 9).map((line, k) => el('li', from + k === it.pc ? 'pc' : '', `${from + k} ${line}`)));
}
function txnsPart(n) {
  const all = D.txns.map((_, t) => txn(n, t)), few = all.length <= 6, me = n > 0 ? D.actors[n] : -1;
  const count = status => all.filter(it => it.status === status).length;
  const counts = ['active', 'committed', 'aborted', 'new'].map(status => `${count(status)} ${status}`).join(', ');
  const cards = few ? all : [...all.filter(it => it.t === me), ...all.filter(it => it.t !== me && it.status === 'active')];
  const ended = few ? [] : all.filter(it => it.t !== me && it.why.length > 1 && it.status !== 'active');
  return [el('h2', '', few ? 'transactions' : 'transactions: ' + counts), ...cards.map(it => txnCard(it, it.t === me, few || it.t === me)),
    el('p', 'ended', ...ended.flatMap(it => [el('span', 'tag ' + it.status, `${D.names[it.t]} ${it.why.slice(1).join(' ')}`), ' ']))];
}

// ---- the picture, in pieces
function drawing(inner, width, height, top = 0) {
  const made = document.createElementNS('http://www.w3.org/2000/svg', 'svg');
  made.setAttribute('viewBox', `0 ${top} ${width} ${height}`);
  made.dataset.height = height;
  made.setAttribute('aria-hidden', 'true');
  made.innerHTML = inner;
  return made;
}
const row = () => D.row * zoom;
const place = (box, n) => { box.style.cssText = `top:${D.rowOf[n] * row()}px;height:${row()}px;width:${D.width * zoom}px`; };
function size(box, width, height) {
  box.setAttribute('width', width * zoom);
  box.setAttribute('height', height * zoom);
}
// As large as the window lets it be: not too small to read, and larger where the whole run still fits.
function fit() {
  const tall = ($('view').clientHeight - 64) / (D.height + 150);
  zoom = Math.max(0.75, Math.min(1.25, Math.max(1, tall), $('view').clientWidth / D.width));
  pieces.forEach((piece, k) => { piece.style.top = k * D.chunk * zoom + 'px'; });
  for (const made of document.querySelectorAll('#top>svg,#rows>svg,#below>svg')) size(made, D.width, +made.dataset.height);
  for (const box of ['top', 'rows', 'below']) $(box).style.width = D.width * zoom + 'px';
  $('rows').style.height = D.height * zoom + 'px';
}
// Makes the pieces of a run. One that is drawn, and drawn alike in the run before, stays.
function takePieces(before) {
  const old = pieces, height = k => Math.min(D.chunk, D.height - k * D.chunk);
  const isAlike = k => before && before.width === D.width && old[k] && +old[k].dataset.height === height(k) && D.pieces[k] !== undefined && before.pieces[k] === D.pieces[k];
  pieces = Array.from({length: Math.ceil(D.height / D.chunk)}, (_, k) => isAlike(k) ? old[k] : drawing('', D.width, height(k), k * D.chunk));
  for (const gone of old.filter(piece => !pieces.includes(piece))) gone.remove();
  $('rows').append(...pieces.filter(piece => !piece.isConnected));
}
function drawSight() {
  const top = $('view').scrollTop, height = $('view').clientHeight - $('top').offsetHeight, missing = [];
  pieces.forEach((piece, k) => {
    const near = (k + 1) * D.chunk * zoom > top - 400 && k * D.chunk * zoom < top + height + 400;
    if (near && !piece.firstChild && D.pieces[k] !== undefined) piece.innerHTML = D.pieces[k];
    if (near && D.pieces[k] === undefined) missing.push(k);
    if (!near && piece.firstChild) piece.replaceChildren();
  });
  const whole = $('strip').clientHeight / (D.height * zoom);
  $('sight').style.top = top * whole + 'px'; $('sight').style.height = Math.min(D.height * zoom, height) * whole + 'px';
  light();
  if (missing.length) onMissing(missing);
}
function light() {
  for (const line of document.querySelectorAll('.msg.on')) line.classList.remove('on');
  for (const line of document.querySelectorAll(`.msg[data-a="${now}"],.msg[data-b="${now}"]`)) line.classList.add('on');
}
function stepAt(event) {
  const at = Math.floor((event.clientY - $('rows').getBoundingClientRect().top) / row());
  return D.rowOf.indexOf(Math.max(0, Math.min(at, D.height / D.row - 1)));
}
function reveal() {
  const view = $('view'), y = D.rowOf[now] * row(), height = view.clientHeight - $('top').offsetHeight, margin = Math.min(66, height / 3);
  if (y < view.scrollTop + margin) view.scrollTop = y - margin;
  if (y > view.scrollTop + height - margin - row()) view.scrollTop = y - height + margin + row();
}

// ---- moves
// Takes another run, and shows it at a position.
function load(run, n) {
  const before = D;
  D = run;
  $('chips').replaceChildren(...D.chips.flatMap(words => [el('span', 'chip', words), ' ']));
  $('verdict').replaceChildren(...D.verdict.flatMap(([words, good]) => [el('span', 'chip ' + (good ? 'good' : 'wrong'), words), ' ']));
  const strip = drawing(D.overview.parts, 60, D.overview.rows);
  strip.setAttribute('preserveAspectRatio', 'none');
  strip.style.setProperty('--thick', D.overview.thick);
  $('whole').replaceChildren(strip);
  document.querySelector('main').classList.toggle('whole', D.overview.rows <= 45);
  takePieces(before);
  drawMet([]);
  $('top').replaceChildren(drawing(D.head, D.width, 44));
  $('below').replaceChildren(drawing(D.key, D.width, D.tall));
  $('slide').max = D.last;
  fit();
  show(n);
}
function show(n) {
  now = Math.max(0, Math.min(D.last, n));
  $('slide').value = now;
  $('slide').ariaValueText = `step ${now} of ${D.last}`;
  $('where').textContent = `${now} of ${D.last}`;
  $('line').textContent = D.lines[now].replace('->', '→');
  $('gloss').textContent = gloss(now);
  place($('mark'), now);
  $('now').replaceChildren(...pagesPart(now), el('h2', '', 'links, front first'), queue(now, 'AB', 'A → B'), queue(now, 'BA', 'B → A'), ...txnsPart(now));
  reveal(); drawSight();
  onShow();
}
function gloss(n) {
  if (!n) return 'Before the first step.';
  const waits = D.waits[n] ? ' ' + D.waits[n] : '';
  const left = D.pages.map((_, p) => page(n, p)).filter(it => it && it.fresh && it.place.length > 1 && it.locks.length);
  const behind = left.map(it => ` Locks on page ${it.p} stay behind: ${it.locks.join(' ')}.`).join('');
  const [, sent] = D.lines[n].split(' ! '), sends = sent ? ` It sent the message ${sent}.` : '';
  return D.glosses[D.gloss[n - 1]] + (D.instrs[n] ? ` Tried: ${D.instrs[n]}.` : '') + waits + sends + behind;
}
function notable(way) {
  const next = way > 0 ? D.marks.find(m => m > now) : D.marks.filter(m => m < now).pop();
  show(next === undefined ? (way > 0 ? D.last : 0) : next);
}
function find(way) {
  const sought = $('find').value.trim(), [, goal] = sought.match(/^if\s+(.+)$/s) || [];
  if (goal) findGoal(goal, way);
  else if (sought) goTo(way, linesWith(sought));
}
// The positions of the lines that have some words, or else their letters.
function linesWith(sought) {
  const having = test => D.lines.flatMap((line, n) => test(` ${line} `) ? [n] : []), exact = having(line => line.includes(` ${sought} `));
  return exact.length ? exact : having(line => line.includes(sought));
}
// Goes to the next or the last of some positions; behind the last one the first comes.
function goTo(way, hits) {
  const next = way > 0 ? hits.find(n => n > now) ?? hits[0] : hits.filter(n => n < now).pop() ?? hits[hits.length - 1];
  if (next !== undefined) show(next);
  $('found').textContent = hits.length ? `${hits.indexOf(next) + 1} of ${hits.length}` : 'none';
}
// Goes to where a goal turns true: of this file those are known that were asked for when it was made.
let findGoal = (goal, way) => {
  const known = Object.keys(D.goals);
  if (!known.includes(goal)) $('found').textContent = known.length ? `here: ${known.map(one => 'if ' + one).join(', ')}` : 'made without zview --find';
  else goToGoal(D.goals[goal], way);
};
function goToGoal(stretches, way) {
  drawMet(stretches);
  goTo(way, stretches.map(([first]) => first));
}
// An edge beside the rows whose states meet a goal, by the first and the last of each stretch.
function drawMet(stretches) {
  for (const old of document.querySelectorAll('#met')) old.remove();
  if (!stretches.length) return;
  const lines = stretches.map(([first, last]) => `M7 ${D.rowOf[first] * D.row + 1}V${(D.rowOf[last] + 1) * D.row - 1}`);
  const made = drawing(`<path class="met" d="${lines.join('')}"/>`, D.width, D.height);
  made.id = 'met';
  $('rows').append(made);
  size(made, D.width, D.height);
}
const KEYS = {ArrowRight: () => show(now + 1), ArrowDown: () => show(now + 1), j: () => show(now + 1), ArrowLeft: () => show(now - 1),
  ArrowUp: () => show(now - 1), k: () => show(now - 1), PageDown: () => show(now + 20), PageUp: () => show(now - 20), Home: () => show(0),
  End: () => show(D.last), n: () => notable(1), p: () => notable(-1), '/': () => $('find').focus()};
$('find').oninput = () => { $('found').textContent = ''; drawMet([]); };
document.addEventListener('keydown', event => {
  if (event.target === $('find')) {
    if (event.key === 'Enter') find(event.shiftKey ? -1 : 1);
    if (event.key === 'Escape') $('find').blur();
  } else if (KEYS[event.key] && !event.target.matches('input:not([type=range]),textarea,select') && !event.ctrlKey && !event.metaKey && !event.altKey) {
    event.preventDefault();
    KEYS[event.key]();
  }
});
$('first').onclick = KEYS.Home; $('end').onclick = KEYS.End; $('back').onclick = KEYS.ArrowLeft; $('on').onclick = KEYS.ArrowRight;
$('slide').oninput = event => show(+event.target.value);
$('rows').onclick = event => show(stepAt(event));
$('rows').onmousemove = event => place($('over'), stepAt(event));
$('rows').onmouseleave = () => { $('over').style.height = 0; };
$('strip').onmousedown = $('strip').onmousemove = event => {
  const total = D.height / D.row, at = Math.floor((event.clientY - $('strip').getBoundingClientRect().top) / $('strip').clientHeight * total);
  if (event.buttons) show(D.rowOf.indexOf(Math.max(0, Math.min(total - 1, at))));
};
$('view').addEventListener('scroll', () => requestAnimationFrame(drawSight));
$('theme').onclick = () => {
  const dark = matchMedia('(prefers-color-scheme:dark)').matches, root = document.documentElement;
  root.dataset.theme = (root.dataset.theme || (dark ? 'dark' : 'light')) === 'dark' ? 'light' : 'dark';
};
addEventListener('resize', () => { fit(); show(now); });
