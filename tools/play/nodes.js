// What a node has that no line of a trace shows: the debugger replies it.
const wireframes = new Map();           // by the text up to the cursor: of each node its low keys, by page number, and the pages that it has asked for

const MOST_NAMED = 24;                  // as many pages are named
function few(items) {
  return [...items.slice(0, MOST_NAMED).flatMap(item => [item, ' ']), items.length > MOST_NAMED ? `and ${items.length - MOST_NAMED} more` : ''];
}
function nodePart(node, {lows, asked}) {
  const byKey = lows.map((low, p) => [low, p]).sort(([a], [b]) => a - b);
  const wires = byKey.map(([low, p]) => explain(el('span', 'wire', `${low}`, el('small', '', ` page ${p}`)), `page ${p} has the keys from ${low} on`));
  const requests = asked.map(p => `page ${p}`);
  return [el('dt', node, 'node ' + node), el('dd', '', explain(el('small', '', 'low keys '), given.words['low keys']), ...(wires.length ? few(wires) : ['no wireframe'])),
    el('dd', '', el('small', '', 'has asked for '), ...(requests.length ? few(requests) : ['no page']))];
}
function drawNodes() {
  const found = wireframes.get(textHere());
  $('nodes').classList.toggle('pending', !found);
  if (!found) return askNodesSoon();
  $('nodes').replaceChildren(el('h2', '', 'wireframes, and pages that were asked for'),
    el('dl', '', ...['A', 'B'].flatMap(node => nodePart(node, found[node]))));
}
const askNodesSoon = debounced(guarded(async () => {
  if (busy) return;                     // the next run asks again
  const text = textHere(), found = await ask('nodes', {text});
  if (found.fault) return;              // the page says so of the whole text
  if (wireframes.size > 200) wireframes.clear();
  wireframes.set(text, found);
  drawNodes();
}), 30);
// Whom each choice would wait for that can be made next.
function drawWaits(choices, outcomes) {
  const waits = choices.map((choice, k) => [choice, outcomes[k].waits]).filter(([, words]) => words);
  const rows = waits.map(([choice, words]) => el('li', '', el('b', '', named(choice)), ` ${words}`));
  $('waits').replaceChildren(...(rows.length ? [el('h2', '', 'what waits here'), el('ul', '', ...rows)] : []));
}
