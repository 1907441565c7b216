// The address of a run: its position, its text, and a checksum.
async function packed(text) {
  const bytes = new Uint8Array(await new Response(new Blob([text]).stream().pipeThrough(new CompressionStream('deflate-raw'))).arrayBuffer());
  return btoa(Array.from(bytes, byte => String.fromCharCode(byte)).join('')).replace(/\+/g, '-').replace(/\//g, '_').replace(/=/g, '');
}
async function unpacked(word) {
  const bytes = Uint8Array.from(atob(word.replace(/-/g, '+').replace(/_/g, '/')), letter => letter.charCodeAt(0));
  return new Response(new Blob([bytes]).stream().pipeThrough(new DecompressionStream('deflate-raw'))).text();
}
// A sum of letters that is another one where one of them is (FNV-1a, 32 bits).
function checksum(letters) {
  let sum = 0x811c9dc5;
  for (const letter of letters) sum = Math.imul(sum ^ letter.charCodeAt(0), 0x01000193);
  return (sum >>> 0).toString(36).padStart(7, '0');
}
// The branches, for when the page is loaded again; where they are too long for the browser only the address is kept.
function keepBranches() {
  try {
    sessionStorage.setItem('branches', JSON.stringify({branches, current, previous, own: [...own]}));
  } catch (error) {
    sessionStorage.removeItem('branches');
  }
}
// What was kept of the branches with the one that has a text shown; null where there is nothing of it.
function keptBranches(text) {
  const kept = JSON.parse(sessionStorage.getItem('branches')), shown = kept && kept.branches.find(branch => branch.id === kept.current);
  return shown && shown.text === text ? kept : null;
}
async function store() {
  keepBranches();
  const run = `${Math.max(now, 0)}.${await packed(doc.text)}`;
  history.replaceState({name}, '', `#${run}.${checksum(run)}`);
}
const storeSoon = debounced(store, 200);
// The position and the text that an address has; nothing where it is damaged. One of an older zplay has no checksum.
async function linked(hash) {
  const [, run, at, word, sum] = hash.match(/^#((\d+)\.([\w-]+))(?:\.(\w+))?$/) || [];
  if (!word || sum !== undefined && sum !== checksum(run)) return null;
  return unpacked(word).then(text => ({text, at: +at}), () => null);
}
// Takes what is in an address, or else what zplay was started with.
async function arrive(hash) {
  note('');
  if (!hash) {
    putAside();
    return take(given.text, GIVEN);
  }
  const run = await linked(hash);
  if (!run) return showDamaged();
  if (D && run.text === doc.text) return show(run.at);
  putAside();
  const kept = D ? null : keptBranches(run.text);
  if (kept) own = new Map([...own, ...kept.own]);
  const shown = take(run.text, nameFor(run.text), run.at);
  if (kept) ({branches, current, previous} = kept);
  return shown;
}
// Says that a link is damaged. A run that is shown stays with its own address; no other one takes the place of the link's.
function showDamaged() {
  const words = 'the link is damaged, perhaps cut short or with a letter changed, and its run cannot be read: copy the whole link again';
  showFault({line: 0, words: D ? words + '; what is shown here is the run from before' : words});
  if (D) {
    document.body.classList.remove('stale');
    return storeSoon();
  }
  drawNoRun();
  $('link').disabled = true;
  $('fault').scrollIntoView({block: 'nearest'});
  name = '';
  $('example').selectedIndex = -1;
  document.title = 'zplay';
}
$('link').onclick = guarded(async () => {
  await store();
  const copied = await navigator.clipboard.writeText(location.href).then(() => true, () => false);
  note((copied ? 'the address is copied' : 'the address of this page is the link') + ": it has the whole run in it; a colleague opens it with ./zplay 'LINK'");
});
addEventListener('hashchange', event => guarded(arrive)(new URL(event.newURL).hash));
guarded(arrive)(location.hash);
