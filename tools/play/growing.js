// A run as the server sends it: what is another than in the run that is shown.
const grown = (old, [both, more]) => [...old.slice(0, both), ...more];

// The run of an answer, over the one that it is based on.
function runOf(answer) {
  const old = answer.base ? D : {}, run = {...old, ...answer.whole, name: answer.name, pieces: []};
  for (const [name, growth] of Object.entries(answer.lists)) run[name] = grown(old[name] || [], growth);
  for (const [name, growth] of Object.entries(answer.timelines)) run[name] = timelinesOf(old[name], growth, name === 'modes');
  for (const [number, piece] of Object.entries(answer.pieces)) run.pieces[number] = piece;
  return run;
}
function timelinesOf(old, {size, grown: lines}, areNamed) {
  const made = areNamed ? {...old} : Array.from({length: size}, (_, k) => old && old[k] || []);
  for (const [name, growth] of Object.entries(lines)) made[name] = grown(made[name] || [], growth);
  return made;
}
// Asks for pieces of the drawing that are in sight.
let asking = '';
onMissing = guarded(async numbers => {
  const run = D, wanted = `${run.name} ${numbers}`;
  if (busy || asking === wanted) return;
  asking = wanted;
  try {
    const answer = await ask('pieces', {text: run.text, title: run.title, numbers});
    if (answer.fault) throw new Error(answer.fault.words);
    Object.assign(run.pieces, answer.pieces);
  } finally {
    asking = '';
  }
  drawSight();
});
