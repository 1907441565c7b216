// A goal in `find`: the server says in which states of the run it is met.
let met = {};                           // the goal that was found last, in which run, and the stretches of states that meet it

findGoal = guarded(async (goal, way) => {
  if (busy) return;                     // what is shown is the run of another text
  if (met.goal !== goal || met.run !== D) {
    const run = D, answer = await ask('find', {text: doc.text, goal});
    if (run !== D) return;
    if (answer.fault || answer.goal) return showFindFault(goal, answer);
    met = {goal, run, ...answer};
  }
  goToGoal(met.stretches, way);
  if (met.words) note(met.words);
});
// Says what is wrong with a goal, at its word.
function showFindFault(goal, {fault, goal: place, words}) {
  const box = $('find');
  $('found').textContent = fault ? fault.words : words;
  if (!place) return;
  const start = box.value.indexOf(goal, box.value.indexOf('if') + 2) + place.column - 1;
  box.setAttribute('aria-invalid', 'true');
  box.focus();
  box.setSelectionRange(start, start + place.length);
}
$('find').addEventListener('input', () => $('find').removeAttribute('aria-invalid'));
