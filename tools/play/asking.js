// Questions to the server, and the work that waits for its answers.
const given = JSON.parse($('given').textContent);  // what zplay was started with

const unreachable = error => { throw error.name === 'AbortError' ? error : new Error('zplay does not answer: is it still running?'); };
const post = (path, body, signal) => fetch(path, {method: 'POST', body: JSON.stringify(body), signal}).catch(unreachable);
async function ask(path, body, signal) {
  const answer = await post(path, body, signal);
  if (!answer.ok) throw new Error(await answer.text());
  return answer.json();
}
// Words for the user, beside the buttons.
const note = words => { $('note').textContent = words; };
// Work whose failure is noted; that it was given up is none.
const guarded = work => async (...inputs) => {
  try {
    await work(...inputs);
  } catch (error) {
    if (error.name !== 'AbortError') note(error.message);
  }
};
// Work that is done once nothing has asked for it for a while, in milliseconds.
const debounced = (work, wait) => { let clock; return () => { clearTimeout(clock); clock = setTimeout(work, wait); }; };
