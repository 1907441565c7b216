// The scenarios that can be chosen: the user's own, a new one, and the examples.
let own = new Map();                    // the texts of the user's own, by name: files, links, and what was typed; never changed in place, as branches
const FRESH = `zephyr 1
cap 4 ; the most rows of a page
pages 4 ; the most pages
rule held ; a page that is locked at the source stays there
row 10 1 ; a key, and its value
txn 0 ; a program: it reads the row
set r0 10
read r1 r0
commit
end
`;
// Takes a scenario, and shows it at a position.
function take(text, title, at = Infinity) {
  [name, typed] = [title, 0];
  [branches, current, previous] = [[{id: 1, text}], 1, 0];
  closeBeside();
  showName();
  return setText(text, at);
}
// Keeps what is shown for undo, and says so where it is not an example as it comes.
function putAside() {
  if (!name) return;
  const many = branches.length > 1 ? ` with its ${branches.length} branches` : '', isChanged = many || doc.text !== given.examples[name];
  remember();
  if (own.has(name)) own = new Map([...own, [name, doc.text]]);
  note(isChanged ? `${name}${many} is put aside; undo brings it back` : '');
}
function begin(text, title) {
  putAside();
  guarded(take)(text, title);
}
// Shows the scenarios that can be chosen, and the name of the one that is shown.
function showName() {
  for (const old of $('example').querySelectorAll('.own')) old.remove();
  $('example').prepend(...[...own.keys()].map(title => { const option = new Option(title, 'own ' + title); option.className = 'own'; return option; }));
  $('example').value = own.has(name) ? 'own ' + name : name;
  document.title = `${name} · zplay`;
}
// Gives a text of the user's own an entry, and tells its name.
function setOwn(title, text) {
  own = new Map([...own, [title, text]]);
  return title;
}
// A name that neither an example nor a text of the user's own has.
function freeName(title) {
  const begun = title in given.examples ? title + ' (yours)' : title;
  let free = begun;
  for (let number = 2; own.has(free); number++) free = `${begun} ${number}`;
  return free;
}
// What a text in an address is named: what it was named before the page was loaded again, or the scenario that it has with other choices.
function nameFor(text) {
  const {name: before} = history.state || {}, isOf = other => scheduleOf(other).head === scheduleOf(text).head;
  if (before) return before in given.examples || own.has(before) ? before : setOwn(before, text);
  if (isOf(given.text)) return GIVEN;
  return Object.keys(given.examples).find(title => isOf(given.examples[title])) || setOwn(freeName('from a link'), text);
}
$('example').append(new Option('new', '/new'), ...Object.keys(given.examples).map(title => new Option(title.replace(/_/g, ' '), title)));
// What zplay was started with, by its name here.
const GIVEN = given.examples[given.name] === given.text ? given.name : setOwn(freeName(given.name), given.text);
showName();
$('example').onchange = ({target: {value}}) => {
  if (value === '/new') return beginOwn(FRESH, 'your own text');
  const title = value.replace(/^own /, '');
  return begin(own.has(title) ? own.get(title) : given.examples[title], title);
};
// Takes a scenario of the user's own, which gets an entry.
function beginOwn(text, title) {
  putAside();
  guarded(take)(text, setOwn(freeName(title), text));
}
$('file').onchange = async event => {
  const file = event.target.files[0];
  if (file) beginOwn((await file.text()).replace(/\r\n/g, '\n'), file.name.replace(/\.\w+$/, ''));
  event.target.value = '';              // so that the same file can be opened again
};
