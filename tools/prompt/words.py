"""The words of the prompt: commands, their short forms, and what `help` says of them."""

HELP = """moves     step [N] (s, n)     N choices on (1)            back [N] (bs)       N choices back (1)
          goto N              to position N               cont (c), rcont (rc)  to the next stop, to the previous one
          find WORDS          to the next step whose line has these words: find held, find aborted
          find if GOAL        to the next state that meets a goal: find if page 0 at B and txn 0 active
stops     break page P (b)    where page P moves          break mode          where a mode changes
          break abort         where a transaction aborts  watch K (w)         where the value at key K changes
          break if GOAL       where a goal of search turns true
          delete I (d)        takes stop I away           delete goal I       takes a goal away
          stops (info break)  the stops and goals that are set
looks     page P (p)          a page and its locks        txn T (t)           a transaction, by number or name
          node A, node B      a node's mode, the low key of each page that it knows, and the pages that it has asked for
          links               the messages on their way   where               the position and the modes
          list [N] (l)        the choices around (5)      state               all lines of the state
          explain [OUTCOME]   what an outcome means, and when it comes; without words that of the last step
          summary             the whole run in some lines
schedule  do CHOICE [x N]     makes a choice after the position; those that were after it are set aside
          do CHOICE until wait    makes it until it waits, ends or changes nothing; until end: goes on where it asks for a page
          end                 puts the choices after the position that end the migration: who is active is killed
          undo                the choices as they were before the last do or end
          save FILE           writes the scenario with the choices up to the position
          help (h), quit (q)      quit asks first where choices are not saved
A word may be shortened as long as only one command begins so. An empty line does the last move again."""

# What each command takes, for a line that it does not take.
FORMS = {
    'step': 'step [N], as: step 3', 'back': 'back [N], as: back 3', 'goto': 'goto N, as: goto 10', 'cont': 'cont', 'rcont': 'rcont',
    'find': 'find WORDS, as: find held, or find if GOAL, as: find if commits = 1',
    'break': 'break page P, break mode, break abort or break if GOAL', 'watch': 'watch K, as: watch 10',
    'delete': 'delete I, as: delete 1', 'page': 'page P, as: page 0', 'txn': 'txn T, as: txn 0', 'node': 'node A or node B',
    'links': 'links', 'where': 'where', 'do': 'do CHOICE [x N | until wait | until end], as: do A run 0 until wait', 'save': 'save FILE'}

COMMANDS = ('step', 'back', 'goto', 'cont', 'rcont', 'find', 'break', 'watch', 'delete', 'stops', 'page', 'txn', 'node', 'links', 'where', 'list',
            'state', 'explain', 'summary', 'do', 'end', 'undo', 'save', 'help', 'quit')

SHORT = {'s': 'step', 'n': 'step', 'next': 'step', 'bs': 'back', 'g': 'goto', 'c': 'cont', 'continue': 'cont', 'rc': 'rcont', 'b': 'break',
         'w': 'watch', 'd': 'delete', 'p': 'page', 'print': 'page', 't': 'txn', 'l': 'list', 'f': 'find', 'h': 'help', 'q': 'quit',
         'exit': 'quit', 'reverse-continue': 'rcont', 'reverse-step': 'back', 'rs': 'back'}

# The commands that an empty line does again.
MOVES = ('step', 'back', 'cont', 'rcont', 'find')


class Unknown(Exception):
    """A word that is no command, or the beginning of several."""


def command_of(words):
    """The command that a line calls, and its words."""
    word, *rest = words
    if word in ('i', 'info') and rest and 'breakpoints'.startswith(rest[0]):
        return 'stops', []
    if word in ('A', 'B', 'C') and rest:
        raise Unknown('a choice is made by do: do %s' % ' '.join(words))
    if word in COMMANDS or word in SHORT:
        return SHORT.get(word, word), rest
    begun = [command for command in COMMANDS if command.startswith(word)]
    if len(begun) != 1:
        raise Unknown('%s: %s' % (word, 'one of ' + ', '.join(begun) if begun else 'no command; try help'))
    return begun[0], rest


def complete(text, state):
    """The commands that begin so, one a call, as readline asks for them."""
    words = COMMANDS + ('mode', 'abort', 'if', 'goal', 'until', 'wait')
    return ([word + ' ' for word in words if word.startswith(text)] + [None])[state]
