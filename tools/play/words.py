"""What words mean that stand on the page without a sentence."""

import outcomes

# The words of a scenario's header, as the page has them, and of a step that sends a message.
HEADER = {
    'version': 'the version of scenarios: with version 2 come a second migration and sums',
    'cap': 'the most rows of a page',
    'pages': 'how many pages there are, and the most that there may be: a full page is split in two',
    'rule held': 'a page that a transaction at the source has locked is not handed over before the lock is dropped',
    'rule loose': 'a page that is asked for is handed over, though a transaction at the source has it locked',
    '!': 'behind an outcome: the step sends this message',
    'low keys': 'the wireframe: the least key of each page, and the number of the page; a page has the keys from there up to the low key of the next one',
    'kills': 'lets the client kill transactions in the schedules that are looked at',
    'states': 'at most as many states are looked at, and then the search gives up'}

# Outcomes of choices that change nothing.
NOTHING = ('badmode', 'nomessage', 'nopush', 'idle')


def messages():
    """Each message with what it says, in the words of docs/step-table.md."""
    with open(outcomes.TABLE, encoding='utf-8') as file:
        return {outcomes.plain(word): 'the message: ' + outcomes.plain(says) for word, says in outcomes.rows_of(file.read(), '| Message | Says |')}


def meanings():
    """Each word with what it means: the header's, the messages, and in the words of docs/formats.md the modes and some outcomes."""
    sentences = outcomes.meanings(NOTHING)
    return {**HEADER, **messages(), **outcomes.modes(), **{word: sentences[word][0].lower() + sentences[word][1:].rstrip('.') for word in NOTHING}}
