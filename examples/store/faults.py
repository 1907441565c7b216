"""Faults that the store can have, for a trial of whether its logs show them."""

FAULTS = {
    'resend': 'the push sends every page, also those that were pulled',
    'unheld': 'a pulled page leaves though a transaction has it locked, whatever the rule says',
    'ghost': 'a transaction at the source goes on with what is left there of a page that has gone',
    'install': 'a commit at the source installs its rows, also where their page has gone',
    'unlock': 'the locks of a transaction are dropped after its last access, before it commits',
    'early': 'the destination is normal when one page is still missing',
    'nolock': 'a read takes no lock and looks at none',
    'old': 'a page leaves with the rows that it had when the migration started',
    'more': 'a read at the destination returns 1000 too much',
    'lost': 'the message that the source has no active transaction is lost',
    'route': 'the source begins transactions though it is dual',
    'late': 'a full page is split at the source though the wireframe has left',
}


class Slips:
    """The fault that a node has, and how often it did what it would not have done without. The rows that it keeps for that, no store would keep."""

    def __init__(self, fault):
        self.fault, self.count = fault, 0
        self.left, self.snapshot = {}, {}   # the rows of pages that have gone, and those of each page when the migration started

    def into(self, fault, differs):
        """Whether the node has this fault, and it makes a difference here."""
        slips = self.fault == fault and differs
        self.count += slips
        return slips
