"""Whom the steps of some scenarios wait for, worked out by hand from the step table; for the pictures and the prompt."""

SCENARIO = '''zephyr 2
cap 4
pages 1
rule %s
row 10 1
txn 0
set r0 10
read r1 r0
commit
txn 1
set r0 10
read r1 r0
commit
txn 2
set r3 10
write r3 r0
commit
txn writer
set r0 10
write r0 r1
commit
txn 4
set r0 10
read r1 r0
commit
txn 5
set r0 3
set r1 12
sum r0 r1
commit
C begin 0
C begin 1
C begin 2
A run 0 x 2
A run 1 x 2
A run 2 x 2
C start
B take
A take
B take
C begin writer
B run writer x 2
A take
B run writer
%send
'''

LOOSE = SCENARIO % ('loose', '''B take
B run writer
C begin 4
B run 4 x 2
C begin 5
B run 5 x 3
''')

# Under `held` the request stays in the link.
HELD = SCENARIO % ('held', '')

# Two readers that write then: each has a lock of its own, and waits for that of the other.
RAISED = '''zephyr 1
cap 4
pages 1
rule held
row 10 1
txn 0
set r0 10
read r1 r0
write r0 r0
commit
txn 1
set r0 10
read r1 r0
write r0 r0
commit
C begin 0
C begin 1
A run 0 x 2
A run 1 x 2
A run 0
A run 1
end
'''

# By the number of the step: the sentence, and the note in few words.
LOOSE_WAITS = {
    9: ('waits for page 0 (row 10), locked at A by transaction 0 (shared) and transaction 1 (shared)', 'locked by t0 and t1'),
    16: ('asks for page 0 (row 10), which is at A, locked there by transaction 0 (shared) and transaction 1 (shared)', 'at A, locked by t0 and t1'),
    18: ('waits for page 0 (row 10), which is on link AB', 'on link AB'),
    23: ('waits for page 0 (row 10), locked at B by transaction 3 writer (exclusive)', 'locked by t3 writer'),
    27: ('waits for page 0 (rows 3 to 12), locked at B by transaction 3 writer (exclusive)', 'locked by t3 writer'),
}

HELD_WAITS = {
    9: LOOSE_WAITS[9],
    16: LOOSE_WAITS[16],
    17: ('page 0 stays, locked at A by transaction 0 (shared) and transaction 1 (shared)', 'locked by t0 and t1'),
    18: ('waits for page 0 (row 10), which is at A, locked there by transaction 0 (shared) and transaction 1 (shared)', 'at A, locked by t0 and t1'),
}
RAISED_WAITS = {
    7: ('waits for page 0 (row 10), locked at A by transaction 1 (shared)', 'locked by t1'),
    8: ('waits for page 0 (row 10), locked at A by transaction 0 (shared)', 'locked by t0'),
}

SCENARIOS = ((LOOSE, LOOSE_WAITS), (HELD, HELD_WAITS), (RAISED, RAISED_WAITS))
