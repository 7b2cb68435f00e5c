"""The exit codes: those of the program, which are never changed, and those of the script's own failures."""

SETTLED = 0
NO_TEXT = 1
DEADLOCK = 3
TRAPPED = 4
BAD_WORDS = 10
BAD_PROGRAM = 11
CHECK_FAILED = 12
BAD_MACHINE = 13
BAD_LOG = 14
AMBIGUOUS = 15
TOO_LONG = 16
BUDGET_SPENT = 17
TOO_BIG = 18
READ_FAULT = 20
WRITE_FAULT = 21
NO_FILE = 22
NO_MEMORY = 30

# The script's own. No program's code is among them.
BAD_SCRIPT_WORDS = 64
NO_BUILD = 69
CHECK_STOPPED = 70
NOT_WRITTEN = 73
INTERRUPTED = 130
