"""Every limit of the command, in one place."""

# What is read: all files of a call together, one line, the files of a folder, the lines that are kept of all processes.
MOST_BYTES = 2_147_483_648
MOST_BYTES_OF_A_LINE = 65_536
MOST_FILES = 50_000
MOST_LINES = 5_000_000
# How many lines that belong to one line of a log, as a value printed over several, are kept with it.
MOST_FOLLOWING = 20

# What ttrun reads as a history and as a script. How many behaviours, components and arguments there may be, the component
# table knows.
MOST_BYTES_OF_A_HISTORY = 16_777_216
MOST_BYTES_OF_A_SCRIPT = 1_048_576
MOST_TEST_CASES_OF_A_SCRIPT = 1000
MOST_STEPS = 1000
MOST_BYTES_OF_A_NAME = 32

# How many states a search looks at in a test case: without `--states`, and with the largest one.
STATES = 100_000
MOST_STATES = 10_000_000

# How long one call of ttrun may take, and how much it may print.
SECONDS_OF_A_CALL = 120

# What is printed of a fault: calls that could not be next, lines of two schedules, remarks of one kind.
MOST_NEXT = 6
MOST_ROWS = 12
MOST_REMARKS = 5
