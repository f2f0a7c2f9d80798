"""The component table of all tests in Python: that of clients/titan, which a release ships. Nothing here reads the rules again."""
import os
import sys

# Last, so that tests of another copy of the client have the table of that copy.
sys.path.append(os.path.normpath(os.path.join(os.path.realpath(__file__), "..", "..", "..", "clients", "titan")))

from titan_logs.table import (FAULTS, MOST_ARGUMENTS, MOST_BEHAVIOURS, MOST_COMPONENTS, STATUSES, VERDICTS, Component, Op, Table, Target,
                              worst)
