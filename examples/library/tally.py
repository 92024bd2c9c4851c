"""tally.py DEFINITION FILE ..: prints the tally of files by the library, as `cvr tally` does."""
import json
import sys

import cvr

try:
    rows = cvr.tally(sys.argv[1], sys.argv[2:])
except cvr.Fault as fault:
    sys.exit('%s\n%s' % (fault, fault.words))
for row in rows:
    votes = [part for selection, votes in row.votes.items() for part in (json.dumps(selection), votes)]
    print(json.dumps(row.contest), json.dumps(row.unit), json.dumps(row.batch), *row.numbers, *votes)
