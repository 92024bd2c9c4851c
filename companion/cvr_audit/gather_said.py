"""What `gather` and the page for a browser (web/) both go by where they read ZIPs and exports of
VxSuite: names, limits, and the sentences in which they refuse a source."""

# ---- ZIPs
LONGEST = 1 << 30           # bytes of a file in a ZIP
WHOLE = 1 << 33             # bytes of all files in a ZIP
DENSEST = 500               # bytes of a file in a ZIP for one packed byte
FREE = 1 << 20              # bytes of a file in a ZIP that may be packed more densely
HEAD = 1 << 20              # bytes by which a kind is recognised, as heads may be long
OF_A_MAC = r'__MACOSX/(.*/)?\._[^/]*'       # what a Mac keeps on each file of a ZIP
WITHIN = ('it is a ZIP in a folder or in another ZIP, and may have records; unpack it, or name it '
          'by itself')
CUT_OFF = 'the ZIP is damaged or cut off'
DAMAGED = 'the ZIP is damaged here, or packed in a way that is not known'
BACKSLASH = 'its path has a backslash; pack the ZIP with another tool'
OUTSIDE = 'its path leads out of the ZIP'
LINK = 'it is a link, which may lead out of the ZIP'
ENCRYPTED = 'it is encrypted'
PACKED = 'it is packed in a way that is not known'
TOO_LONG = 'it unpacks to %d bytes, which is too many'
AGAIN = 'it stands twice in the ZIP'
TOO_MUCH = 'it unpacks to more than %d bytes'

# ---- what is held in memory at once
TEXT = 1 << 28              # bytes of a text that is read whole
VALUE = 1 << 25             # of a list, of an item of a longer one, or of all that stands beside it
TREE = 1 << 23              # of XML, or of a row of a table
WIDEST = 20000              # columns of a table
TOO_LARGE = 'it has more than %d bytes, which are too many to hold at once'
TOO_WIDE = 'it has more than %d columns'

# ---- reports
NO_TEXT = 'this is not text in UTF-8; export it in that encoding'
NO_JSON = 'it is no JSON, or cut off: %s'
HALF = '%s is half of a sign, so a text here is cut off; have it exported anew'
# an escaped backslash, a whole pair of surrogates, or half of one
ESCAPED = r'\\\\|\\u[dD][89abAB]..\\u[dD][c-fC-F]..|(\\u[dD][89a-fA-F]..)'
TWICE = 'the member %s stands twice in an object'
UNNAMED = ('this record has no %s. The standard leaves it optional; here it is part of the name by '
           'which records are told apart, and nothing can stand in for it. Ask the maker of the '
           'system to export each record with a CreatingDeviceId and a UniqueId')
NO_NAME = 'the %s of this record is no text'
ELSEWHERE = 'the record %s stands here and in %s: %s'
REFUSED = 'cvr refuses it: %s'
NO_RECORD = 'there is no record of the kind %s'
NO_CONTEST = 'there is no contest, so no record has a vote'

# ---- what is written
MOST = 60000000         # bytes of a report; `cvr` reads up to 67,108,864
ROOM = 10000000         # of these for what is not a record
BEGINNING = '{"@type":"CVR.CastVoteRecordReport","CVR":[\n'
LONG_RECORD = 'this record is too long'
LONG_ELECTION = 'the election has more than %d bytes'

# ---- VxSuite
METADATA, REPORT = 'metadata.json', 'cast-vote-record-report.json'
FRAME = 'castVoteRecordReportMetadata'
CLOSED, BATCHES = 'arePollsClosed', 'batchManifest'
LEFT = CLOSED, 'castVoteRecordRootHash', BATCHES
REJECTED = 'rejected-'
IMAGES = '.jpg', '.jpeg', '.png', '.layout.json'
NO_FRAME = 'it has no ' + FRAME
OWN_RECORDS = 'it has records itself, beside those in the folders of ballots'
LEFT_OUT = '%s: its member %s is left out'
NO_REPORT = 'there is no %s in this folder of a ballot' % REPORT
NO_METADATA = 'there is no %s beside its folder' % METADATA
NO_ONE_RECORD = 'it is no object with a CVR of one record, and nothing else'

# ---- how an export is recognised: the form of a file's name, and what its first bytes have
TABLE = r'.*\.(?:[cC][sS][vV]|[tT][xX][tT])'
FORMS = {
    'vxsuite': (r'metadata\.json', [FRAME]),
    'dominion': (TABLE, ['TabulatorNum', 'RecordId']),
    'dominion-json': (r'CvrExport.*\.json', ['"Sessions"']),
    'ess': (TABLE, ['Cast Vote Record']),
    'hart': (r'(?!\._).*\.[xX][mM][lL]', ['http://tempuri.org/CVRDesign.xsd']),
    'clearballot': (TABLE, ['BoxPosition', 'BallotID']),
}
# what the page for a browser says of one
OF_MAKER = 'It is an export of %s.'
MAKERS = {
    'vxsuite': 'VxSuite', 'dominion': 'Dominion, as CSV', 'dominion-json': 'Dominion, as JSON',
    'ess': 'ES&S, as CSV', 'hart': 'Hart, as XML', 'clearballot': 'Clear Ballot, as CSV',
}

# ---- reports of a test, and exports that aren't whole
TESTS, INCOMPLETE, TEST_FOLDER = ('test', 'pretest'), 'incomplete', 'TEST__'
OTHER_TYPE = '%s: its OtherReportType %s is left out, as it names no test'
MIXED = ('%s is of a test by its OtherReportType, and %s is not: %d reports of a test and %d others; '
         'leave out those of one sort, or go on with --test')
MISNAMED = ('its folder has a name that begins with %s, as of a test, and its OtherReportType says '
            'nothing of one; give the folder another name, or go on with --test')
MADE_TEST = 'TEST: all of it is of a test by --test, and %d of %d reports by themselves'
OF_A_TEST = 'TEST: %d of %d reports are of a test'
NOT_WHOLE = 'INCOMPLETE: %d of %d reports lack ballots'
MADE_PART = 'INCOMPLETE: ballots are missing, as %d notes below say'
GO_ON = '; look for what is missing, or go on with --incomplete'
NO_BATCHES = 'it has no batchManifest, so nothing says how many sheets there are'
NO_BATCH = 'it is no batch with an id of its own and a sheetCount'
OTHER_COUNT = 'the batch %s has %d ballots there, and %d came'
UNLISTED = 'the batch %s is not there, and %d ballots of it came'
UNKNOWN_BESIDE = 'the member %s beside Sessions is not of this form as it is known'
OTHER_SESSIONS = 'its %s is %d, and it has %d sessions'
STILL_OPEN = 'arePollsClosed is false, so ballots may follow'
NO_TRUTH = 'arePollsClosed is neither true nor false'

# ---- records that name another snapshot than the one that counts
UNDONE = ('%s: %s: the record %s %s names %s as its current snapshot, and %s counts: %s; look at both in the '
          'adjudication log')
READINGS = '%s has %s in the first, and %s in the second'
SAME_READING = 'both say the same of all contests'
