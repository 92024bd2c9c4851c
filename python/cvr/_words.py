"""What is wrong with a refused file, in words for the public, and what to do. Made by tools/codes from
docs/FAULTS.md: change that."""

CODES = \
{'E1': ('The file is longer than 67,108,864 bytes',
        'Have the tool that wrote it write several files.'),
 'E2': ('The file is no JSON text',
        'Look whether it was cut off, or is of another kind, as XML; take away a byte order mark.'),
 'E3': ('The file does not have the form of a report',
        'Have it mended by the maker of the tool that wrote it, and exported again.'),
 'E4': ('A text of it has to be the id of something in the file, and is not',
        'Look the id up in the file, and have it exported again.'),
 'E5': ("Its election, a unit or a party of it is not the definition's",
        'Was it exported under another version of the election? Use the definition that it was '
        'made under, or have it exported again.'),
 'H1': ('DATE of merge is no date-time with an offset, or names a zone in brackets',
        'Write it as 2024-11-06T08:00:00Z or 2024-11-06T03:00:00-05:00.'),
 'H2': ('The definition has no ReportingDevice with DEVICE as its @id',
        "Name one of the definition's devices; one that only files have doesn't do."),
 'V1': ('There are fewer volumes than VOLUME; how many stands after it, as conflicts ends with',
        'Ask for a volume from 1 to that number.')}

RULES = \
{1: 'an object is needed',
 2: 'a required member is absent',
 3: 'a value is of another kind',
 4: 'a text is none of those listed',
 5: 'an object of another class stands there',
 6: 'a name is empty',
 7: 'a count is out of range',
 8: 'an array has too few items',
 9: 'an array has too many items',
 10: 'fractional votes are not counted',
 11: 'a text is no date and time with an offset',
 12: 'an id stands twice',
 13: 'a contest stands twice in a snapshot',
 14: 'a number is not whole'}
