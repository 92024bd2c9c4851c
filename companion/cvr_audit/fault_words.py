"""What is wrong with a refused file, in words for the public, and what to do. Made by tools/codes from
docs/FAULTS.md: change that."""

CODES = \
{'E1': ('The file is longer than 67,108,864 bytes',
        'Have the tool that wrote it write several files.'),
 'E2': ('The file is no JSON text',
        'Look whether it was cut off, or is of another kind, as XML; take away a byte order mark.'),
 'E3': ('The file does not have the form of a report',
        'Have it mended by the maker of the tool that wrote it, and exported again.'),
 'E4': ('A text of it has to be the id of something in the file, and is not',
        'Look the id up in the file, and have it exported again.'),
 'E5': ("Its election, a unit or a party of it is not the definition's",
        'Was it exported under another version of the election? Use the definition that it was '
        'made under, or have it exported again.')}

RULES = \
{1: 'an object is needed',
 2: 'a required member is absent',
 3: 'a value is of another kind',
 4: 'a text is none of those listed',
 5: 'an object of another class stands there',
 6: 'a name is empty',
 7: 'a count is out of range',
 8: 'an array has too few items',
 9: 'an array has too many items',
 10: 'fractional votes are not counted',
 11: 'a text is no date and time with an offset',
 12: 'an id stands twice',
 13: 'a contest stands twice in a snapshot',
 14: 'a number is not whole'}

# what a file is in place of a report
INSTEAD = \
{'nothing': ('It is empty.', 'Copy it again.'),
 'cut': ('It is JSON that ends too soon.', 'Copy it again, and compare the lengths.'),
 'mark': ('It has a byte order mark before its text.', 'Have it written without one.'),
 'utf-16': ('It is a text in UTF-16.', 'Have it written in UTF-8.'),
 'zip': ('It is a ZIP, or a workbook, which is one.',
         'Unpack it, or have the records of a workbook exported as CSV.'),
 'gzip': ('It is packed by gzip.', 'Unpack it.'),
 'pdf': ('It is a PDF, which has no records.', 'Ask for the export that it was printed from.'),
 'picture': ('It is a picture, which has no records.', 'Ask for the export that belongs to it.'),
 'document': ('It is a document of an office program, which has no records.',
              'Ask for the export that it was made from.'),
 'xml': ('It is XML or a page of the web.', 'Have the records exported as JSON.'),
 'table': ('It is a table such as CSV.',
           'Have the records exported as JSON; a list of voters or of batches has none.'),
 'json': ('It is JSON of another kind than a report.', None),
 'damaged': ('It is JSON that is damaged.', 'Have it exported again.'),
 'unknown': ('It is of no kind that is known here.',
             'Ask the maker of the tool that wrote it for JSON of the standard.'),
 'strange': ('It is JSON that not every reader takes: it is nested too deep, or has a number that '
             'is too large, half a sign, or a word such as NaN.',
             'Have it exported again.'),
 'ballot': ('It is one ballot of an export of VxSuite, which is read together with its '
            'metadata.json.',
            'Give the folder or the ZIP of the whole export; where that file is missing, have it '
            'exported again.'),
 'gather': ('cvr-audit gather makes reports of it.', None)}
