"""faults.py: exports that aren't as they should be. Each is an invented county of examples/exports with a change, by a pair
of texts of a file or by a function, and the line with which `cvr-audit gather` has to end; its status is 1 where nothing
else is said. Nothing may be left of the folder that was to be written."""
import csv
import glob
import os
import re
import shutil
import struct
import zipfile
from collections import namedtuple

import make

Fault = namedtuple('Fault', 'name export change log status words', defaults=(1, ()))
FIRST = 'vxsuite/2e251cd0-3350-5d62-babe-c97e89f72c31/'
VX = FIRST + 'cast-vote-record-report.json'
HART, LAST = 'hart/4057b1ff-4e4d-53fa-9cfb-9d6724c76d81.xml', 'hart/f41a25eb-c6ff-5405-b03b-22e3dee6e0c6.xml'
LOST = ('this record has no %s. The standard leaves it optional; here it is part of the name by which records are told apart, '
        'and nothing can stand in for it. Ask the maker of the system to export each record with a CreatingDeviceId and a UniqueId')
UNKNOWN = ('no form of export is recognised here (%s); if it is one of these, name it with --as, and see docs/GATHER.md'
           % ', '.join(make.KINDS))
HALF = '%s is half of a sign, so a text here is cut off; have it exported anew'
GO_ON = '; look for what is missing, or go on with --incomplete'
NO_CONTEST = ': there is no contest, so no record has a vote'
WITHIN = 'it is a ZIP in a folder or in another ZIP, and may have records; unpack it, or name it by itself'
ONE_HEAD = 'two heads are one only without the spaces at their ends'
MANY = 'it has more than %d bytes, which are too many to hold at once'
NO_TEXT = 'this is not text in UTF-8; export it in that encoding'
CUT = 'it is cut off, or has a comma that is not in quotes'
NO_CHOICE = 'the choice %s of %s may say that there is no vote, or too many, or something else that is not known; have it exported without that choice or, where it is one, go on with --means %s'
SEVERAL = "; where these are several contests of one name, name the columns of each, as in --contests 'County Council=%s'"
PARTIES = ("clearballot.csv: line 1: column %d: which part of `%s` is the choice, and which the party, can't be told, since %s; "
           'say what stands in all heads: --heads choice:party, party:choice or choice')


def read(path):
    with open(path, 'rb') as file:
        return file.read()


def write(path, data):
    with open(path, 'wb') as file:
        file.write(data)


def replaced(path, old, new):
    """A change of a text that stands once in a file; b'' for the old one stands for its end."""
    def change():
        data = read(path)
        if old == b'':
            write(path, data + new)
        elif data.count(old) == 1:
            write(path, data.replace(old, new))
        else:
            raise ValueError('%r stands %d times in %s' % (old, data.count(old), path))
    return change


def everywhere(path, old, new):
    return lambda: write(path, read(path).replace(old, new))


def cut(path, number):
    return lambda: write(path, read(path)[:-number])


def line_again(path, number, end=b'\r\n'):
    """A line of a file once more at its end."""
    return lambda: write(path, read(path) + read(path).split(end)[number] + end)


def zipped(change=None):
    """The folder of Hart's export as export.zip, beside which it is gone; `change` adds to it."""
    def pack():
        with zipfile.ZipFile('export.zip', 'w', zipfile.ZIP_DEFLATED) as archive:
            for path in sorted(glob.glob('hart/*.xml')):
                archive.write(path)
            if change:
                change(archive)
        shutil.rmtree('hart')
    return pack


def link_in(archive):
    entry = zipfile.ZipInfo('hart/link.xml')
    entry.create_system, entry.external_attr = 3, 0o120777 << 16
    archive.writestr(entry, '/etc/passwd')


def bomb_in(archive):
    archive.writestr('hart/bomb.xml', b'\0' * 20000000)


def first_columns(path, number):
    """The first cells of each row alone."""
    def change():
        with open(path, encoding='utf-8', newline='') as file:
            rows = list(csv.reader(file))
        write(path, make.csv_text(row[:number] for row in rows).encode('utf-8'))
    return change


def damage():
    """A byte of the first file's packed content is another."""
    zipped()()
    data = bytearray(read('export.zip'))
    name, more = struct.unpack('<HH', bytes(data[26:30]))
    data[30 + name + more + 40] ^= 255
    write('export.zip', bytes(data))


def encrypt():
    """The first file says of itself that it is encrypted."""
    zipped()()
    data = bytearray(read('export.zip'))
    data[data.index(b'PK\x01\x02') + 8] |= 1
    write('export.zip', bytes(data))


def dominion():
    path = 'dominion.csv'
    yield 'cut in a line', cut(path, 6), 'dominion.csv: line 8: it has 11 cells, and the head 13: ' + CUT
    yield 'a column is missing', replaced(path, b'PrecinctPortion', b'Portion'), 'dominion.csv: line 4: there is no column PrecinctPortion'
    yield 'a column more', replaced(path, b'CountingGroup', b'Mystery'), 'dominion.csv: line 4: the column Mystery is not of this form as it is known'
    yield 'a column twice', replaced(path, b'CountingGroup', b'RecordId'), 'dominion.csv: line 4: the column RecordId is there twice'
    yield ('a choice of no contest', replaced(path, b'Measure 1: parks (Vote For=1),Measure 1: parks (Vote For=1)', b'Measure 1: parks (Vote For=1),'),
           'dominion.csv: line 4: column 13 has a contest without a choice, or a choice without a contest')
    yield ('a contest under two heads', replaced(path, b'County Council (Vote For=1),Measure', b'County Council  (Vote For=1),Measure'),
           'dominion.csv: line 4: the contest County Council stands in two places, or under two heads' + SEVERAL % '9-10,11')
    yield ('two numbers of votes', replaced(path, b'County Council (Vote For=1),Measure', b'County Council (Vote For=2),Measure'),
           'dominion.csv: line 4: the contest County Council stands in two places, or under two heads' + SEVERAL % '9-10,11')
    yield ('two heads that are one', replaced(path, b'County Council (Vote For=1),Measure', b'County Council (Vote For=1) ,Measure'),
           'dominion.csv: line 2: ' + ONE_HEAD)
    yield ('batches that are one', (lambda: (replaced(path, b'2,1,1,2,', b'2,1,1-1,2,')(), replaced(path, b'3,1,1,3,', b'3,1-1,1,3,')())),
           'dominion.csv: line 7: the TabulatorNum 1-1 has a `-`, which parts it from the BatchId in the name of a batch')
    yield ('no number of votes', everywhere(path, b'parks (Vote For=1)', b'parks'),
           'dominion.csv: line 4: column 12: no (Vote For=N) behind Measure 1: parks')
    yield ('a choice twice', lambda: (replaced(path, b'Omar Field', b'Iris Vale')(), replaced(path, b',LAR,', b',,')()),
           'dominion.csv: line 4: the choice Iris Vale stands twice in County Council' + SEVERAL % '9,10-11')
    yield ('a choice twice with its party', lambda: (replaced(path, b'Omar Field', b'Iris Vale')(), replaced(path, b',LAR,', b',HER,')()),
           'dominion.csv: line 4: the choice Iris Vale stands twice in County Council' + SEVERAL % '9,10-11')
    yield ('no vote allowed', everywhere(path, b'parks (Vote For=1)', b'parks (Vote For=0)'),
           'dominion.csv: line 4: column 12: no (Vote For=N) behind Measure 1: parks (Vote For=0)')
    yield 'a choice that is none', replaced(path, b'Omar Field', b'Overvotes'), 'dominion.csv: line 4: ' + NO_CHOICE % ('Overvotes', 'County Council', 'Overvotes=choice')
    yield ('a rank', replaced(path, b'Omar Field', b'Iris Vale(2)'),
           'dominion.csv: line 4: column 10: Iris Vale(2) has a number behind it, as choices with ranks have; ranked contests are not read in this form')
    yield ('a number of many digits', replaced(path, b'County Council (Vote For=1),County', b'County Council (Vote For=1%s),County' % (b'0' * 5000)),
           'dominion.csv: line 4: column 9: no (Vote For=N) behind County Council (Vote For=1000..')
    yield ('signs of a terminal', replaced(path, b'Style 0,1,0,0', b'Style 0,"\x1b[2J\n\xe2\x80\xaex",0,0'),
           'dominion.csv: line 5: a mark is neither 1, 0 nor empty, but \\u001b[2J\\n\\u202ex')
    yield 'the heads again', line_again(path, 3), 'dominion.csv: line 9: the head stands here again: two files in one'
    yield 'another encoding', replaced(path, b'Old Mill', b'Old M\xefll'), 'dominion.csv: line 5: ' + NO_TEXT
    yield 'a quote that is not closed', replaced(path, b'1,1,1,1,"=', b'"1,1,1,1,"='), 'dominion.csv: line 5: it is no row of CSV: ..'
    yield ('semicolons', everywhere(path, b',', b';'),
           'dominion.csv: line 4: the cells are parted by semicolons; this form has commas')
    yield ('an id twice', replaced(path, b'2,1,1,2,', b'2,1,1,1,'),
           'dominion.csv: line 6: the record "1" "1-1-1" stands here and in dominion.csv: line 5')
    yield 'no id', replaced(path, b'2,1,1,2,', b'2,1,1,,'), 'dominion.csv: line 6: TabulatorNum, BatchId or RecordId is empty'
    yield 'another mark', replaced(path, b'Style 0,1,0,0', b'Style 0,2,0,0'), 'dominion.csv: line 5: a mark is neither 1, 0 nor empty, but 2'
    yield 'a cell is empty', replaced(path, b'Style 0,1,0,0', b'Style 0,1,,0'), 'dominion.csv: line 5: some cells of the contest County Council are empty and others are not' + SEVERAL % '9,10-11'
    yield 'no contest', first_columns(path, 8), path + NO_CONTEST
    yield 'heads alone', lambda: write(path, b'\r\n'.join(read(path).split(b'\r\n')[:4]) + b'\r\n'), 'dominion.csv: there is no record of the kind dominion'
    yield 'no heads', lambda: write(path, b'TabulatorNum,RecordId\r\n'), 'dominion.csv: line 1: the file ends here, before its four lines of heads'


def clearballot():
    path = 'clearballot.csv'
    yield 'cut in a line', cut(path, 6), 'clearballot.csv: line 5: it has 13 cells, and the head 15: ' + CUT
    yield 'a column is missing', replaced(path, b'ScanComputerName', b'Computer'), 'clearballot.csv: line 1: there is no column ScanComputerName'
    yield 'a column more', replaced(path, b'RowNumber', b'Mystery'), 'clearballot.csv: line 1: the column Mystery is not of this form as it is known'
    yield ('a choice of no contest', replaced(path, b'Choice_4_1:Measure 1: parks:Vote For 1:Yes:', b'Choice_4_1:Yes:'),
           'clearballot.csv: line 1: column 14 has no contest, `Vote For N` once, and choice: Choice_4_1:Yes:Non-Partisan')
    yield 'no party', replaced(path, b':Yes:Non-Partisan', b':Yes'), PARTIES % (14, 'Yes', 'it has no colon')
    yield 'a party with a space', replaced(path, b':Yes:Non-Partisan', b':Yes :Non-Partisan'), PARTIES % (14, 'Yes :Non-Partisan', 'a space stands beside the colon')
    yield 'a write-in for a party', replaced(path, b':Yes:Non-Partisan', b':Yes:Write-in'), PARTIES % (14, 'Yes:Write-in', 'a party is never `Write-in`')
    yield 'a choice that is none', replaced(path, b':Yes:Non-Partisan', b':No selection:Non-Partisan'), 'clearballot.csv: line 1: ' + NO_CHOICE % ('No selection', 'Measure 1: parks', "'No selection=choice'")
    yield 'no choice', replaced(path, b':Yes:Non-Partisan', b'::Non-Partisan'), PARTIES % (14, ':Non-Partisan', 'a choice is never ``')
    yield ('two numbers of votes in a head', replaced(path, b'Choice_4_1:Measure 1: parks:', b'Choice_4_1:Measure 1:Vote For 2:'),
           'clearballot.csv: line 1: column 14 has no contest, `Vote For N` once, and choice: Choice_4_1:Measure 1:Vote For 2:Vote For 1:Yes:Non-Partisan')
    yield 'no contest', first_columns(path, 10), path + NO_CONTEST
    yield ('a choice twice with its party', replaced(path, b'Omar Field:LAR', b'Iris Vale:HER'),
           'clearballot.csv: line 1: the choice Iris Vale stands twice in County Council' + SEVERAL % '11,12-13')
    yield ('a contest in two places', replaced(path, b'Choice_5_1:Measure 1: parks', b'Choice_5_1:County Council'),
           'clearballot.csv: line 1: the contest County Council stands in two places, or under two heads' + SEVERAL % '11-13,15')
    yield ('two numbers of votes', replaced(path, b'Vote For 1:No:', b'Vote For 2:No:'),
           'clearballot.csv: line 1: the contest Measure 1: parks stands in two places, or under two heads'
           + (SEVERAL % '14,15').replace('County Council', 'Measure 1: parks'))
    yield ('a number of many digits', replaced(path, b'Vote For 1:No:', b'Vote For 1%s:No:' % (b'0' * 5000)),
           'clearballot.csv: line 1: column 15 has no contest, `Vote For N` once, and choice: Choice_5_1:Measure 1: parks:Vote For 1000..')
    yield 'the heads again', line_again(path, 0), 'clearballot.csv: line 6: the head stands here again: two files in one'
    yield 'another encoding', replaced(path, b'Old Mill', b'Old M\xefll'), 'clearballot.csv: line 2: ' + NO_TEXT
    yield 'semicolons', everywhere(path, b',', b';'), 'clearballot.csv: line 1: the cells are parted by semicolons; this form has commas'
    yield ('a ballot twice', replaced(path, b'BOX-1-1+00002', b'BOX-1-1+00001'),
           'clearballot.csv: line 3: the BallotID BOX-1-1+00001 stands here and in clearballot.csv: line 2')
    yield ('an id twice', replaced(path, b'2,BOX-1-1,2,', b'2,BOX-1-1,1,'),
           'clearballot.csv: line 3: the record "ScanStation-1" "BOX-1-1-1" stands here and in clearballot.csv: line 2')
    yield 'no box', replaced(path, b'2,BOX-1-1,2,', b'2,,2,'), 'clearballot.csv: line 3: ScanComputerName, BoxID or BoxPosition is empty'
    yield 'another mark', replaced(path, b',0,1,0,0,1,0\r', b',0,x,0,0,1,0\r'), 'clearballot.csv: line 2: a mark is neither 1, 0 nor empty, but x'


def ess():
    path = 'ess.csv'
    yield 'cut in a line', cut(path, 4), 'ess.csv: line 5: the last line has no end, so its last cell may be cut off'
    yield 'a row of many bytes', replaced(path, b'', b'a,' * (1 << 22)), 'ess.csv: line 6: ' + MANY % (1 << 23)
    yield 'many columns', replaced(path, b'Precinct', b'Precinct' + b',a' * 20000), 'ess.csv: line 1: it has more than 20000 columns'
    yield 'cut in a choice', cut(path, 5), 'ess.csv: line 5: it has 4 cells, and the head 5: ' + CUT
    yield 'a column is missing', replaced(path, b'Precinct', b'Place'), 'ess.csv: line 1: there is no column Precinct'
    yield 'two heads that are one', replaced(path, b'Measure 1: parks', b'County Council '), 'ess.csv: line 1: ' + ONE_HEAD
    yield 'a choice of no contest', replaced(path, b'Measure 1: parks', b''), "ess.csv: line 1: column 5 has no head; go on with --left-out ''"
    yield 'the heads again', line_again(path, 0), 'ess.csv: line 6: the head stands here again: two files in one'
    yield 'another encoding', replaced(path, b'Old Mill', b'Old M\xefll'), 'ess.csv: line 2: ' + NO_TEXT
    yield 'UTF-16', lambda: write(path, read(path).decode('utf-8').encode('utf-16')), 'ess.csv: line 1: ' + NO_TEXT
    yield 'a byte that is 0', replaced(path, b'Old Mill', b'Old\0Mill'), 'ess.csv: line 2: ' + NO_TEXT
    yield 'semicolons', everywhere(path, b',', b';'), 'ess.csv: line 1: the cells are parted by semicolons; this form has commas'
    yield 'an id twice', replaced(path, b'104002', b'104001'), 'ess.csv: line 3: the record "ess" "104001" stands here and in ess.csv: line 2'
    yield 'a pipe', lambda: (os.remove(path), os.mkfifo(path)), 'ess.csv: it is no regular file: a link may lead out of the folder, and a pipe can be read only once'
    yield 'no contest', first_columns(path, 3), path + NO_CONTEST
    yield 'no id', replaced(path, b'104002', b''), 'ess.csv: line 3: the Cast Vote Record or the Precinct is empty'
    yield 'a line of sums', lambda: write(path, read(path) + b'Total,,,4,4\r\n'), 'ess.csv: line 6: the Cast Vote Record or the Precinct is empty'
    yield ('no choice: a sign that is not seen', replaced(path, b'Style 0,Iris Vale', b'Style 0,Undervote\xe2\x80\x8b'),
           "ess.csv: line 2: Undervote\\u200b in the column County Council is no choice, but nearly a word of this form, or one whose meaning is not known; say what it means, as in --means 'Undervote\\u200b=absent'")
    yield ('overvote beside a choice', lambda: write(path, read(path).replace(b'Measure 1: parks', b'County Council').replace(b'Style 0,Iris Vale,Yes', b'Style 0,Iris Vale,overvote')),
           'ess.csv: line 2: overvote stands beside a choice in County Council')
    yield ('a choice twice', lambda: write(path, read(path).replace(b'Measure 1: parks', b'County Council').replace(b'Style 0,Iris Vale,Yes', b'Style 0,Iris Vale,Iris Vale')),
           'ess.csv: line 2: a choice stands twice in County Council; where these are several contests of one name, name the columns of each, '
           "as in --contests 'County Council=4,5'")
    yield 'a row too long', replaced(path, b'Style 0,Iris Vale', b'Style 0,Vale, Iris'), 'ess.csv: line 2: it has 6 cells, and the head 5: ' + CUT


def hart():
    yield 'cut', cut(HART, 10), HART + ': line 2: it is no XML, or cut off: ..'
    yield 'many bytes', replaced(HART, b'', b'<!--%s-->' % (b' ' * (1 << 23))), HART + ': ' + MANY % (1 << 23)
    yield 'an element is missing', everywhere(HART, b'CvrGuid', b'CvrId'), HART + ': the element {http://tempuri.org/CVRDesign.xsd}CvrId in Cvr is not of this form as it is known'
    yield 'no id', lambda: write(HART, read(HART).split(b'<CvrGuid>')[0] + b'</Cvr>'), HART + ': there is no CvrGuid in a Cvr'
    yield ('an element in another', replaced(HART, b'<SheetNumber>1</SheetNumber>', b'<SheetNumber><Option/></SheetNumber>'),
           HART + ': the element SheetNumber has elements of its own')
    yield ('an attribute', lambda: write(HART, read(HART).replace(b'<Value>1<', b'<Value Weight="2">1<', 1)),
           HART + ': the attribute Weight in Option is not of this form as it is known')
    yield ('a text between elements', lambda: write(HART, read(HART).replace(b'<Value>1<', b'void<Value>1<', 1)),
           HART + ': there is a text between the elements of Option: void')
    yield ('an option of no contest', replaced(HART, b'<SheetNumber>', b'<Option/><SheetNumber>'),
           HART + ': the element {http://tempuri.org/CVRDesign.xsd}Option in Cvr is not of this form as it is known')
    yield ('entities', replaced(HART, b'<Cvr xmlns', b'<!DOCTYPE Cvr [<!ENTITY a "b">]><Cvr xmlns'),
           HART + ': it has a document type, which may define entities; no export needs one')
    yield 'another encoding', replaced(HART, b'encoding="utf-8"', b'encoding="martian"'), HART + ': it is no XML, or cut off: ..'
    yield ('an id twice', lambda: shutil.copy(HART, 'hart/zz.xml'),
           'hart/zz.xml: the record "hart" "4057b1ff-4e4d-53fa-9cfb-9d6724c76d81" stands here and in ' + HART + ': ')
    yield 'a choice that is none', everywhere(HART, b'Omar Field', b'Under Vote'), HART + ': ' + NO_CHOICE % ('Under Vote', 'County Council', "'Under Vote=choice'")
    yield 'another value', lambda: write(HART, read(HART).replace(b'<Value>1<', b'<Value>2<', 1)), HART + ': the Value of an Option is neither 1 nor 0, but 2'
    yield ('a written name elsewhere', replaced(LAST, b'<Id>c0-1</Id>', b'<Id>c0-1</Id><WriteInData/>'),
           LAST + ': the Option c0-1 of c0 has WriteInData, and none in a file before')
    yield 'another name', replaced(LAST, b'County Council', b'City Council'), LAST + ': the Contest c0 is named City Council, and County Council elsewhere'
    yield 'no number', replaced(HART, b'<BatchSequence>1', b'<BatchSequence>one1'), HART + ': BatchSequence is no number, but one1'
    yield 'a number of many digits', replaced(HART, b'<BatchSequence>1', b'<BatchSequence>' + b'1' * 5000), HART + ': BatchSequence is no number, but 111..'
    yield ('an option twice', lambda: write(HART, read(HART).replace(b'</Options>', read(HART).partition(b'<Options>')[2].partition(b'</Options>')[0] + b'</Options>', 1)),
           HART + ': an Option of c0 is marked twice')
    yield 'an empty file', lambda: write('hart/zz.XML', b''), 'hart/zz.XML: line 1: it is no XML, or cut off: ..'
    yield ('no contest', lambda: [write(it, re.sub(rb'<Contests>.*</Contests>', b'<Contests/>', read(it))) for it in glob.glob('hart/*')], 'hart' + NO_CONTEST)
    yield 'another root', lambda: write(HART, re.sub(rb'(</?)Cvr\b', rb'\1Log', read(HART))), HART + ': its root is {http://tempuri.org/CVRDesign.xsd}Log, and not Cvr'
    yield 'another namespace', everywhere(HART, b'CVRDesign', b'Other'), HART + ': its root is {http://tempuri.org/Other.xsd}Cvr, and not Cvr'


def zips():
    yield 'a path out', zipped(lambda it: it.writestr('../x.xml', 'x')), 'export.zip/../x.xml: its path leads out of the ZIP'
    yield 'a backslash', zipped(lambda it: it.writestr('hart\\x.xml', 'x')), 'export.zip/hart\\x.xml: its path has a backslash; pack the ZIP with another tool'
    yield 'a path from the top', zipped(lambda it: it.writestr('/x.xml', 'x')), 'export.zip//x.xml: its path leads out of the ZIP'
    yield 'a link', zipped(link_in), 'export.zip/hart/link.xml: it is a link, which may lead out of the ZIP'
    yield 'a bomb', zipped(bomb_in), 'export.zip/hart/bomb.xml: it unpacks to 20000000 bytes, which is too many'
    yield 'a ZIP in it', zipped(lambda it: it.writestr('hart/more.ZIP', 'x')), 'export.zip/hart/more.ZIP: ' + WITHIN
    yield 'a damaged byte', damage, 'export.zip/' + HART + ': the ZIP is damaged here, or packed in a way that is not known'
    yield 'encrypted', encrypt, 'export.zip/' + HART + ': it is encrypted'
    yield 'cut', lambda: (zipped()(), cut('export.zip', 10)()), 'export.zip: the ZIP is damaged or cut off'
    yield ('a workbook', lambda: (zipped()(), zipfile.ZipFile('export.zip', 'w').writestr('xl/workbook.xml', 'x')),
           'export.zip: it is a workbook of Excel; have the records exported as CSV in UTF-8')


def vxsuite():
    yield 'cut', cut(VX, 3), VX + ': line 1: it is no JSON, or cut off: ..'
    yield 'no id', replaced(VX, b'"UniqueId"', b'"Unique"'), VX + ': /CVR/0: ' + LOST % 'UniqueId'
    yield 'half a sign', replaced(VX, b'"1-0003"', b'"\\ud800"'), VX + ': line 1: ' + HALF % '\\ud800'
    yield ('half a sign behind whole ones', replaced(VX, b'"BatchId": "', b'"BatchId": "\\ud83d\\ude00\\\\ud83d \\uDE00'),
           VX + ': line 1: ' + HALF % '\\uDE00')
    yield ('half a sign of the election', everywhere('vxsuite/metadata.json', b'Alder County', b'Alder \\ud83d\\u0041'),
           'vxsuite/metadata.json: line 1: ' + HALF % '\\ud83d')
    yield ('a record twice', lambda: shutil.copytree(FIRST, 'vxsuite/ffff'),
           'vxsuite/ffff/cast-vote-record-report.json: /CVR/0: the record "scanner-1" "1-0003" stands here and in ' + VX + ': /CVR/0')
    yield 'two records', lambda: write(VX, read(VX)[:-2] + b',' + read(VX)[9:]), VX + ': it is no object with a CVR of one record, and nothing else'
    yield 'a ballot without a report', lambda: os.remove(VX), FIRST[:-1] + ': there is no cast-vote-record-report.json in this folder of a ballot'
    yield ('an empty ballot', lambda: os.mkdir('vxsuite/ffff'),
           'vxsuite/ffff: there is no cast-vote-record-report.json in this folder of a ballot')
    yield 'no metadata', lambda: os.remove('vxsuite/metadata.json'), 'vxsuite: ' + UNKNOWN
    yield ('metadata without a version', replaced('vxsuite/metadata.json', b'"Version": "1.0.0", ', b''),
           'vxsuite/metadata.json: cvr refuses it: E3 /castVoteRecordReportMetadata/Version 2')
    yield ('records in metadata', everywhere('vxsuite/metadata.json', b'"Election": ', b'"CVR": [{}], "Election": '),
           'vxsuite/metadata.json: it has records itself, beside those in the folders of ballots')
    yield ('a contest that is not there', everywhere(VX, b'"council"', b'"nosuch"'),
           VX + ': /CVR/0: cvr refuses it: E4 /CVRSnapshot/0/CVRContest/0/ContestId A text of it has to be the id of something in the '
           'file, and is not: /CVRSnapshot/0/CVRContest/0/ContestId.')
    for name, old, new, said in (
            ('a batch without an id', b'"id": "batch-2"', b'"ID": "batch-2"', '/batchManifest/1: it is no batch with an id of its own and a sheetCount'),
            ('a batch twice', b'"id": "batch-2"', b'"id": "batch-1"', '/batchManifest/1: it is no batch with an id of its own and a sheetCount'),
            ('a batch without a number', b'"sheetCount": 3', b'"sheetCount": "3"', '/batchManifest/0: it is no batch with an id of its own and a sheetCount'),
            ('polls that are neither open nor closed', b'"arePollsClosed": true', b'"arePollsClosed": "yes"', 'arePollsClosed is neither true nor false'),
            ('polls that are open', b'"arePollsClosed": true', b'"arePollsClosed": false', 'arePollsClosed is false, so ballots may follow' + GO_ON),
            ('another number of ballots', b'"sheetCount": 3', b'"sheetCount": 7', '/batchManifest: the batch "batch-1" has 7 ballots there, and 3 came' + GO_ON),
            ('a batch that is not listed', b'"id": "batch-1"', b'"id": "batch-7"', '/batchManifest: the batch "batch-7" has 3 ballots there, and 0 came' + GO_ON),
            ('no batches', b'"batchManifest"', b'"batches"', 'it has no batchManifest, so nothing says how many sheets there are' + GO_ON)):
        yield name, replaced('vxsuite/metadata.json', old, new), 'vxsuite/metadata.json: ' + said
    yield 'a ZIP in the folder', lambda: write(FIRST + 'more.zip', b'PK'), FIRST + 'more.zip: ' + WITHIN
    yield 'a link', lambda: os.symlink('/etc/passwd', FIRST + 'link.json'), FIRST + 'link.json: it is no regular file: a link may lead out of the folder, and a pipe can be read only once'
    yield 'a folder that is a link', lambda: os.symlink('/etc', 'vxsuite/link'), 'vxsuite/link: it is a link, which may lead out of the folder'
    yield 'another encoding', replaced(VX, b'"@type": "CVR.CVR"', b'"x": "\xf3", "@type": "CVR.CVR"'), \
        VX + ': line 1: ' + NO_TEXT


def cdf():
    path = 'cdf/scan.json'
    yield 'no UniqueId', replaced(path, b'"UniqueId": "1-0003"', b'"x": 1'), path + ': /CVR/2: ' + LOST % 'UniqueId'
    yield ('no device', lambda: write(path, read(path).replace(b'"CreatingDeviceId": "scanner-1",', b'', 1)),
           path + ': /CVR/0: ' + LOST % 'CreatingDeviceId')
    yield 'cut', cut(path, 4), path + ': line 147: it is no JSON, or cut off: ..'
    yield 'two texts', replaced(path, b'', b'{}'), path + ': line 149: it is no JSON, or cut off: ..'
    yield 'records twice', replaced(path, b'"CVR": [', b'"CVR": [], "CVR": ['), path + ': the member "CVR" stands twice in an object'
    yield ('two names', replaced(path, b'Omar Field', b'Omar Fields'),
           '/Election/0/Candidate/1/Name: cdf/adjudicated.json "Omar Field", cdf/scan.json "Omar Fields"')
    yield ('another kind', replaced(path, b'"UniqueId": "1-0003"', b'"UniqueId": "1-0003", "BallotAuditId": 7'),
           path + ': /CVR/2: cvr refuses it: E3 /BallotAuditId 3 The file does not have the form of a report: a value is of another kind, at /BallotAuditId.')
    yield 'no number', replaced(path, b'"UniqueId": "1-0003"', b'"UniqueId": "1-0003", "x": NaN'), path + ': it is no JSON, or cut off: ..'
    yield 'no version', replaced(path, b'"Version": "1.0.0",', b''), path + ': cvr refuses it: E3 /Version 2'
    yield 'many bytes', lambda: os.truncate(path, (1 << 28) + 1), path + ': ' + MANY % (1 << 28)


def dominion_json():
    path, more = 'dominion-json/CvrExport.json', 'dominion-json/'
    yield ('a member beside the sessions', replaced(path, b'"Version": "5.10.50.85"', b'"Mystery": 1'),
           path + ': the member "Mystery" beside Sessions is not of this form as it is known')
    yield 'no list of contests', lambda: os.remove(more + 'ContestManifest.json'), 'ContestManifest.json: it has to be there once, beside CvrExport.json'
    yield ('a choice of no contest', lambda: write(more + 'CandidateManifest.json', read(more + 'CandidateManifest.json').replace(b'"ContestId": 0', b'"ContestId": 9', 1)),
           'CandidateManifest.json: the candidate 0 is of no contest')
    yield ('a choice that is none', replaced(more + 'CandidateManifest.json', b'Iris Vale', b'BLANK VOTE'), 'CandidateManifest.json: ' + NO_CHOICE % ('BLANK VOTE', 'County Council', "'BLANK VOTE=choice'"))
    yield ('a choice of another contest', lambda: write(path, read(path).replace(b'"CandidateId": 0,', b'"CandidateId": 100,', 1)),
           path + ': /Sessions/0/Original/Cards/0/Contests/0/Marks/0: the CandidateId 100 is none of the contest 0')
    yield 'a contest twice', replaced(more + 'ContestManifest.json', b'"Id": 1,', b'"Id": 0,'), more + 'ContestManifest.json: /List/1: it has no Id of its own'
    yield ('no contest', lambda: (write(more + 'ContestManifest.json', b'{"List": []}'), write(more + 'CandidateManifest.json', b'{"List": []}'),
                                  write(path, re.sub(rb'(?s)"Contests": \[.*?\n      \]', b'"Contests": []', read(path)))), 'dominion-json' + NO_CONTEST)
    yield ('a number withheld', lambda: write(path, read(path).replace(b'"RecordId": 1', b'"RecordId": "X"', 1)),
           path + ': /Sessions/0: its RecordId is absent or withheld, so nothing tells the ballots of the batch apart')
    yield ('an id twice', replaced(path, b'"RecordId": 2', b'"RecordId": 1'),
           path + ': /Sessions/1/Original/Cards/0: the record "1" "1-1-1" stands here and in ' + path + ': /Sessions/0/Original/Cards/0')
    yield ('a version that is not current', lambda: write(path, read(path).replace(b'"IsCurrent": true', b'"IsCurrent": false', 1)),
           path + ': /Sessions/0: the current version has to be Modified, where it has one, and else Original, and no other; cvr counts that one')
    yield 'no Original', lambda: write(path, read(path).replace(b'"Original"', b'"Modified"', 1)), path + ': /Sessions/0: it has no Original'
    yield 'no card', lambda: write(path, re.sub(rb'(?s)"Cards": .*?\n    \]', b'"Cards": []', read(path), 1)), \
        path + ': /Sessions/0/Original: it has no card, or Contests beside Cards'
    yield 'contests beside cards', lambda: write(path, read(path).replace(b'"Cards"', b'"Contests": [], "Cards"', 1)), \
        path + ': /Sessions/0/Original: it has no card, or Contests beside Cards'
    yield ('a unit that is no number', lambda: write(path, read(path).replace(b'"PrecinctPortionId": 0', b'"PrecinctPortionId": {"a": 1}', 1)),
           path + ': /Sessions/0/Original: its PrecinctPortionId is absent, or not a whole number')
    yield ('an overvote at no rank', lambda: [write(it, read(it).replace(old, new, 1)) for it, old, new in (
        (more + 'ContestManifest.json', b'"NumOfRanks": 0', b'"NumOfRanks": 5'), (path, b'"Overvotes": 0', b'"Overvotes": 1'))],
           path + ": /Sessions/0/Original/Cards/0/Contests/0: it states Overvotes 1, but no rank is marked twice: which of its 1 marks are overvoted isn't known")
    yield ('a contest on two cards', lambda: write(path, re.sub(rb'(?s)("Cards": \[)(.*?\n     \})(\n    \])', rb'\1\2,\2\3', read(path), 1)),
           path + ': /Sessions/0/Original/Cards/1/Contests/0: the contest 0 stands on the cards 1 and 2 of this session')
    yield ('no vote allowed', lambda: write(more + 'ContestManifest.json', read(more + 'ContestManifest.json').replace(b'"VoteFor": 1', b'"VoteFor": 0', 1)),
           'ContestManifest.json: the contest 0 has no VoteFor of 1 or more')
    yield ('a mark twice', lambda: write(path, re.sub(rb'(?s)("Marks": \[)(.*?\n         \})', rb'\1\2,\2', read(path), 1)),
           path + ': /Sessions/0/Original/Cards/0/Contests/0: the CandidateId 0 is marked twice')
    yield ('a member twice', lambda: write(path, read(path).replace(b'"IsVote": true', b'"IsVote": false, "IsVote": true', 1)),
           path + ': the member "IsVote" stands twice in an object')
    yield ('a member of a list twice', replaced(more + 'CandidateManifest.json', b'"Description": "Iris Vale"', b'"Description": "x", "Description": "Iris Vale"'),
           more + 'CandidateManifest.json: the member "Description" stands twice in an object')
    yield ('half a sign in a member', lambda: write(path, read(path).replace(b'"SessionType"', b'"\\ud800"', 1)),
           path + ': line 11: ' + HALF % '\\ud800')
    yield ('a member more', lambda: write(path, read(path).replace(b'"SessionType"', b'"Mystery"', 1)),
           path + ': /Sessions/0: the member "Mystery" of a Session is not of this form as it is known')
    yield ('a mark without a word', lambda: write(path, read(path).replace(b'"IsVote": true', b'"IsVote": 1', 1)),
           path + ': /Sessions/0/Original/Cards/0/Contests/0/Marks/0: its IsVote is absent, or not true or false')
    yield ('a unit that is not there', lambda: write(path, read(path).replace(b'"PrecinctPortionId": 0', b'"PrecinctPortionId": 9', 1)),
           path + ': /Sessions/0/Original: the PrecinctPortionId 9 is not in PrecinctPortionManifest.json')
    yield ('half a sign', replaced(more + 'CandidateManifest.json', b'Iris Vale', b'Iris \\ud800'),
           more + 'CandidateManifest.json: line 5: ' + HALF % '\\ud800')
    yield 'cut', cut(path, 4), path + ': line 351: it is no JSON, or cut off: ..'
    yield ('a session of many bytes', lambda: write(path, read(path).replace(b'"ImageMask": ""', b'"ImageMask": "%s"' % (b'a' * (1 << 25)), 1)),
           path + ': line 5: ' + MANY % (1 << 25))
    yield ('many bytes beside the sessions', lambda: write(path, read(path).rstrip()[:-1] + b',"a":"%s","b":"%s"}' % ((b'a' * (1 << 24),) * 2)),
           path + ': "b": ' + MANY % (1 << 25))
    yield 'many bytes', lambda: os.truncate(path, (1 << 28) + 1), path + ': ' + MANY % (1 << 28)
    yield 'a list of many bytes', replaced(more + 'ContestManifest.json', b'', b' ' * (1 << 25)), more + 'ContestManifest.json: ' + MANY % (1 << 25)
    yield 'no sessions', everywhere(path, b'"Sessions"', b'"Session"'), 'dominion-json: ' + UNKNOWN


def options():
    """Options that don't fit the export, or say nothing."""
    bad = '--contests: %s has to be the name of a contest and the columns of each contest of that name, from 1, such as Council=4-5,6-7'
    for text in 'County Council', '=9-11', 'County Council=', 'County Council=11-9', 'County Council=9-10,10-11', 'County Council=0-3', 'County Council=nine':
        yield 'no columns: ' + text, bad % text, 2, ['--contests', text]
    yield 'a contest twice', bad % 'County Council=9-11', 2, ['--contests', 'County Council=9-10,11', '--contests', 'County Council=9-11']
    other = 'dominion.csv: line 4: --contests names other columns of %s than it has here: %s'
    for name, text, there in (('too few', 'County Council=9-10', '9-11'), ('too many', 'County Council=9-12', '9-11'), ('with a gap', 'County Council=9,11', '9-11'),
                              ('of no contest', 'City Council=9-11', 'none')):
        yield 'columns that are ' + name, other % (text.split('=')[0], there), 1, ['--contests', text]
    for text in 'Council', 'Council=0', '=2', 'Council=two':
        yield 'no votes: ' + text, '--votes: %s has to be the name or the Id of a contest and its number of votes, such as Council=2' % text, 2, ['--votes', text], 'hart'
    yield 'votes of no contest', '--votes names the contest Council, and none has that name or Id', 2, ['--votes', 'Council=2'], 'hart'
    yield ('an option of another kind', '--heads is of the kinds clearballot alone, and this export is of the kind dominion', 2, ['--heads', 'choice'])


GROUPS = [('dominion.csv', dominion), ('clearballot.csv', clearballot), ('ess.csv', ess), ('hart', hart), ('vxsuite', vxsuite),
          ('cdf', cdf), ('dominion-json', dominion_json), ('export.zip', zips)]


def all_faults():
    """Each fault. A line that ends with `..` may go on in another way, as that of a library."""
    for export, group in GROUPS:
        for name, change, log in group():
            yield Fault('%s: %s' % (export, name), export, change, log)
    for name, log, status, words, *export in options():
        yield Fault('options: ' + name, *(export or ['dominion.csv']), lambda: None, log, status, words)
