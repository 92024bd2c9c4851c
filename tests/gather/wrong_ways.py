"""wrong_ways.py: slips that a converter could have, a dozen for each kind. Each changes a text that stands once in a file of
the companion, and the recount of random exports has to find it: by other votes, or by other records than `cvr` reads."""
from collections import namedtuple

Way = namedtuple('Way', 'kind name file old new')
SEEDS = 11, 12, 13          # of the random exports with which a slip is tried

# ---- what several kinds use
MARKED = [
    ('counts_overvotes', 'gather_frame.py', 'position(is_vote=lost >= 0)', 'position()'),
    ('states_one_overvote', 'gather_frame.py', 'self.allowed if lost < 0 else 0', '1 if lost < 0 else 0'),
    ('states_one_undervote', 'gather_frame.py', 'max(lost, 0)', 'int(lost > 0)'),
    ('states_no_write_ins', 'gather_frame.py', 'WriteIns=votes_of(self, chosen)', 'WriteIns=0'),
    ('counts_written_names_of_overvotes', 'gather_writein.py', ' if counting.counts(it)', ''),
    ('knows_no_write_ins', 'gather_writein.py', 'return WORD.search(name) is not None', 'return False'),
    ('knows_write_ins_by_their_beginning', 'gather_writein.py', 'WORD.search(name)', 'WORD.match(name)'),
    ('takes_the_cells_that_are_0', 'gather_columns.py', "if cells[place] == '1'", "if cells[place] == '0'"),
    ('leaves_out_blank_contests', 'gather_columns.py', "if found == {''}:", "if found <= {'', '0'}:"),
    ('remembers_the_wrong_contest', 'gather_frame.py', 'chosen = tuple(chosen)', 'chosen = tuple(chosen)[:1]'),
]

def of(kind, ways):
    return [Way(kind, *way) for way in ways]


DOMINION = of('dominion', MARKED + [
    ('forgets_the_tabulator', 'gather_dominion.py', "(parts[0], '-'.join(parts)), header", "('1', '-'.join(parts[1:])), header"),
    ('joins_batches_of_tabulators', 'gather_dominion.py', "'BatchId': '-'.join(parts[:2])}", "'BatchId': parts[1]}"),
    ('takes_the_style_for_the_unit', 'gather_dominion.py', "frame.unit(held['PrecinctPortion'])", "frame.unit(held['BallotType'])"),
    ('allows_one_vote', 'gather_dominion.py', 'int(found.group(2))', '1'),
    ('leaves_out_the_last_contest', 'gather_columns.py', 'in columns.items():', 'in list(columns.items())[:-1]:'),
    ('leaves_out_rows_of_a_batch', 'gather_dominion.py', '            table.see_row(cells, heads.cells)\n',
     "            table.see_row(cells, heads.cells)\n            if cells[heads.fixed['BatchId']] == '2':\n                continue\n"),
])
CLEARBALLOT = of('clearballot', MARKED + [
    ('forgets_the_box', 'gather_clearballot.py', "held['ScanComputerName'], '-'.join(parts)", "held['ScanComputerName'], parts[1]"),
    ('takes_the_device_for_the_batch', 'gather_clearballot.py', "'BatchId': held['BoxID']}", "'BatchId': held['ScanComputerName']}"),
    ('takes_the_style_for_the_unit', 'gather_clearballot.py', "frame.unit(held['PrecinctID'])", "frame.unit(held['BallotStyleID'])"),
    ('allows_one_vote', 'gather_columns.py', 'Contest(key, key, heads[0].allowed)', 'Contest(key, key, 1)'),
    ('takes_the_party_for_the_choice', 'gather_choices.py', 'for choice, party in pairs]', 'for party, choice in pairs]'),
    ('cuts_names_at_a_colon', 'gather_clearballot.py', ':(.+):Vote For', ':([^:]+):.*Vote For'),
    ('leaves_out_the_last_contest', 'gather_columns.py', 'in columns.items():', 'in list(columns.items())[:-1]:'),
])
ESS = of('ess', [
    ('takes_the_style_for_the_unit', 'gather_ess.py', 'frame.unit(held[UNIT])', 'frame.unit(held[STYLE])'),
    ('forgets_the_unit', 'gather_ess.py', "{'BallotStyleUnitId': self.frame.unit(held[UNIT]), 'BallotStyleId'", "{'BallotStyleId'"),
    ('states_one_overvote', 'gather_ess_columns.py', 'words.count(OVERVOTE)', 'int(OVERVOTE in words)'),
    ('states_one_undervote', 'gather_ess_columns.py', 'words.count(UNDERVOTE)', 'int(UNDERVOTE in words)'),
    ('takes_undervotes_for_overvotes', 'gather_words.py', "UNDERVOTE, OVERVOTE = 'undervote', 'overvote'", "UNDERVOTE, OVERVOTE = 'overvote', 'undervote'"),
    ('states_no_write_ins', 'gather_frame.py', 'WriteIns=votes_of(self, chosen)', 'WriteIns=0'),
    ('counts_no_votes', 'gather_ess_columns.py', '[position()] * number', '[position(is_vote=False)] * number'),
    ('takes_the_first_vote_alone', 'gather_ess_columns.py', 'for it, number in marks.items()], numbers)', 'for it, number in [*marks.items()][:1]], numbers)'),
    ('counts_written_names_once', 'gather_ess_columns.py', '[position()] * number', '[position()]'),
    ('reads_one_column_of_a_contest', 'gather_ess.py', 'tuple(cells[it] for it in places)', 'tuple(cells[it] for it in places[:1])'),
    ('takes_undervotes_for_a_choice', 'gather_ess_columns.py', 'chosen = [it for it in words if it not in (UNDERVOTE, OVERVOTE)]', 'chosen = [it for it in words if it != OVERVOTE]'),
    ('leaves_out_overvoted_contests', 'gather_ess.py', '[it for it in texts if it]', "[it for it in texts if it and 'overvoted' not in it]"),
    ('leaves_out_blank_contests', 'gather_ess_columns.py', "if set(words) == {''}:", "if set(words) <= {'', UNDERVOTE}:"),
    ('cuts_the_number', 'gather_ess.py', '(DEVICE, held[NUMBER]), header', '(DEVICE, held[NUMBER][-1:]), header'),
    ('knows_words_in_small_letters_alone', 'gather_words.py', 'small = cell.lower()', 'small = cell'),
    ('knows_no_write_ins', 'gather_writein.py', 'return WORD.search(name) is not None', 'return False'),
])
HART = of('hart', [
    ('counts_no_votes', 'gather_hart.py', 'position(not is_over)', 'position(is_vote=False)'),
    ('counts_overvotes', 'gather_hart.py', 'position(not is_over)', 'position()'),
    ('takes_the_first_vote_alone', 'gather_hart.py', 'in marks.items()]', 'in [*marks.items()][:1]]'),
    ('states_no_write_ins', 'gather_frame.py', 'WriteIns=votes_of(self, chosen)', 'WriteIns=0'),
    ('counts_written_names_of_overvotes', 'gather_writein.py', ' if counting.counts(it)', ''),
    ('knows_no_write_ins', 'gather_frame.py', 'is_written or is_write_in(name)', 'is_written'),
    ('knows_write_ins_by_names_alone', 'gather_frame.py', 'is_written or is_write_in(name)', 'is_write_in(name)'),
    ('states_no_overvotes', 'gather_hart.py', "in ('Undervotes', 'Overvotes')", "in ('Undervotes',)"),
    ('states_no_undervotes', 'gather_hart.py', "in ('Undervotes', 'Overvotes')", "in ('Overvotes',)"),
    ('takes_the_sheet_for_the_batch', 'gather_hart.py', "{'BatchId': self.text(held, 'BatchNumber')", "{'BatchId': self.text(held, 'SheetNumber')"),
    ('forgets_the_unit', 'gather_hart.py', "'BallotStyleUnitId': self.unit(held),", "'BallotStyleUnitId': self.unit(held) and None,"),
    ('names_ballots_by_their_sequence', 'gather_hart.py', "DEVICE, self.text(held, 'CvrGuid')", "DEVICE, self.text(held, 'BatchSequence')"),
    ('leaves_out_the_last_contest', 'gather_hart.py', 'for it in contests]', 'for it in contests[:-1]]'),
    ('leaves_out_blank_contests', 'gather_hart.py', "[('a', snapshot('a', 'interpreted', texts))])",
     "[('a', snapshot('a', 'interpreted', [it for it in texts if 'Position' in it]))])"),
    ('names_all_units_alike', 'gather_hart.py', 'return self.frame.unit(key, name)', "return self.frame.unit('p', name)"),
    ('reads_the_first_file_alone', 'gather_hart.py', 'for source in filter(is_export, sources):', 'for source in list(filter(is_export, sources))[:1]:'),
])
DOMINION_JSON = of('dominion-json', [
    ('counts_ambiguous_marks', 'gather_dominion_json.py', 'return Mark(key, is_vote, is_sure, rank)', 'return Mark(key, True, True, rank)'),
    ('counts_marks_that_are_no_vote', 'gather_dominion_json.py', 'return Mark(key, is_vote, is_sure, rank)', 'return Mark(key, True, is_sure, rank)'),
    ('counts_stated_overvotes', 'gather_dominion_json.py', 'return {None}', 'return set()'),
    ('counts_unstated_overvotes', 'gather_dominion_json.py', 'if number > allowed}', 'if number > allowed and stated}'),
    ('counts_the_original', 'gather_dominion_json.py', 'zip(names, versions)]', 'zip(names[:1], versions)]'),
    ('takes_the_original_for_modified', 'gather_dominion_json.py', "cards = [self.cards(name) for name in names]", "cards = [self.cards('Original') for name in names]"),
    ('forgets_the_tabulator', 'gather_dominion_json.py', "(parts[0], '-'.join(parts + more))", "('1', '-'.join(parts[1:] + more))"),
    ('joins_batches_of_tabulators', 'gather_dominion_json.py', "'BatchId': '-'.join(parts[:2])}", "'BatchId': parts[1]}"),
    ('takes_the_first_card_alone', 'gather_dominion_json.py', 'enumerate(zip(*cards)):', 'list(enumerate(zip(*cards)))[:1]:'),
    ('forgets_the_card', 'gather_dominion_json.py', 'more = [str(place + 1)] if len(held[0]) > 1 else []', 'more = []'),
    ('states_no_overvotes', 'gather_dominion_json.py', "for it in ('Overvotes', 'Undervotes')", "for it in ('Undervotes',)"),
    ('states_no_undervotes', 'gather_dominion_json.py', "for it in ('Overvotes', 'Undervotes')", "for it in ('Overvotes',)"),
    ('counts_write_ins_that_are_no_vote', 'gather_writein.py', ' if counting.counts(it)', ''),
    ('takes_the_style_for_the_unit', 'gather_dominion_json.py', "('PrecinctPortionId', 'BallotTypeId'))", "('PrecinctPortionId', 'BallotTypeId')); name = '0'"),
    ('knows_no_write_ins', 'gather_dominion_json.py', "is_write_in(str(item.get('Type')))", 'False'),
    ('knows_one_type_of_write_ins', 'gather_dominion_json.py', "is_write_in(str(item.get('Type')))", "item.get('Type') == 'WriteIn'"),
    ('knows_write_ins_by_types_alone', 'gather_frame.py', 'is_written or is_write_in(name)', 'is_written'),
    ('takes_a_mark_of_a_choice_alone', 'gather_dominion_json.py', 'contest.written(chosen.items(), numbers)', 'contest.written(list(chosen.items())[:1], numbers)'),
])
# ---- reports of the standard, whose records are copied
REPORTS = [
    ('loses_a_record', 'gather_out.py', '        self.names.add(name)\n', '        self.names.add(name)\n        if len(self.names) == 40:\n            return\n'),
    ('writes_a_record_twice', 'gather_out.py', '        self.file.write(record.text)\n',
     "        self.file.write(record.text + (b',' + record.text if len(self.names) == 40 else b''))\n"),
    ('counts_overvotes', 'gather_json.py', "text.encode('utf-8'))", "text.replace('\"no\"', '\"yes\"').encode('utf-8'))"),
    ('loses_the_batch', 'gather_json.py', "text.encode('utf-8'))", "text.replace('\"BatchId\"', '\"Batch\"').encode('utf-8'))"),
    ('loses_the_unit', 'gather_json.py', "text.encode('utf-8'))", "text.replace('\"BallotStyleUnitId\"', '\"Unit\"').encode('utf-8'))"),
    ('moves_a_unit', 'gather_json.py', "text.encode('utf-8'))", "text.replace('\"unit-1\"', '\"unit-0\"').encode('utf-8'))"),
    ('states_no_undervotes', 'gather_json.py', "text.encode('utf-8'))", "text.replace('\"Undervotes\"', '\"Under\"').encode('utf-8'))"),
    ('states_no_overvotes', 'gather_json.py', "text.encode('utf-8'))", "text.replace('\"Overvotes\"', '\"Over\"').encode('utf-8'))"),
    ('counts_what_was_scanned', 'gather_json.py', "text.encode('utf-8'))",
     "text.replace('\"Type\": \"modified\"', '\"Type\": \"x\"').replace('\"original\"', '\"modified\"').replace('\"Type\": \"x\"', '\"Type\": \"original\"').encode('utf-8'))"),
    ('gives_a_vote_to_another', 'gather_json.py', "text.encode('utf-8'))", "text.replace('\"choice-0-1\"', '\"choice-0-0\"').encode('utf-8'))"),
    ('counts_a_vote_twice', 'gather_json.py', "text.encode('utf-8'))", "text.replace('\"NumberVotes\": 1', '\"NumberVotes\": 2').encode('utf-8'))"),
]
VXSUITE = of('vxsuite', REPORTS + [
    ('forgets_the_first_ballot', 'gather_vxsuite.py', 'list(filter(is_report, sources))', 'list(filter(is_report, sources))[1:]'),
    ('passes_ballots_that_were_adjudicated', 'gather_vxsuite.py', '    out.add(record)', "    if b'modified' not in record.text:\n        out.add(record)"),
])
CDF = of('cdf', REPORTS + [
    ('reads_the_first_file_alone', 'gather_cdf.py', '    for source in filter(fits, sources):', '    for source in list(filter(fits, sources))[:1]:'),
    ('forgets_the_first_record', 'gather_cdf.py', '            out.add(', '            if number: out.add('),
])
# Slips that the documents of windows.py find.
WINDOWS = of('windows', [
    ('takes_a_number_that_goes_on', 'gather_json.py', 'end + UNSURE <= len(self.text)', 'end <= len(self.text)'),
    ('takes_a_word_that_goes_on_for_damage', 'gather_json.py', ' or wrong.pos + UNSURE > len(wrong.doc)', ' or wrong.pos >= len(wrong.doc)'),
    ('takes_a_text_that_goes_on_for_damage', 'gather_json.py', "wrong.msg.startswith('Unterminated') or ", ''),
    ('loses_a_sign', 'gather_json.py', 'held, size = [self.text[self.place:]]', 'held, size = [self.text[self.place + 1:]]'),
    ('takes_what_follows_for_nothing', 'gather_json.py', '        window.take(end_at)\n', ''),
])
WAYS = DOMINION + DOMINION_JSON + ESS + HART + CLEARBALLOT + VXSUITE + CDF
# Slips that take out the rule of a case of planted.py, whose name stands in the place of a kind.
PLANTED = [
    Way('a report of a ballot that was given back', 'counts_ballots_that_were_given_back', 'gather_vxsuite.py', 'source.base == REPORT and not is_rejected(source)', 'source.base == REPORT'),
    Way('a report of a ballot that was given back', 'drops_what_it_does_not_know', 'gather_out.py', '        if frame.get(testing.OTHER) and', '        if False and'),
    Way('an adjudication that was undone', 'says_nothing_of_it', 'gather.py', 'if out.named else ()', 'if False else ()'),
    Way('an adjudication that was undone', 'swaps_the_snapshots', 'gather_undone.py', 'device, unique, named, current, *rest', 'device, unique, current, named, *rest'),
    Way('an export of a test beside another', 'takes_both_sorts', 'program.py', 'if reports.mixed() and not is_meant:', 'if False:'),
    Way('a report of a test beside others', 'knows_no_test', 'testing.py', 'if any(it.startswith(said.TESTS) for it in words):', 'if False:'),
    Way('a report of a test beside others', 'takes_the_word_test_alone', 'testing.py', 'any(it.startswith(said.TESTS) for it in words)', "report.get(OTHER) == 'test'"),
    Way('a report of a test beside others', 'asks_no_report', 'gather_cdf.py', '        out.take_report(source.name, frame)\n', ''),
    Way('a folder of a test', 'looks_at_no_folder', 'gather_vxsuite.py', 'if is_named and', 'if False and'),
    Way('ballots that are missing', 'compares_no_batch', 'gather_out.py', 'if number != came.get(batch, 0):', 'if False:'),
    Way('ballots that are missing', 'asks_whether_some_came', 'gather_out.py', 'if number != came.get(batch, 0):', 'if number and batch not in came:'),
    Way('a batch of which nothing came', 'compares_batches_that_came', 'gather_out.py', 'if number != came.get(batch, 0):', 'if number != came.get(batch, number):'),
    Way('a batch that is not listed', 'takes_any_batch', 'gather_out.py', 'if batch not in stated:', 'if False:'),
    Way('ballots that a manifest has', 'looks_at_no_manifest', 'gather.py', '    if words.manifest:\n', '    if False:\n'),
    Way('ballots that a manifest lacks', 'takes_what_a_manifest_lacks', 'gather_out.py', 'for batch, number in came.items() if stated is not None else ():', 'for batch, number in ():'),
    Way('sessions that are missing', 'compares_no_sessions', 'gather_dominion_json.py', '    stated.see(out)\n', ''),
    Way('no list of batches', 'needs_no_list', 'gather_vxsuite.py', '        out.lack(source.name, said.NO_BATCHES)\n', ''),
    Way('polls that are open', 'forgets_the_polls', 'gather_vxsuite.py', '    if not is_closed:\n', '    if False:\n'),
]
