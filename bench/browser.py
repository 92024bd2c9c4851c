#!/usr/bin/env python3
"""browser.py --data FOLDER .. [--cvr PATH] [--rounds 3] [--only chromium|firefox] [--keep NAME]

Measures cvr.html in headless Chromium and Firefox beside the program, over the definition and reports of each folder, as
gen.py makes them. In each round the commands that the page runs, and each browser once, new, take turns. Seconds are by
the clock: of the page from the click on Tally until it shows all, also by what it says that it does; of the program, of
its four commands one after the other. Memory is the peak of a process, of a browser that of its largest one, which has
the page. What a page answers instead of a tally, or that its tab has died, stands in its place."""
import argparse
import os
import pathlib
import re
import statistics
import sys
import tempfile
import time

sys.dont_write_bytecode = True
TOP = os.path.dirname(os.path.dirname(os.path.abspath(__file__)))
sys.path[:0] = [os.path.join(TOP, it) for it in ('bench', 'tests/web', 'tests/audit')]
import chromium     # noqa: E402
import firefox      # noqa: E402
from bench import Failed, Report, commit, keep, machine, timed, DATE    # noqa: E402
from trial import CLICK, SETTLED, given     # noqa: E402 (they stand there)

PAGE = os.path.join(TOP, 'out/targets/wasm/cvr.html')
KINDS = {'chromium': chromium, 'firefox': firefox}
STATE = "document.getElementById('state').textContent"
BUSY = 'Starting', 'Reading', 'Running'
STEPS = 'Reading files', 'check', 'tally', 'conflicts', 'merge', 'Reading the records'


def below(process):
    """The processes that a process started, and those, with itself."""
    parents = {}
    for path in pathlib.Path('/proc').glob('[0-9]*/stat'):
        try:
            number, _, rest = path.read_text().partition(' (')
            parents.setdefault(int(rest.rpartition(')')[2].split()[1]), []).append(int(number))
        except OSError:
            pass
    found = [process]
    for it in found:
        found += parents.get(it, [])
    return found


def peak(process):
    """The peak in MiB of the largest process of a browser."""
    held = [0]
    for it in below(process):
        try:
            held += re.findall(r'VmHWM:\s+(\d+)', pathlib.Path('/proc/%d/status' % it).read_text())
        except OSError:
            pass
    return max(map(int, held)) / 1024


def steps_of(said):
    """The seconds of each step, from what the page said and when."""
    held = dict.fromkeys(STEPS, 0.0)
    for (start, text), (end, _) in zip(said, said[1:]):
        name = text.split()[-1] if text.startswith('Running') else STEPS[-1] if text.startswith(STEPS[-1]) else STEPS[0]
        held[name] += end - start
    return held


class Tab:
    """What a browser answered: what the page says at the end, seconds, peak, and the seconds of each step."""

    def __init__(self, kind, paths):
        self.seconds = self.peak = 0
        with tempfile.TemporaryDirectory() as folder:
            browser = kind.Browser(folder)
            try:
                browser.open(PAGE)
                browser.value(SETTLED)
                given(browser, paths)
                self.run(browser)
            except OSError as fault:
                self.said = 'the tab has died (%s)' % fault
            finally:
                browser.end()

    def run(self, browser):
        start, said = time.perf_counter(), []
        browser.value(CLICK % 'tally')
        while not said or said[-1][1].startswith(BUSY):
            time.sleep(0.05)
            said.append((time.perf_counter(), browser.value(STATE)))
            self.seconds, self.peak = said[-1][0] - start, max(self.peak, peak(browser.process.pid))
        self.said, self.steps = said[-1][1], steps_of(said)


def native(cvr, paths):
    """The seconds of each command that the page runs, and the greatest peak of memory."""
    device = re.search(rb'"@id":"([^"]+)","@type":"CVR.ReportingDevice"', pathlib.Path(paths[0]).read_bytes()).group(1).decode()
    words = {it: [it, paths[0], *paths[1:]] for it in STEPS[1:4]}
    words['check'] = ['check', paths[0], *paths]
    words['merge'] = ['merge', paths[0], DATE, device, '1', *paths[1:]]
    with tempfile.TemporaryDirectory() as folder:
        return {name: timed([cvr, *its], os.path.join(folder, 'out')) for name, its in words.items()}


def middle(values):
    return '%9.2f' % statistics.median(values)


def say_program(report, runs):
    """The lines of the program. Answers the seconds of all four commands."""
    for name in runs[0]:
        report.say('%-20s %s %s' % ('cvr ' + name, *(middle([it[name][part] for it in runs]) for part in (0, 1))))
    sums = [sum(it[0] for it in run.values()) for run in runs]
    report.say('%-20s %s %9.2f' % ('all four', middle(sums), max(it[1] for run in runs for it in run.values())))
    report.raw('all four, seconds', ['%.2f' % it for it in sums])
    return statistics.median(sums)


def say_tabs(report, name, tabs, program):
    """The lines of a browser, whose seconds are divided by those of the program."""
    done = [it for it in tabs if it.said == 'Done.']
    for it in tabs:
        if it not in done:
            report.say('%-20s %s; after %.1f s, peak %.0f MiB' % (name, it.said, it.seconds, it.peak))
    if done:
        seconds = [it.seconds for it in done]
        report.say('%-20s %s %s %9.2f' % (name, middle(seconds), middle([it.peak for it in done]), statistics.median(seconds) / program))
        for step in STEPS:
            report.say('%-20s %s' % ('  ' + step, middle([it.steps[step] for it in done])))
        report.raw(name + ' seconds', ['%.2f' % it for it in seconds])


def measure(report, words, folder):
    """The figures of a folder."""
    names = sorted(it for it in os.listdir(folder) if it != 'definition.json')
    paths = [os.path.join(folder, it) for it in ('definition.json', *names)]
    kinds = [it for it in KINDS if words.only in (None, it) and KINDS[it].program()]
    report.say()
    report.say('%d files, %.1f MB; load %.1f' % (len(paths), sum(map(os.path.getsize, paths)) / 1e6, os.getloadavg()[0]))
    runs, tabs = [], {it: [] for it in kinds}
    for _ in range(words.rounds):
        runs.append(native(words.cvr, paths))
        for it in kinds:
            tabs[it].append(Tab(KINDS[it], paths))
    report.say('%-20s %9s %9s %9s   load %.1f' % ('', 'seconds', 'peak MiB', 'divided', os.getloadavg()[0]))
    program = say_program(report, runs)
    for it in kinds:
        say_tabs(report, it, tabs[it], program)


def main():
    words = argparse.ArgumentParser()
    words.add_argument('--data', required=True, nargs='+', metavar='FOLDER')
    words.add_argument('--cvr', default=os.path.join(TOP, 'out/cvr'))
    words.add_argument('--rounds', type=int, default=3)
    words.add_argument('--only')
    words.add_argument('--keep', metavar='NAME')
    said, report = words.parse_args(), Report()
    report.say('%s, commit %s' % (machine(), commit()))
    try:
        for folder in said.data:
            measure(report, said, folder)
    except Failed as why:
        sys.exit('browser.py: %s' % why)
    if said.keep:
        keep(report, said.keep)


if __name__ == '__main__':
    main()
