#!/usr/bin/env python3
"""commands.py --cvr PATH [FILE..]

Runs the commands that the documents named in FILES show, and compares what they print. A command stands in a fenced
block whose first line begins with `$ `: each line that begins so is a command for `sh`, and the lines up to the next
one are what it prints on both outputs together. It is run at the top of a copy of the repository without what is built,
since some commands write files. `./cvr` in a command is the given program, and the variable CVR names it, so that
nothing is built here. A command ends with status 0, unless the next command is `echo $?`, which prints the status. Other blocks are not run. Where a machine
has no tool of TOOLS that a block names, the block is not run: a line `left out` says so, and none of its commands
counts as right. Each file must have a command that is run; the last line is `commands: N right, M wrong`, and the
status is 0 only where M is 0."""
import os
import re
import shlex
import shutil
import subprocess
import sys
import tempfile

sys.dont_write_bytecode = True
import tenth        # (it stands beside this file)

TOP = os.path.dirname(os.path.dirname(os.path.abspath(__file__)))
FILES = ['README.md', 'docs/GUIDE.md', 'docs/AUDITING.md', 'docs/GATHER.md', 'docs/PAGE.md', 'examples/README.md',
         'examples/recipes/README.md', 'examples/many-machines/README.md']
TOOLS = ['awk', 'comm', 'diff', 'gzip', 'jq', 'node', 'python3', 'sha256sum', 'sqlite3', 'zcat']
STATUS = 'echo $?'
SECONDS = 300


def fenced(text):
    """The lines of each fenced block of a text."""
    block, fence = None, ''
    for line in text.splitlines():
        mark = re.match(r'\s*(```+|~~~+)', line)
        if block is None and mark:
            block, fence = [], mark.group(1)
        elif block is not None and line.strip() == fence:
            yield block
            block = None
        elif block is not None:
            block.append(line)


def lacking(block):
    """The tools that the commands of a block name and that this machine doesn't have."""
    words = re.findall(r'[\w.-]+', ' '.join(line for line in block if line.startswith('$ ')))
    return [tool for tool in TOOLS if tool in words and not shutil.which(tool)]


def commands(text, skip):
    """(command, expected output, whether its status is shown) for each command of a text that is run. For each other
    block `skip` gets its first line and the tools that are missing."""
    for block in fenced(text):
        if not block or not block[0].startswith('$ '):
            continue
        if lacking(block):
            skip(block[0], lacking(block))
            continue
        held = []
        for line in block:
            if line.startswith('$ '):
                held.append([line[2:], ''])
            else:
                held[-1][1] += line + '\n'
        for place, (command, expected) in enumerate(held):
            is_shown = place + 1 < len(held) and held[place + 1][0].strip() == STATUS
            yield command, expected, is_shown


def run(command, cvr, status, folder):
    """(output, status) of a command, run in a folder; `$?` is the status of the command before. Other tools answer in
    English, as the documents show them."""
    words = re.sub(r'(?<![^\s;|&(])\./cvr(?![^\s;|&)])', lambda _: shlex.quote(cvr), command)
    done = subprocess.run(['sh', '-c', '(exit %d)\n%s' % (status, words)], cwd=folder,
                          env=dict(os.environ, CVR=cvr, LANGUAGE='C'), stdin=subprocess.DEVNULL,
                          stdout=subprocess.PIPE, stderr=subprocess.STDOUT, timeout=SECONDS)
    return done.stdout.decode('utf-8', 'replace'), done.returncode


def differences(command, cvr, expected, is_shown, before, folder):
    """What is wrong with one command, as lines, and its status."""
    try:
        output, status = run(command, cvr, before, folder)
    except subprocess.TimeoutExpired:
        return ['no end within %d s' % SECONDS], 1
    found = []
    if output != expected:
        found.append('prints   %r' % output)
        found.append('expected %r' % expected)
    if status and not is_shown:
        found.append('status %d, and no `%s` after it' % (status, STATUS))
    return found, status


def try_all(name, cvr, folder):
    """Runs the commands of a document in a folder. Answers how many are right, and how many wrong."""
    with open(os.path.join(TOP, name), encoding='utf-8') as file:
        shown = list(commands(file.read(), lambda line, tools: tenth.leave_out('%s: %s' % (name, line), 'there is no ' + ', '.join(tools))))
    if not shown:
        print('WRONG %s: no command is run' % name)
        return 0, 1
    wrong = status = 0
    for command, expected, is_shown in shown:
        found, status = differences(command, cvr, expected, is_shown, status, folder)
        if found:
            wrong += 1
            print('WRONG %s: $ %s' % (name, command))
        for line in found:
            print('    ' + line)
    return len(shown) - wrong, wrong


def main():
    words = tenth.words()
    words.add_argument('files', nargs='*', default=FILES, help='texts below the top of the repository')
    words = words.parse_args()
    with tempfile.TemporaryDirectory() as folder:
        copy = shutil.copytree(TOP, os.path.join(folder, 'cvr'), ignore=shutil.ignore_patterns('.git', 'out'))
        found = [try_all(name, words.cvr, copy) for name in words.files or FILES]
    right, wrong = map(sum, zip(*found))
    print('commands: %d right, %d wrong' % (right, wrong))
    sys.exit(0 if right and not wrong else 1)


if __name__ == '__main__':
    main()
