"""lies.py: what examples/many-machines/tally.py does where a host lies or has other bytes, and what
another user of the machine can do. A script in the place of `ssh` runs the worker here: as it is, as
one that lies, or where a file has other bytes of the same length and date."""
import glob
import importlib
import os
import pickle
import re
import shutil
import subprocess
import sys
import tempfile

sys.dont_write_bytecode = True
sys.path.insert(0, os.path.dirname(os.path.dirname(os.path.abspath(__file__))))
tenth = importlib.import_module('tenth')
ways = importlib.import_module('ways')          # (these stand beside this file, and tenth above)
workers = importlib.import_module('workers')

# by the name of the host: the worker as it is, with other bytes in the place of a file, or one that lies
SSH = '''#!/bin/sh
while [ "$1" != -- ]; do shift; done
case $2 in
    first | second) eval "exec $3" ;;
    /*) exec unshare -m sh -c 'mount --bind "$OTHER" "$1" && eval "exec $2"' sh "$2" "$3" ;;
esac
exec '%s' '%s' "$2"
''' % (sys.executable, os.path.abspath(__file__))


class Ran:
    """Leaves a trace where it is unpickled."""

    def __reduce__(self):
        return os.system, ('touch "$RAN"',)


def more(text):
    """A tally with one vote more in its first row."""
    return re.sub(r'\d+\n', lambda it: '%d\n' % (int(it.group()) + 1), text, count=1)


def changed(name, change):
    """A worker that changes what such a job gives."""
    def lie(module):
        def lies(*job):
            return change(told(*job))
        told, lies.__name__ = getattr(module, name), name
        setattr(module, name, lies)
    return lie


def always(line):
    """A worker that gives this line for each job."""
    return lambda module: setattr(module, 'reply', lambda _: line + b'\n')


def less(module):
    """Records that are cut out lack the last one."""
    told = module.records_of
    module.records_of = lambda text: (*told(text)[:2], told(text)[2][:-1])


def accepts(module):
    """No file is refused."""
    changed('done', lambda it: it[:1] + [''] * len(it[1:]))(module)
    changed('split', lambda it: ['', it[1]])(module)


# what else would be printed; then the command, and how many jobs of each host are checked: one, where each answer
# is a lie
FALSE = {
    'more': (changed('done', lambda it: [more(it[0])] + it[1:]), 'tally', '1'),
    'row': (changed('done', lambda it: [it[0].partition('\n')[2]] + it[1:]), 'tally', '1'),
    'nothing': (changed('done', lambda it: [''] * len(it)), 'currents', '1'),
    'accepts': (accepts, 'tally', '99'),
    'names': (changed('scanned', lambda it: [[] for _ in it]), 'tally', '1'),
    'less': (less, 'tally', '99'),
}
# what doesn't fit, or ends the run
ODD = {
    'sums': changed('split', lambda it: [it[0], [(part, '0' * 128) for part, _ in it[1]]]),
    'heads': changed('emptied', lambda it: '0' * 128),
    'ends': always(b'[0, ""]'), 'refuses': always(b'[1, "a: E2\\n"]'), 'empty': always(b''),
    'deep': always(b'[' * 100000), 'object': always(b'{"a": 1}'), 'number': always(b'[7]'),
    'digits': always(b'[' + b'7' * 5000 + b']'), 'bytes': always(b'\xff'),
    'pickle': always(pickle.dumps(Ran(), 4)),
}


def as_host(name):
    """A worker that lies in the way of this name."""
    module = ways.script()
    (FALSE[name][0] if name in FALSE else ODD[name])(module)
    module.work()


class Hosts(workers.Folder):
    """A folder with files and with the script in the place of `ssh`; one of the files is refused."""

    def __init__(self, cvr, folder):
        super().__init__(cvr, folder)
        os.mkdir(os.path.join(folder, 'bin'))
        os.chmod(self.put('bin/ssh', SSH), 0o755)
        self.files.append(self.put('damaged.json', workers.text_of(workers.COUNTY[1])))
        self.trace, self.other = os.path.join(folder, 'ran'), os.path.join(folder, 'other')

    def start(self, hosts, *more, **variables):
        words = [word for host in hosts for word in ('--host', host)]
        path = '%s:%s' % (os.path.join(self.folder, 'bin'), os.environ['PATH'])
        return super().start(*words, *more, PATH=path, RAN=self.trace, OTHER=self.other, **variables)

    def ask(self, *words):
        return workers.left(self.start(*words))


def in_hosts(work):
    """A try that has such a folder of its own."""
    def done(cvr):
        with tempfile.TemporaryDirectory() as folder:
            return work(Hosts(cvr, folder))
    return done


@in_hosts
def honest(at):
    """Hosts that don't lie answer as one run does, however much is checked."""
    for command in 'tally', 'currents', 'conflicts':
        for count in '0', '1', '99':
            told = at.ask(['first', 'second'], '--check', count, '--command', command)
            if told != at.whole(command):
                return repr((command, count, told))
    return ''


def false(name):
    """A lie changes what is printed if nothing is checked. Else it is found, whichever jobs the host has, or it has
    none in which to lie."""
    def work(at):
        _, command, count = FALSE[name]
        words, whole = ['--command', command, '--check', count], at.whole(command)
        loose = at.ask([name], '--command', command)
        told = [at.ask(hosts, *words) for hosts in ([name, 'second'], ['second', name])]
        if loose[0] not in (0, 1) or loose == whole:
            return 'this is no lie: %r' % (loose,)
        found = [it[:2] == (70, b'') for it in told]
        return '' if any(found) and all(it or text == whole for it, text in zip(found, told)) else repr(told)
    return in_hosts(work)


def odd(name):
    def work(at):
        command = 'conflicts' if name == 'heads' else 'tally'
        told = at.ask([name, 'second'], '--check', '0', '--command', command)
        is_right = told[:2] == (70, b'') and not os.path.exists(at.trace)
        return '' if is_right else repr(told)
    return in_hosts(work)


def other_bytes(choose, old, new):
    """A host has other bytes of the same length and date in the place of a file. They are found, unless another host
    does all that needs that file."""
    def work(at):
        path = choose(at)
        with open(path, 'rb') as file:
            data = file.read()
        with open(at.other, 'wb') as file:
            file.write(data.replace(old, new))
        shutil.copystat(path, at.other)
        if new == old or len(new) != len(old) or old not in data:
            return 'these are no other bytes'
        told = [at.ask(it, '--check', '0') for it in ([path], [path, 'second'], ['second', path])]
        log = b'tally.py: %s was changed while it was read, or has other bytes elsewhere\n' % path.encode()
        is_right = told[0] == (70, b'', log) and all(it in (told[0], at.whole()) for it in told)
        return '' if is_right else repr(told)
    return in_hosts(work)


def tree(process):
    return [process] + [it for child in workers.processes_of(process) for it in tree(child)]


def sockets(process):
    held = glob.glob('/proc/%d/fd/*' % process)
    return [it for it in held if os.path.islink(it) and os.readlink(it).startswith('socket:')]


@in_hosts
def no_socket(at):
    """Nothing listens, and nothing is connected, while it works: there are pipes alone."""
    process, _ = at.under_way(['first', 'second'])
    held = tree(process.pid)
    found = [sockets(it) for it in held]
    workers.left(process)
    return '' if len(held) > 3 and not any(found) else repr((held, found))


def other_user(cvr):
    """Another user reaches the folder of a run's folder, but sees no piece, and can't put one there."""
    with tempfile.TemporaryDirectory(dir='/var/tmp') as folder:
        return by_other_user(Hosts(cvr, folder))


def by_other_user(at):
    process, place = at.under_way(['first', 'second'])
    os.chmod(place, 0o777)
    os.chmod(at.folder, 0o755)
    pieces = glob.glob(place + '/*/*')
    script = 'ls -d "$0"/* >/dev/null || exit 9; ls "$0"/* || touch "$0"/*/0-0.json || cat $1'
    done = subprocess.run(['sh', '-c', script, place, ' '.join(pieces)], user=65534, group=65534,
                          extra_groups=[], stdout=subprocess.PIPE, stderr=subprocess.DEVNULL, timeout=workers.SECONDS)
    told = done.returncode, done.stdout
    workers.left(process)
    return '' if pieces and told == (1, b'') else repr((pieces, told))


def lacking():
    """Why hosts with other bytes can't be made here, or nothing."""
    if os.geteuid() or workers.run(['unshare', '-m', 'mount', '--bind', '/usr', '/usr'])[0]:
        return 'no mount may be made here'
    return ''


TRIES = [('hosts that do not lie', honest), ('nothing listens', no_socket)]
TRIES += [('a worker that lies: ' + name, false(name)) for name in FALSE]
TRIES += [('an odd worker: ' + name, odd(name)) for name in ODD]
MOUNTS = [
    ('another user', other_user),
    ('other bytes of a file', other_bytes(lambda at: at.files[3], b'"1-0003"', b'"1-0009"')),
    ('other bytes of the definition', other_bytes(lambda _: workers.DEFINITION, b'Invented', b'Invonted')),
    ('another cvr', other_bytes(lambda at: at.program, b'here=', b'HERE=')),
    ('another script', other_bytes(lambda at: ways.SCRIPT, b'"""tally', b'"""tolly')),
]


def tries():
    told = lacking()
    if told:
        tenth.leave_out('hosts with other bytes, and other users', told)
    return TRIES + ([] if told else MOUNTS)


if __name__ == '__main__':
    as_host(*sys.argv[1:])
