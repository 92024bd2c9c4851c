"""hosts.py: examples/many-machines/tally.py on two hosts, through `ssh`. Each host is an `sshd` of this
machine, at a port of its own, whose processes all end with it. They share its files. Where these can't
be made a line `left out` says why."""
import getpass
import os
import shutil
import socket
import subprocess
import sys
import tempfile

import lies
import sets
import tenth
import ways
import workers

SSHD = '/usr/sbin/sshd'
# Notes each part and the port of its host, and works on it as long as there is a file that says so.
PROGRAM = '''#!/bin/sh
if [ "$3" = --files-from ]; then
    echo "${SSH_CONNECTION##* }" >>"%(log)s"
    for n in $(seq 1200); do [ -e "%(log)s-stays" ] && sleep 0.1; done
fi
exec "%(cvr)s" "$@"
'''
DAEMON = 'mount -t tmpfs none /run && mkdir /run/sshd && exec "$@"'
CONFIG = '''Port %(port)d
ListenAddress 127.0.0.1
HostKey %(folder)s/host
PidFile none
AuthorizedKeysFile %(folder)s/authorized
StrictModes no
UsePAM no
PasswordAuthentication no
'''
KNOWN = '''Host %(port)d
    HostName 127.0.0.1
    Port %(port)d
    User %(user)s
    IdentityFile %(folder)s/key
    IdentitiesOnly yes
    UserKnownHostsFile %(folder)s/known
    GlobalKnownHostsFile /dev/null
'''


def free_port():
    with socket.socket() as held:
        held.bind(('127.0.0.1', 0))
        return held.getsockname()[1]


class Host:
    """An `sshd` that lets one key start a worker, and do nothing else."""

    def __init__(self, folder):
        self.port = free_port()
        with open('%s/sshd-%d' % (folder, self.port), 'w', encoding='utf-8') as file:
            file.write(CONFIG % {'port': self.port, 'folder': folder})
        words = ['unshare', '--mount', '--pid', '--fork', '--kill-child', 'sh', '-c', DAEMON, 'sh', SSHD,
                 '-D', '-f', file.name]
        self.process = subprocess.Popen(words, stdin=subprocess.DEVNULL, stdout=subprocess.DEVNULL,
                                        stderr=subprocess.DEVNULL)

    def is_ready(self):
        with socket.socket() as asked:
            return not asked.connect_ex(('127.0.0.1', self.port))

    def kill(self):
        self.process.kill()
        self.process.wait()


class Hosts(lies.Hosts):
    """Two hosts, and files with full names."""

    def __init__(self, cvr, folder):
        super().__init__(cvr, folder)
        self.log = os.path.join(folder, 'log')
        self.put('program', PROGRAM % {'cvr': cvr, 'log': self.log})
        self.put('bin/ssh', '#!/bin/sh\nexec %s -F "%s/config" "$@"\n' % (shutil.which('ssh'), folder))
        for name in 'host', 'key', 'another':
            subprocess.run(['ssh-keygen', '-q', '-t', 'ed25519', '-N', '', '-f', os.path.join(folder, name)],
                           stdout=subprocess.DEVNULL, check=True, timeout=workers.SECONDS)
        words = ' '.join([sys.executable] + ways.script().WORKER)
        self.put('authorized', 'restrict,command="%s" %s' % (words, self.text('key.pub')))
        self.hosts = [Host(folder), Host(folder)]
        self.names = [str(it.port) for it in self.hosts]
        self.know('host')
        self.put('config', ''.join(KNOWN % {'port': it.port, 'folder': folder, 'user': getpass.getuser()}
                                   for it in self.hosts))

    def know(self, key):
        """Says which key the hosts have."""
        lines = ['[127.0.0.1]:%s %s' % (it, self.text(key + '.pub')) for it in self.names]
        self.put('known', ''.join(lines))

    def text(self, name):
        return workers.text_of(os.path.join(self.folder, name))

    def __enter__(self):
        return self

    def __exit__(self, *_):
        for it in self.hosts:
            it.kill()

    def lose(self, *hosts, more=()):
        """Starts a run, and kills hosts once one of them works on a part. (What it told, the parts.)"""
        self.put('log')
        self.put('log-stays')
        process = self.start(self.names, *more)
        workers.wait_for(process, lambda: {str(it.port) for it in hosts} & set(self.text('log').split()))
        for it in hosts:
            it.kill()
        os.remove(self.log + '-stays')
        return workers.left(process), self.text('log').split()


def on_hosts(work):
    """A try that has such hosts of its own."""
    def done(cvr):
        with tempfile.TemporaryDirectory() as folder, Hosts(cvr, folder) as at:
            for it in at.hosts:
                workers.wait_for(it.process, it.is_ready)
            return work(at)
    return done


@on_hosts
def same(at):
    """Each command answers as one run of `cvr`."""
    for command in sets.COMMANDS:
        told = at.ask(at.names, '--command', command)
        if told != at.whole(command):
            return '%s: %r' % (command, told)
    return '' if set(at.text('log').split()) == set(at.names) else 'a host has done nothing'


@on_hosts
def one_killed(at):
    """What a host had to do that is gone, the other does, if nothing is checked."""
    told, parts = at.lose(at.hosts[1], more=['--check', '0'])
    return '' if told == at.whole() and len(parts) == 7 else repr((told, parts))


def ended(told):
    log = b'tally.py: no worker is left, or no other one to check\n'
    return '' if told == (69, b'', log) else repr(told)


@on_hosts
def one_killed_of_checked(at):
    return ended(at.lose(at.hosts[1])[0])


@on_hosts
def all_killed(at):
    return ended(at.lose(*at.hosts)[0])


@on_hosts
def other_host(at):
    """Who stands in for a host hasn't its key."""
    at.know('another')
    return ended(at.ask(at.names))


@on_hosts
def other_user(at):
    """Who hasn't the key of the run can't have a worker start."""
    os.replace(os.path.join(at.folder, 'another'), os.path.join(at.folder, 'key'))
    return ended(at.ask(at.names))


@on_hosts
def other_command(at):
    """The key of the run starts a worker, and nothing else."""
    words = [os.path.join(at.folder, 'bin', 'ssh'), at.names[0], 'echo', 'else']
    told = workers.run(words)
    return '' if told == (0, b'', b'') else repr(told)


TRIES = [('two hosts', same), ('a host that is killed', one_killed),
         ('a host that is killed, and the other is checked', one_killed_of_checked),
         ('all hosts are killed', all_killed), ('a host with another key', other_host),
         ('a user with another key', other_user), ('another command', other_command)]


def tries():
    """What can be tried here."""
    for it in SSHD, shutil.which('ssh') or 'ssh', shutil.which('ssh-keygen') or 'ssh-keygen':
        if not os.path.exists(it):
            tenth.leave_out('hosts through ssh', '%s is not there' % it)
            return []
    return [] if lies.lacking() else TRIES
