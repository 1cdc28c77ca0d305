"""The script ./bench: reading and writing that fail, inputs that do not end, arguments, the terminal, small stacks, and its builds, with a stand-in for
the toolchain."""
import os
import pty
import shutil
import signal
import subprocess
import tempfile
import time

from reference import line_text
from runner import CASE, PROGRAM, ROOT, content, count

# bytes of lines 1 and 2 with as many numbers as they can have, and of 4,096 values
LONGEST_FILE = len(line_text(range(4)) + line_text(range(20)) + line_text([0]) * 4096)

STUB_RT = """#!/bin/sh
echo build >> "$(dirname "$0")/builds"
sleep 1
%s
"""
BUILD = 'mkdir -p out && cp "$(dirname "$0")/program" out/bench'


def failures(runner):
    """Reading and writing that fail: nothing on standard output, a message on standard error, and a status from ./bench that is not 0."""
    script = os.path.join(ROOT, 'bench')
    with open(CASE, 'rb') as given, open('/dev/full', 'wb') as full:
        done = subprocess.run([script], stdin=given, stdout=full, stderr=subprocess.PIPE)
    count(runner, 'a full device', done.returncode == 1 and b'could not be written' in done.stderr)
    folder = os.open('/', os.O_RDONLY)
    done = subprocess.run([script], stdin=folder, stdout=subprocess.PIPE, stderr=subprocess.PIPE)
    os.close(folder)
    count(runner, 'a folder for input', done.returncode == 1 and done.stdout == b'' and b'could not be read' in done.stderr)
    for closed in ('<&-', '<%s >&-' % CASE):
        done = subprocess.run(['bash', '-c', '"$0" ' + closed, script], stdin=subprocess.DEVNULL, stdout=subprocess.PIPE, stderr=subprocess.PIPE)
        count(runner, 'closed: ' + closed, done.returncode == 1 and done.stdout == b'')
    reader, writer = os.pipe()
    os.close(reader)
    with open(CASE, 'rb') as given:
        done = subprocess.run([script], stdin=given, stdout=writer, stderr=subprocess.PIPE)
    os.close(writer)
    count(runner, 'a pipe that nobody reads', done.returncode == 141)
    done = subprocess.run(['bash', '-c', 'cd / && "$0" <"$1"', script, CASE], stdout=subprocess.PIPE)
    count(runner, 'from another folder', done.returncode == 0 and done.stdout == content(CASE[:-3] + '.out'))


def writer_and_answer(command):
    """What ./bench answers to a program that writes into it: that program's exit status, its own, and what is printed; None where it does not answer."""
    writer = subprocess.Popen(command, stdout=subprocess.PIPE)
    process = subprocess.Popen([os.path.join(ROOT, 'bench')], stdin=writer.stdout, stdout=subprocess.PIPE)
    writer.stdout.close()
    try:
        printed, _ = process.communicate(timeout=20)
    except subprocess.TimeoutExpired:
        writer.kill()
        process.communicate()
        return None
    return writer.wait(), process.returncode, printed


class Slow:
    """The program, on an input whose end does not come by itself."""

    def __init__(self):
        self.process = subprocess.Popen([PROGRAM], stdin=subprocess.PIPE, stdout=subprocess.PIPE, bufsize=0)

    def takes(self, data):
        try:
            self.process.stdin.write(data)
        except BrokenPipeError:
            return False
        return True

    def ends(self, seconds):
        try:
            self.process.wait(seconds)
        except subprocess.TimeoutExpired:
            return False
        return True

    def answer(self):
        """What it prints once its input is closed, where it succeeds."""
        self.process.stdin.close()
        printed = self.process.stdout.read()
        return printed if self.process.wait() == 0 else None


def endless(runner):
    """Inputs that do not end. Where the first two lines are ill-formed the answer comes after the bytes of the longest file, and not before; a program
    that writes no more than these is not cut off. Where they are well-formed no answer comes before the end."""
    ill = line_text([12])
    count(runner, 'yes', writer_and_answer(['yes']) == (-signal.SIGPIPE, 0, ill))
    count(runner, 'as many bytes as the longest file', writer_and_answer(['head', '-c', str(LONGEST_FILE), '/dev/zero']) == (0, 0, ill))
    good = line_text([8, 1, 2, 1]) + line_text([0])
    for name, head in (('first', b'x'), ('second', line_text([8, 1, 2, 1]) + line_text([0, 0]))):
        slow = Slow()
        taken = slow.takes((head + good * 2000)[:LONGEST_FILE - 1]) and not slow.ends(0.5) and slow.takes(b'\n')
        count(runner, 'an ill-formed %s line, and no end' % name, taken and slow.ends(20) and slow.answer() == ill)
    slow = Slow()
    taken = slow.takes(good + line_text([1]) * 10000) and not slow.ends(0.5)
    count(runner, 'values without an end', taken and slow.answer() == line_text([9]))


class Checkout:
    """A small checkout with the script, one source, and a toolchain that only copies the program."""

    def __init__(self, build=BUILD):
        self.folder = tempfile.TemporaryDirectory(prefix='bench-script-')
        self.root, self.tools = os.path.join(self.folder.name, 'root'), os.path.join(self.folder.name, 'tools')
        os.makedirs(os.path.join(self.root, 'crates', 'one', 'src'))
        os.makedirs(os.path.join(self.root, 'crates', 'bench'))
        os.makedirs(self.tools)
        shutil.copy(os.path.join(ROOT, 'bench'), self.root)
        shutil.copy(PROGRAM, os.path.join(self.tools, 'program'))
        self.write(os.path.join(self.root, 'crates.txt'), 'one:\n')
        self.source()
        self.tool('rt', STUB_RT % build)

    def write(self, path, text):
        with open(path, 'w') as f:
            f.write(text)

    def source(self):
        self.write(os.path.join(self.root, 'crates', 'one', 'src', 'lib.rt'), '// a source\n')

    def tool(self, name, text):
        path = os.path.join(self.tools, name)
        self.write(path, text)
        os.chmod(path, 0o755)

    def start(self):
        path = self.tools + os.pathsep + os.environ['PATH']
        with open(CASE, 'rb') as given:
            return subprocess.Popen([os.path.join(self.root, 'bench')], stdin=given, stdout=subprocess.PIPE, stderr=subprocess.PIPE, env={**os.environ, 'PATH': path})

    def builds(self):
        return len(content(os.path.join(self.tools, 'builds')).splitlines())


def refused_to_run(process):
    """Nothing is answered: status 2, and a message."""
    printed, said = process.communicate()
    return process.returncode == 2 and printed == b'' and b'nothing was answered' in said


def builds(runner):
    """The script's builds, with a stand-in for the toolchain."""
    answer = content(CASE[:-3] + '.out')
    checkout = Checkout()
    uses = [checkout.start() for _ in range(3)]
    ends = [use.communicate() for use in uses]
    count(runner, 'three first uses at once', all(use.returncode == 0 for use in uses) and all(end[0] == answer for end in ends))
    count(runner, 'three first uses are one build', checkout.builds() == 1)
    count(runner, 'two of them say that they wait', sum(b'waiting for it' in end[1] for end in ends) == 2)
    time.sleep(0.01)
    checkout.source()
    checkout.tool('mv', '#!/bin/sh\nexit 1\n')
    count(runner, 'a source is newer, and the program cannot be put in its place', refused_to_run(checkout.start()))
    checkout = Checkout(build=BUILD + ' && touch -d 2100-01-01 ../one/src/lib.rt')
    count(runner, 'the program stays older than a source', refused_to_run(checkout.start()))
    checkout = Checkout()
    checkout.start().communicate()
    checkout.source()
    checkout.tool('rt', STUB_RT % 'exit 1')
    count(runner, 'a source is newer, and the build fails', refused_to_run(checkout.start()))


def arguments(runner):
    """What the script says to arguments, on a terminal, and with a small stack."""
    script = os.path.join(ROOT, 'bench')
    done = subprocess.run([script, '--help'], stdin=subprocess.DEVNULL, stdout=subprocess.PIPE, stderr=subprocess.PIPE)
    count(runner, '--help', done.returncode == 0 and done.stderr == b'' and 8 <= done.stdout.count(b'\n') <= 12 and b'usage' in done.stdout)
    for words in ([CASE], ['--version'], ['--help', 'x']):
        done = subprocess.run([script] + words, stdin=subprocess.DEVNULL, stdout=subprocess.PIPE, stderr=subprocess.PIPE)
        count(runner, 'arguments ' + ' '.join(words), done.returncode == 2 and done.stdout == b'' and done.stderr.count(b'\n') == 1 and b'usage' in done.stderr)
    done = subprocess.run(['bash', '-c', 'ulimit -s 1024; "$0" <"$1"', script, CASE], stdout=subprocess.PIPE, stderr=subprocess.PIPE)
    count(runner, 'a stack of 1 MB', done.returncode == 139 and done.stdout == b'' and b'ulimit -s 2048' in done.stderr)
    done = subprocess.run(['bash', '-c', 'ulimit -s 2048; "$0" <"$1"', script, CASE], stdout=subprocess.PIPE, stderr=subprocess.PIPE)
    count(runner, 'a stack of 2 MB', done.returncode == 0 and done.stdout == content(CASE[:-3] + '.out'))
    keyboard, terminal = pty.openpty()
    process = subprocess.Popen([script], stdin=terminal, stdout=subprocess.PIPE, stderr=subprocess.PIPE)
    os.close(terminal)
    said = process.stderr.readline()
    os.write(keyboard, content(CASE) + b'\x04')
    printed, _ = process.communicate()
    os.close(keyboard)
    count(runner, 'on a terminal', b'waiting for a grid' in said and process.returncode == 0 and printed == content(CASE[:-3] + '.out'))


def try_all(runner):
    failures(runner)
    endless(runner)
    arguments(runner)
    builds(runner)
