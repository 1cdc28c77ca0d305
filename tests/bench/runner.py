"""Starts the bench program and keeps count of what agrees."""
import difflib
import os
import tempfile

HERE = os.path.dirname(os.path.abspath(__file__))
ROOT = os.path.dirname(os.path.dirname(HERE))
PROGRAM = os.path.join(ROOT, 'target', 'bin', 'bench')
CASE = os.path.join(HERE, 'cases', 'document_01.in')
SHOWN = 5


class Runner:
    """Starts the program on an input, and keeps count."""

    def __init__(self):
        self.folder = tempfile.TemporaryDirectory(prefix='bench-test-')
        self.input = os.path.join(self.folder.name, 'in')
        self.output = os.path.join(self.folder.name, 'out')
        self.agreed = 0
        self.differed = 0

    def start(self, data):
        """Exit status and what was printed."""
        with open(self.input, 'wb') as f:
            f.write(data)
        actions = [
            (os.POSIX_SPAWN_OPEN, 0, self.input, os.O_RDONLY, 0),
            (os.POSIX_SPAWN_OPEN, 1, self.output, os.O_WRONLY | os.O_CREAT | os.O_TRUNC, 0o600),
        ]
        pid = os.posix_spawn(PROGRAM, [PROGRAM], {}, file_actions=actions)
        status = os.waitstatus_to_exitcode(os.waitpid(pid, 0)[1])
        with open(self.output, 'rb') as f:
            return status, f.read()

    def compare(self, name, data, expected):
        status, printed = self.start(data)
        if status == 0 and printed == expected:
            self.agreed += 1
            return True
        self.differed += 1
        if self.differed <= SHOWN:
            report(name, data, expected, status, printed)
        return False


def lines_of(data):
    return [repr(line)[2:-1] for line in data[:20000].split(b'\n')]


def report(name, data, expected, status, printed):
    print('DIFFERS: %s (exit status %d)' % (name, status))
    print('  input, %d bytes:' % len(data))
    for line in lines_of(data)[:12]:
        print('    ' + line[:160])
    for line in list(difflib.unified_diff(lines_of(expected), lines_of(printed), 'expected', 'printed', lineterm=''))[:20]:
        print('  ' + line)


def content(path):
    with open(path, 'rb') as f:
        return f.read()


def count(runner, name, agrees):
    if agrees:
        runner.agreed += 1
    else:
        runner.differed += 1
        print('DIFFERS: ' + name)
