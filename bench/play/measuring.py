"""What programs take on scripts: time, instructions, page faults and memory."""

import filecmp
import os
import re
import shutil
import subprocess
import sys

import programs
import workloads

# Callgrind takes some fifty times as long as the program.
LONGEST_TO_COUNT = 1.2


def pin():
    """Keeps this process and all that it starts on one processor, where the system lets it."""
    if hasattr(os, 'sched_setaffinity'):
        os.sched_setaffinity(0, {max(os.sched_getaffinity(0))})


class Counter:
    """Counts a program's instructions."""

    def __init__(self, work):
        self.report = os.path.join(work, 'counted')
        self.name, self.count = self.first_that_counts()

    def first_that_counts(self):
        for name, count in [('valgrind', self.by_valgrind), ('perf', self.by_perf)]:
            if shutil.which(name) and count(['true'], os.devnull):
                return name, count
        return None, lambda command, script: None

    def by_valgrind(self, command, script):
        said = self.run(['valgrind', '--tool=callgrind', '--callgrind-out-file=' + self.report, *command], script)
        found = re.search(r'Collected : (\d+)', said)
        return int(found.group(1)) if found else None

    def by_perf(self, command, script):
        self.run(['perf', 'stat', '-x', ',', '-e', 'instructions:u', '-o', self.report, *command], script)
        with open(self.report, encoding='utf-8') as report:
            found = re.search(r'^(\d+),', report.read(), re.M)
        return int(found.group(1)) if found else None

    @staticmethod
    def run(command, script):
        with open(script, 'rb') as stdin:
            done = subprocess.run(command, stdin=stdin, stdout=subprocess.DEVNULL, stderr=subprocess.PIPE, check=False)
        return done.stderr.decode(errors='replace')


class Bench:
    """The two programs, and a folder for what they read and write."""

    def __init__(self, program, reps, work):
        self.work = work
        self.reps = reps
        self.launcher = programs.rust(work, 'measure', 'measure.rs')
        self.commands = {'ours': [program, 'play'], 'plain': [programs.plain(work), 'play']}
        self.counter = Counter(work)

    def path(self, name):
        return os.path.join(self.work, name)

    def output(self, who):
        return self.path(who + '.out')

    def run_once(self, who, script):
        """What one run took. A run that is refused ends the whole."""
        command = [self.launcher, self.output(who), *self.commands[who]]
        with open(script, 'rb') as stdin:
            done = subprocess.run(command, stdin=stdin, stdout=subprocess.PIPE, stderr=subprocess.PIPE, check=False)
        numbers = done.stdout.split()
        if done.returncode != 0 or done.stderr or numbers[4] != b'0':
            sys.exit('%s ended badly: %s' % (' '.join(self.commands[who]), done.stderr.decode(errors='replace')))
        return {'wall': float(numbers[0]), 'time': float(numbers[1]), 'faults': int(numbers[2]), 'memory': int(numbers[3])}

    def measure(self, workload, size):
        """The least figures of both programs on one script."""
        script = self.path('script')
        with open(script, 'wb') as out:
            out.write(workloads.script(workload, size))
        row = {'workload': workload, 'size': size, 'script': os.path.getsize(script), 'ours': {}, 'plain': {}}
        for rep in range(self.reps):
            for who in sorted(self.commands, reverse=rep % 2 == 1):
                row[who] = least(row[who], self.run_once(who, script))
            if rep == 0 and not filecmp.cmp(self.output('ours'), self.output('plain'), shallow=False):
                sys.exit('the programs print other bytes on %s of %d' % (workload, size))
        row['output'] = os.path.getsize(self.output('ours'))
        if max(row['ours']['wall'], row['plain']['wall']) <= LONGEST_TO_COUNT:
            for who, command in self.commands.items():
                row[who]['instructions'] = self.counter.count(command, script)
        return row


def least(old, new):
    return {key: min(value, old.get(key, value)) for key, value in new.items()}
