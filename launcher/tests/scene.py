"""A tree with the launcher in it, in which a fake toolchain and a fake program make runs quick."""

import os
import re
import shutil
import signal
import subprocess
import tempfile
import threading
import time
import unittest

HERE = os.path.dirname(os.path.realpath(__file__))
TOP = os.path.dirname(os.path.dirname(HERE))

# All that the launcher may call. A launcher that calls more fails in these tests.
TOOLS = '''basename cat chmod cp cut date dirname find grep head mkdir mkfifo mktemp mv printf readlink rm rmdir sed setsid sha256sum sh sleep sort
tail touch wc'''.split()

PROGRAM = 'crates/deolmutt/out/deolmutt'
TOOLCHAIN = 'the toolchain of a test\n'
SCRIPT = 'folder inbox\nlist inbox\n'
PLAYED = f'[play]\n{SCRIPT}'

# A crate for each line, as crates.txt has them: fewer than there are, so that a build is quick.
CRATES = """md_name: thiserror
md_name_tests: md_name
md_dirs: md_name indexmap
md_core: md_name md_dirs
maildir_cli: md_core clap
deolmutt: md_name md_disk clap
md_disk: md_dirs
"""
MADE_OF = ['md_name', 'md_dirs', 'md_disk', 'deolmutt']


def without_rights():
    """The words before a command that take root's rights from it, or a skip."""
    if os.geteuid() != 0:
        return []
    if not shutil.which('setpriv'):
        raise unittest.SkipTest('setpriv is not installed, and root may write everywhere')
    return [shutil.which('setpriv'), '--reuid=65534', '--regid=65534', '--clear-groups']


def posix_shells():
    """The shells that are installed of those that will do, each with its words."""
    for shell in ('dash', 'bash --posix', 'busybox sh', 'mksh', 'yash', 'zsh --emulate sh'):
        name, *flags = shell.split()
        if shutil.which(name):
            yield shutil.which(name), flags


def take_signals():
    """A shell can't trap a signal that was ignored when it began, as one is in a run of these tests by nohup or in the background."""
    for number in (signal.SIGHUP, signal.SIGINT, signal.SIGTERM):
        signal.signal(number, signal.SIG_DFL)


class Scene(unittest.TestCase):
    """Each test has its own tree, whose path a careless shell would misread, and its own folder of commands."""

    def setUp(self):
        self.room = tempfile.mkdtemp(prefix="deolmutt's [*] \\test %d ")
        self.addCleanup(self.remove_room)
        os.chmod(self.room, 0o755)
        self.top = self.path('a tree')
        self.launcher = os.path.join(self.top, 'deolmutt')
        self.scene = self.path('scene')
        self.bin = self.path('kit', 'bin')
        self.temporary = self.path('temporary')
        for folder in (self.scene, self.bin, self.path('tools'), self.path('home')):
            os.makedirs(folder)
        os.makedirs(self.temporary, mode=0o777)
        os.chmod(self.temporary, 0o777)
        self.copy_tree()
        for tool in TOOLS:
            os.symlink(shutil.which(tool), self.path('tools', tool))
        for fake in ('rt', 'deolmutt'):
            shutil.copy(os.path.join(HERE, 'fake', fake), os.path.join(self.bin, fake))
        self.environment = {
            'PATH': f"{self.bin}:{self.path('tools')}",
            'HOME': self.path('home'),
            'SCENE': self.scene,
            'TMPDIR': self.temporary,
        }

    def remove_room(self):
        # Some tests take the right to write from folders.
        for folder, _, _ in os.walk(self.room):
            os.chmod(folder, 0o755)
        shutil.rmtree(self.room)

    def path(self, *words):
        return os.path.join(self.room, *words)

    def copy_tree(self):
        without_tests = shutil.ignore_patterns('tests', '__pycache__')
        shutil.copytree(os.path.join(TOP, 'launcher'), os.path.join(self.top, 'launcher'), ignore=without_tests)
        os.makedirs(os.path.join(self.top, 'docs'))
        for file in ('deolmutt', 'docs/deolmutt.1'):
            shutil.copy(os.path.join(TOP, file), os.path.join(self.top, file))
        # A launcher that looks at its job more often makes the tests quicker.
        work = os.path.join(self.top, 'launcher', 'work.sh')
        self.write(work, self.read(work).replace('\npause=1\n', '\npause=0.1\n'))
        self.set_crates(CRATES)

    def set_crates(self, text):
        self.write(os.path.join(self.top, 'crates.txt'), text)
        for line in text.splitlines():
            if line and not line.startswith('#'):
                source = os.path.join(self.top, 'crates', line.split(':')[0], 'src')
                os.makedirs(source, exist_ok=True)
                self.write(os.path.join(source, 'lib.rt'), '')

    def change(self, crate):
        """Changes a crate, later than all that was made so far."""
        time.sleep(0.01)
        self.write(os.path.join(self.top, 'crates', crate, 'src', 'lib.rt'), '// changed\n')

    def write(self, path, text):
        with open(path, 'w', encoding='utf-8') as file:
            file.write(text)
        return path

    def read(self, path):
        with open(path, encoding='utf-8', errors='surrogateescape') as file:
            return file.read()

    def tell(self, name, text):
        """Writes a file of the scene, by which the fake toolchain goes."""
        return self.write(os.path.join(self.scene, name), text)

    def calls(self):
        path = os.path.join(self.scene, 'calls')
        return self.read(path).splitlines() if os.path.exists(path) else []

    def script(self, name='a script', text=SCRIPT):
        return self.write(self.path(name), text)

    def run_launcher(self, *words, launcher=None, before=(), **how):
        how = {'env': self.environment, 'cwd': self.room, 'input': '', **how}
        return subprocess.run([*before, launcher or self.launcher, *words], capture_output=True, text=True, timeout=60, **how)

    def run_into_full(self, *words):
        """A run whose standard output is a full disk."""
        with open('/dev/full', 'w', encoding='utf-8') as full:
            return subprocess.run([self.launcher, *words], stdout=full, stderr=subprocess.PIPE, env=self.environment, text=True, check=False)

    def refused(self, status, text, *words, **how):
        """One line on standard error, with the status, and nothing on standard output."""
        ran = self.run_launcher(*words, **how)
        self.assertEqual((ran.returncode, ran.stdout), (status, ''), ran.stderr)
        self.assertRegex(ran.stderr, r'\Adeolmutt: [^\n]*\n\Z')
        self.assertIn(text, ran.stderr)

    def build(self):
        """Leaves what `deolmutt build` leaves, which a test of that compares with this."""
        program = os.path.join(self.top, PROGRAM)
        os.makedirs(os.path.dirname(program))
        shutil.copy(os.path.join(self.bin, 'deolmutt'), program)
        self.write(f'{program}.built', TOOLCHAIN)
        return program


class Watch:
    """A launcher that runs, with what it says on standard error."""

    def __init__(self, scene, *words, stdin=subprocess.DEVNULL):
        self.said = ''
        self.changed = threading.Condition()
        ours, theirs = os.pipe()
        how = {'cwd': scene.room, 'env': scene.environment, 'stdin': stdin, 'start_new_session': True, 'preexec_fn': take_signals}
        self.process = subprocess.Popen([scene.launcher, *words], stdout=subprocess.PIPE, stderr=theirs, **how)
        os.close(theirs)
        self.reader = threading.Thread(target=self.read_all, args=(ours,))
        self.reader.start()

    def read_all(self, ours):
        while more := os.read(ours, 4096):
            with self.changed:
                self.said += more.decode()
                self.changed.notify()
        os.close(ours)

    def text(self):
        return self.said

    def wait_for(self, pattern, seconds=5):
        """Waits until the pattern is in what was said, and says whether it came."""
        with self.changed:
            return self.changed.wait_for(lambda: re.search(pattern, self.said), seconds)

    def end(self, seconds=30):
        """What is printed on standard output, and the status."""
        printed, _ = self.process.communicate(timeout=seconds)
        self.reader.join()
        return printed.decode(), self.process.returncode

    def stop(self, number=signal.SIGTERM):
        os.kill(self.process.pid, number)
