"""The manual page and the completions: as they are made, and as the shells take them."""

import os
import pty
import re
import select
import shutil
import subprocess
import tempfile
import time
import unittest

from scene import TOP

LAUNCHER = os.path.join(TOP, 'launcher')
COMPLETIONS = os.path.join(LAUNCHER, 'completions')
MANUAL = os.path.join(TOP, 'docs', 'maildir_cli.1')
MAIL_MANUAL = os.path.join(TOP, 'docs', 'deolmutt.1')
PROGRAM = os.path.join(TOP, 'crates', 'maildir_cli', 'out', 'maildir_cli')
MAIL_PROGRAM = os.path.join(TOP, 'crates', 'deolmutt', 'out', 'deolmutt')

COMMANDS = 'make deliver list read seen flag move copy expunge clean check play threads index log judge'.split()

# What a user may type, and what completes it. A folder has the folder `box` and the file `a file` in it.
COMPLETED = (
    ('deolmutt ', [*COMMANDS, 'help']),
    ('deolmutt cl', ['clean']),
    ('deolmutt threads ', [str(number) for number in range(1, 17)]),
    ('deolmutt index 6', ['6', '60', '61', '62', '63', '64']),
    ('deolmutt threads 1', ['1', '10', '11', '12', '13', '14', '15', '16']),
    ('deolmutt --', ['--help', '--version']),
    ('deolmutt help ', COMMANDS),
    ('deolmutt deliver --', ['--folder', '--from', '--no-sync', '--many', '--print', '--help']),
    ('deolmutt list box --', ['--json', '--headers', '--help']),
    ('deolmutt flag --r', ['--remove']),
    ('deolmutt clean --', ['--help']),
    ('deolmutt judge --', ['--lines', '--json', '--summary', '--allow', '--least', '--owed', '--relies', '--by', '--help']),
    ('deolmutt log --', ['--states', '--help']),
    ('deolmutt judge --allow ', []),
    ('deolmutt judge --least ', []),
    ('deolmutt help list ', []),
    ('deolmutt deliver box --folder ', []),
)
PLACES = (
    ('deolmutt list ', 'dirnames', ['box/']),
    ('deolmutt list --json ', 'dirnames', ['box/']),
    ('deolmutt move box ', 'dirnames', ['box/']),
    ('deolmutt read ', 'dirnames', ['box/']),
    ('deolmutt read box ', 'default', ['a file', 'box/']),
    ('deolmutt judge ', 'default', ['a file', 'box/']),
    ('deolmutt move box box ', 'default', ['a file', 'box/']),
)


def rows_of(*kinds):
    with open(os.path.join(LAUNCHER, 'words.txt'), encoding='utf-8') as file:
        rows = [line.rstrip('\n').split(':', 4) for line in file if not line.startswith('#')]
    return [row for row in rows if row[0] in kinds]


def printed_by(*words):
    return subprocess.run(words, capture_output=True, text=True, check=True).stdout


def furnish(folder):
    os.mkdir(os.path.join(folder, 'box'))
    with open(os.path.join(folder, 'a file'), 'w', encoding='utf-8'):
        pass


def need(*commands):
    for command in commands:
        if not shutil.which(command):
            raise unittest.SkipTest(f'{command} is not installed')


class Made(unittest.TestCase):

    def setUp(self):
        room = tempfile.mkdtemp()
        self.addCleanup(shutil.rmtree, room)
        self.top = os.path.join(room, 'a tree')
        shutil.copytree(LAUNCHER, os.path.join(self.top, 'launcher'))
        for program in ('maildir_cli', 'deolmutt'):
            source = os.path.join('crates', program, 'src')
            shutil.copytree(os.path.join(TOP, source), os.path.join(self.top, source))
        os.mkdir(os.path.join(self.top, 'docs'))
        shutil.copy(MANUAL, os.path.join(self.top, 'docs'))

    def check(self):
        words = [os.path.join(self.top, 'launcher', 'make-pages'), '--check']
        ran = subprocess.run(words, capture_output=True, text=True, check=False)
        return ran.returncode, ran.stdout.splitlines()

    def change(self, path, old, new):
        path = os.path.join(self.top, path)
        with open(path, encoding='utf-8') as file:
            text = file.read()
        self.assertIn(old, text)
        with open(path, 'w', encoding='utf-8') as file:
            file.write(text.replace(old, new, 1))

    def test_they_are_up_to_date_and_their_words_are_the_program_s(self):
        self.assertEqual(self.check(), (0, []))

    def test_making_them_anew_changes_nothing(self):
        subprocess.run([os.path.join(self.top, 'launcher', 'make-pages')], check=True)
        for path in ('docs/maildir_cli.1', *(f'launcher/completions/{name}' for name in os.listdir(COMPLETIONS))):
            with open(os.path.join(TOP, path), 'rb') as ours, open(os.path.join(self.top, path), 'rb') as made:
                self.assertEqual(ours.read(), made.read(), path)

    def test_a_page_that_was_edited_is_named(self):
        self.change('docs/maildir_cli.1', 'Print version.', 'Prints it.')
        self.change('launcher/completions/deolmutt.bash', '{1..16}', '{1..17}')
        self.change('launcher/completions/_deolmutt', 'Changes the flags', 'Turns the flags')
        edited = ('launcher/completions/deolmutt.bash', 'launcher/completions/_deolmutt', 'docs/maildir_cli.1')
        self.assertEqual(self.check(), (1, [f'{path}: not as launcher/make-pages makes it' for path in edited]))

    def test_a_word_that_the_program_does_not_say_is_named(self):
        self.change('launcher/words.txt', 'Plays the script on', 'Runs the script on')
        status, faults = self.check()
        self.assertEqual(status, 1)
        self.assertIn('words.txt: the source of maildir_cli does not say "Runs the script on standard input"', faults)

    def test_a_word_that_the_mail_program_does_not_say_is_named(self):
        changes = {'Prints the bytes': 'Shows the bytes', 'list --headers': 'list --hders', 'add:LETTERS': 'add:FLAGS', 'mail:seen': 'mail:see'}
        for old, new in changes.items():
            self.change('launcher/words.txt', old, new)
        faults = self.check()[1]
        for word in ('Shows the bytes of a message', 'hders', 'FLAGS', 'see'):
            self.assertIn(f'words.txt: the source of deolmutt does not say "{word}"', faults)
        for word in ('headers', 'seen'):
            self.assertIn(f'words.txt: the command or option "{word}" of the source is missing', faults)

    def test_a_range_that_the_program_does_not_say_is_named(self):
        self.change('launcher/words.txt', '1..64', '1..65')
        self.assertIn('words.txt: index: its text does not say the range 1..65', self.check()[1])

    def test_a_version_that_the_program_does_not_say_is_named(self):
        self.change('crates/maildir_cli/src/options.rt', '.version("0.1.0")', '.version("0.2.0")')
        self.assertEqual(self.check(), (1, ['words.txt: the source of maildir_cli does not say "0.1.0"']))

    def test_a_command_that_the_table_lacks_is_named(self):
        self.change('crates/maildir_cli/src/options.rt', 'let threads =', 'let check = Command::new(alloc, "check");\n    let threads =')
        self.assertEqual(self.check(), (1, ['words.txt: the command or option "check" of the source is missing']))

    @unittest.skipUnless(os.access(PROGRAM, os.X_OK), 'the program is not built')
    def test_the_program_s_help_has_the_same_words(self):
        said = printed_by(PROGRAM, '--help')
        shown = re.findall(r'^  (-\w, --\w+|[a-z]+)  +(\S.*)$', said.partition('Commands:')[2].partition('\n\nThe script')[0], re.M)
        self.assertEqual([(row[1], row[4]) for row in rows_of('command', 'clap')], shown)

    @unittest.skipUnless(os.access(MAIL_PROGRAM, os.X_OK), 'the mail program is not built')
    def test_the_mail_program_s_help_has_the_same_words(self):
        said = printed_by(MAIL_PROGRAM, '--help').partition('Commands:')[2].partition('\n\nBOX ')[0]
        shown = re.findall(r'^  (-\w, --\w+|[a-z]+)  +(\S.*)$', said, re.M)
        rows = [row for kind in ('mail', 'command', 'log', 'clap') for row in rows_of(kind)]
        self.assertEqual([(row[1], row[4]) for row in rows], shown)

    @unittest.skipUnless(os.access(MAIL_PROGRAM, os.X_OK), 'the mail program is not built')
    def test_the_help_of_each_mail_command_has_its_options(self):
        for command in COMMANDS:
            said = printed_by(MAIL_PROGRAM, 'help', command).partition('\nOptions:\n')[2]
            shown = re.findall(r'^ +(?:-\w, )?(--[a-z-]+) ?(?:<(\w+)>)? +(\S.*)$', said, re.M)
            expected = [(row[1].split()[1], row[2], row[4]) for row in rows_of('option') if row[1].split()[0] == command]
            self.assertEqual([row for row in shown if row[0] != '--help'], expected, command)


class Manual(unittest.TestCase):

    def test_it_renders_without_a_warning(self):
        need('man', 'groff')
        readers = (['man', '--warnings', '-l'], ['groff', '-ww', '-man', '-z'])
        for command in [[*words, page] for words in readers for page in (MANUAL, MAIL_MANUAL)]:
            ran = subprocess.run(command, capture_output=True, text=True, env={**os.environ, 'MANWIDTH': '80'}, check=False)
            self.assertEqual((ran.returncode, ran.stderr), (0, ''), command)

    def shown(self, page):
        need('man', 'groff')
        environment = {**os.environ, 'MANWIDTH': '200'}
        return subprocess.run(['man', '-l', page], capture_output=True, text=True, env=environment, check=True).stdout

    def test_it_shows_each_command(self):
        commands = self.shown(MANUAL).partition('\nCOMMANDS\n')[2].partition('\nSCRIPT\n')[0]
        for words in ('play', 'threads N', 'index N', 'help [COMMAND]', '-h, --help', '-V, --version'):
            self.assertRegex(commands, rf'(?m)^ +{re.escape(words)}( |$)')

    def test_the_mail_program_s_shows_each_command_and_option(self):
        shown = self.shown(MAIL_MANUAL)
        self.assertIn(f'Deolmutt {rows_of("version")[0][1]}', shown)
        commands = shown.partition('\nCOMMANDS\n')[2].partition('\nEXIT STATUS\n')[0]
        for row in (*rows_of('mail'), *rows_of('command')):
            self.assertRegex(commands, rf'(?m)^ +{re.escape(f"{row[1]} {row[2]}".replace("...", " ...").strip())}( |$)')
        for row in rows_of('log'):
            self.assertRegex(commands, rf'(?m)^ +{row[1]}( |$)')
        for row in rows_of('option'):
            self.assertRegex(' '.join(commands.split()), rf' {row[1].split()[1]} {row[2]}\b')


class Bash(unittest.TestCase):

    def complete(self, line):
        """What the function answers that bash calls for a line."""
        script = '''
            . "$1"
            read -ra COMP_WORDS <<<"$2"
            [[ $2 == *' ' ]] && COMP_WORDS+=('')
            COMP_CWORD=$((${#COMP_WORDS[@]} - 1))
            complete -p "$3" >/dev/null || exit
            compopt() { place=$2; }
            "_$3"; printf '%s\\n' "${COMPREPLY[@]}"
            echo "$place" >&2
        '''
        program = line.split()[0]
        words = ['bash', '--norc', '-c', script, 'bash', os.path.join(COMPLETIONS, f'{program}.bash'), line, program]
        return subprocess.run(words, capture_output=True, text=True, check=True)

    def test_words_are_completed(self):
        need('bash')
        for line, words in COMPLETED:
            with self.subTest(line=line):
                found = self.complete(line).stdout.split()
                if line.split(' ')[-1] == '':
                    found = [word for word in found if not word.startswith('-')]
                self.assertEqual([word for word in found if word != '-h'], words)

    def test_places_are_completed(self):
        need('bash')
        for line, kind, _ in PLACES:
            with self.subTest(line=line):
                ran = self.complete(line)
                # Whether the shell completes folders, or files of any kind.
                self.assertEqual((ran.stdout.split(), ran.stderr.split()), ([], [kind]))

    def test_after_a_redirection_a_file_is_meant(self):
        need('bash')
        for line in ('deolmutt play < ', 'deolmutt deliver box < '):
            ran = self.complete(line)
            self.assertEqual((ran.stdout.split(), ran.stderr.split()), ([], ['default']))


class Fish(unittest.TestCase):

    def complete(self, line, folder=None):
        program = line.split()[0]
        script = f'source {os.path.join(COMPLETIONS, f"{program}.fish")!r}; complete -C {line!r}'
        said = subprocess.run(['fish', '--no-config', '-c', script], capture_output=True, text=True, check=True, cwd=folder).stdout
        return sorted(row.partition('\t')[0] for row in said.splitlines())

    def test_words_are_completed(self):
        need('fish')
        for line, words in COMPLETED:
            with self.subTest(line=line):
                self.assertEqual(self.complete(line), sorted(words))

    def test_places_are_completed(self):
        need('fish')
        with tempfile.TemporaryDirectory() as folder:
            furnish(folder)
            for line, _, words in PLACES:
                with self.subTest(line=line):
                    self.assertEqual(self.complete(line, folder), words)


class Zsh(unittest.TestCase):
    """A shell on a pseudo-terminal, in which keys are typed."""

    def setUp(self):
        need('zsh')
        room = tempfile.mkdtemp()
        self.addCleanup(shutil.rmtree, room)
        furnish(room)
        # Each shell writes its completions' names here.
        begin = f"fpath=({COMPLETIONS!r} $fpath); autoload -Uz compinit; compinit -u -d '{room}/dump'; "
        begin += "unsetopt prompt_sp; LISTMAX=1000; deolmutt() print -r -- \"RAN: $* .\"; PS1='READY> '"
        self.ours, theirs = pty.openpty()
        environment = {**os.environ, 'TERM': 'dumb', 'ZDOTDIR': room}
        how = {'stdin': theirs, 'stdout': theirs, 'stderr': theirs, 'start_new_session': True, 'cwd': room}
        self.shell = subprocess.Popen(['zsh', '-f', '-i'], env=environment, **how)
        os.close(theirs)
        self.addCleanup(self.close)
        self.type(f'{begin}\n', 'READY> ')

    def close(self):
        self.shell.kill()
        self.shell.wait()
        os.close(self.ours)

    def type(self, keys, until, seconds=20):
        """What comes after the keys, up to a text that ends it."""
        os.write(self.ours, keys.encode())
        said, ends = '', time.monotonic() + seconds
        while until not in said.replace(keys.strip(), '', 1):
            ready = select.select([self.ours], [], [], max(ends - time.monotonic(), 0))[0]
            if not ready:
                self.fail(f'{until!r} did not come after {keys!r}: {said!r}')
            said += os.read(self.ours, 4096).decode()
        return said

    def test_words_are_completed(self):
        # The slash that ends the name of a folder goes again where the line ends after it.
        for keys, words in (
            ('deolmutt help in\t', 'help index'),
            ('deolmutt threads --h\t', 'threads --help'),
            ('deolmutt cl\t', 'clean'),
            ('deolmutt --v\t', '--version'),
            ('deolmutt help de\t', 'help deliver'),
            ('deolmutt list --j\t', 'list --json'),
            ('deolmutt list \t', 'list box'),
            ('deolmutt read box a\t', 'read box a file'),
            ('deolmutt copy box b\t', 'copy box box'),
            ('deolmutt flag --rem\tS box a\t', 'flag --remove=S box a file'),
            ('deolmutt deliver --m\tb\t', 'deliver --many box'),
            ('deolmutt judge --l\ta\t', 'judge --lines a file'),
        ):
            with self.subTest(keys=keys):
                self.assertIn(f'RAN: {words} .', self.type(f'{keys}\n', f'RAN: {words} .'))

    def test_numbers_are_listed(self):
        # A tab lists what is possible where that is not one word, and Control-U takes the line away.
        said = self.type('deolmutt index 6\t', '64')
        self.assertRegex(said, r'\b6 +60 +61 +62 +63 +64\b')
        self.type('\x15\n', 'READY> ')
        said = self.type('deolmutt threads \t', '16')
        self.assertEqual(re.findall(r'\b\d+\b', said.partition('threads')[2]), [str(number) for number in range(1, 17)])
