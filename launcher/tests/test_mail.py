"""The commands on mail: their words as they are, and never an unproved run."""

import os
import subprocess
import unittest

from scene import SCRIPT, TOP, Scene, posix_shells

COMMANDS = ('make', 'deliver', 'list', 'read', 'seen', 'flag', 'move', 'copy', 'expunge', 'clean', 'check')


class Unbuilt(Scene):

    def test_nothing_is_run_and_the_remedy_is_named(self):
        for command in COMMANDS:
            text = f"{command} can't be run, since deolmutt is not built: '{self.top}/deolmutt build' proves and builds it"
            self.refused(75 if command == 'deliver' else 70, text, command, 'Mail')
        self.assertEqual(self.calls(), [])

    def test_what_it_is_given_to_read_is_not_read(self):
        with open(self.script('a message'), encoding='utf-8') as message:
            ran = subprocess.run([self.launcher, 'deliver', 'Mail'], stdin=message, env=self.environment, capture_output=True, check=False)
            self.assertEqual((ran.returncode, ran.stdout), (75, b''))
            self.assertEqual(message.read(), SCRIPT)

    def test_a_missing_toolchain_is_not_asked_for(self):
        os.remove(os.path.join(self.bin, 'rt'))
        self.refused(70, 'deolmutt is not built', 'list', 'Mail')

    def test_help_is_the_launcher_s(self):
        expected = self.run_launcher('--help').stdout
        for words in (('help', 'list'), ('list', '--help'), ('flag', 'Mail', '-h')):
            ran = self.run_launcher(*words)
            self.assertEqual((ran.returncode, ran.stdout, ran.stderr), (0, expected, ''))
        self.refused(70, 'list can', 'list', '--', '--help')


class Built(Scene):

    def setUp(self):
        super().setUp()
        self.program = self.build()

    def assert_runs(self, *words, **how):
        ran = self.run_launcher(*words, input=SCRIPT, **how)
        self.assertEqual((ran.returncode, ran.stdout, ran.stderr), (0, ''.join(f'[{word}]' for word in words) + '\n' + SCRIPT, ''))

    def assert_stale(self, why):
        self.refused(70, f"list can't be run, since deolmutt's build is {why}: '{self.top}/deolmutt build'", 'list', 'Mail')
        self.assertFalse([call for call in self.calls() if ' try ' in call])

    def test_words_pass_as_they_are(self):
        for command in COMMANDS:
            self.assert_runs(command)
            self.assert_runs(command, '--help')
        odd = ('*', "it's", 'two\nlines', '$HOME', '\\n')
        for words in (('Mail',), ('a b', '', '-'), ('--', '-x'), ('Mail', '+FS-T', *odd), ('--prefix', '-V')):
            self.assert_runs('flag', *words)
        self.assertEqual(self.calls(), [])

    def test_a_message_may_have_any_bytes(self):
        message = bytes(range(256)) * 1000
        ran = subprocess.run([self.launcher, 'deliver', 'Mail'], input=message, env=self.environment, capture_output=True, check=False)
        self.assertEqual((ran.returncode, ran.stdout), (0, b'[deliver][Mail]\n' + message))

    def test_the_status_is_that_of_the_program(self):
        for status in (64, 65, 75):
            self.tell('program-status', str(status))
            self.assertEqual(self.run_launcher('read', 'Mail', 'x').returncode, status)

    def test_help_and_the_version_are_the_program_s(self):
        for words in (('help', 'flag'), ('help',), ('--help',), ('-h',), ('-V',), ('--version',), ('play', '--help'), ('nonsense',)):
            self.assert_runs(*words) if words[0] != 'play' else self.assertEqual(self.run_launcher(*words).stdout, '[play][--help]\n')

    def test_a_file_may_have_the_name_of_a_command(self):
        for name in COMMANDS:
            self.script(name)
            self.assert_runs(name)
            for words in (('play', name), (f'./{name}',)):
                self.assertEqual(self.run_launcher(*words).stdout, f'[play]\n{SCRIPT}')

    def test_it_is_not_used_after_a_change(self):
        self.change('md_core')
        self.assert_runs('list', 'Mail')
        self.change('md_disk')
        self.assert_stale('older than crates/md_disk/src/lib.rt')

    def test_it_is_not_used_with_another_toolchain(self):
        self.write(self.path('kit', 'KIT-ID'), 'another\n')
        self.assert_stale('by another toolchain')
        os.remove(os.path.join(self.bin, 'rt'))
        self.assert_runs('list', 'Mail')

    def test_any_posix_shell_will_do(self):
        for shell, flags in posix_shells():
            with self.subTest(shell=shell):
                ran = self.run_launcher(*flags, self.launcher, 'list', 'a b', launcher=shell)
                self.assertEqual((ran.returncode, ran.stdout, ran.stderr), (0, '[list][a b]\n', ''))


class Table(unittest.TestCase):

    def test_no_word_is_two_commands(self):
        with open(os.path.join(TOP, 'launcher', 'words.txt'), encoding='utf-8') as file:
            rows = [line.split(':') for line in file if line.startswith(('command:', 'mail:', 'log:'))]
        words = [row[1] for row in rows]
        self.assertEqual([row[1] for row in rows if row[0] == 'mail'], [*COMMANDS])
        taken = [*words, 'help', 'build', 'install', 'uninstall']
        self.assertEqual(len(taken), len({*taken}))
