"""What the launcher takes and what it refuses."""

import os
import re

from scene import TOP, Scene, without_rights


class Words(Scene):

    def test_wrong_words_are_refused_in_one_line(self):
        for words, text in (
            ((), 'a command is missing'),
            (('build', 'x'), 'unexpected argument: x'),
            (('install', 'x'), 'unexpected argument: x'),
            (('install', '--prefix'), '--prefix takes a folder'),
            (('install', '--prefix='), '--prefix takes a folder'),
            (('uninstall', '--prefix', ''), '--prefix takes a folder'),
        ):
            with self.subTest(words=words):
                self.refused(64, text, *words)
        self.assertEqual(self.calls(), [])

    def test_files_that_cannot_be_read_are_refused(self):
        os.mkdir(self.path('a folder'))
        for words in (('play', 'no file'), ('threads', '2', 'no file'), ('log', 'no file'), ('judge', '--lines', 'no file'), ('play', '')):
            with self.subTest(words=words):
                self.refused(66, 'no such file', *words)
        self.refused(66, 'a folder: is a folder', 'play', 'a folder')

    def test_a_file_without_the_right_to_read_it_is_refused(self):
        os.chmod(self.script(), 0)
        ran = self.run_launcher(self.path('a script'), before=without_rights(), cwd='/')
        self.assertEqual((ran.returncode, ran.stdout), (66, ''))
        self.assertEqual(ran.stderr, f"deolmutt: {self.path('a script')}: can't be read\n")

    def test_what_is_no_command_and_no_file_is_refused_with_the_nearest_command(self):
        os.mkdir(self.path('a folder'))
        for words in (('no file',), ('a folder',), ('x', 'play')):
            self.refused(64, f"{words[0]}: no such file, and no command; try", *words)
        nearest = {'buidl': 'build', 'instal': 'install', 'unistall': 'uninstall', 'lst': 'list', 'plsy': 'play', 'judgge': 'judge'}
        for word, near in nearest.items():
            self.refused(64, f"{word}: no such file, and no command: a similar one is '{near}'; try", word, 'Mail')
        self.refused(64, "unexpected argument '-x' found", '-x')
        self.assertEqual(self.calls(), [])

    def test_where_the_program_is_built_it_is_the_program_that_tells_its_own_commands(self):
        self.build()
        self.assertEqual(self.run_launcher('lst', 'Mail').stdout, '[lst][Mail]\n')
        self.refused(64, "a similar one is 'install'", 'instal', '--prefix', 'x')

    def test_a_missing_toolchain_is_refused(self):
        os.remove(os.path.join(self.bin, 'rt'))
        self.refused(69, 'rt', self.script())
        self.refused(69, 'rt', 'build')

    def test_help_has_each_word(self):
        files = ('play [FILE]', 'threads N [FILE]', 'index N [FILE]', 'log [FILE]', 'judge [FILE]')
        others = ('build', 'install [--prefix DIR]', 'uninstall [--prefix DIR]', '--version')
        mail = ('make BOX', 'deliver BOX', 'list BOX', 'read BOX KEY', 'flag BOX CHANGE KEY...', 'move BOX TO KEY...', 'check BOX')
        for words in (('--help',), ('-h',), ('help',), ('play', '--help'), ('threads', '-h'), ('install', '--help')):
            with self.subTest(words=words):
                ran = self.run_launcher(*words)
                self.assertEqual((ran.returncode, ran.stderr), (0, ''))
                for word in mail + files + others:
                    self.assertRegex(ran.stdout, rf'(?m)^  ([^ ].*, )?{re.escape(word)}(  |$)')

    def test_help_begins_with_mail_and_fits_a_terminal(self):
        lines = self.run_launcher('--help').stdout.splitlines()
        self.assertEqual([line for line in lines if len(line) > 80], [])
        rows = [line.split()[0] for line in lines if line.startswith('  ') and line[2] != ' ']
        at = [rows.index(word) for word in ('make', 'check', 'play', 'index', 'log', 'judge', 'build', 'install', 'uninstall')]
        self.assertEqual(at, sorted(at))
        self.assertEqual(at[0], 0)

    def test_the_version_is_that_of_the_program(self):
        with open(os.path.join(TOP, 'crates', 'deolmutt', 'src', 'options.rt'), encoding='utf-8') as file:
            source = file.read()
        for word in ('--version', '-V'):
            name, version = self.run_launcher(word).stdout.split()
            self.assertEqual(name, 'deolmutt')
            self.assertIn(f'"{version}"', source)
