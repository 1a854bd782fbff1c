"""Scripts and logs: unproved while there is no build, and by the build from then on."""

import os
import shutil
import signal
import time

from scene import PLAYED, PROGRAM, SCRIPT, TOP, Scene, Watch, posix_shells, without_rights

NOT_PROVED = 'this run is not proved yet'
NAMES = ('a b', '-odd', '--help', '*', "it's", 'two\nlines', '$HOME', 'ü', 'play', 'build', '(')
COMMANDS = (('play',), ('threads', '2'), ('index', '64'), ('log',), ('log', '--states'), ('judge',), ('judge', '--lines', '--allow', 'Gone'))
# Words that the program refuses, with what is said of them.
WRONG = (
    (('play', '--x'), "unexpected argument '--x' found"),
    (('threads', '17'), "invalid value '17' for '<N>': 17 is not in 1..16"),
    (('threads', '0'), "0 is not in 1..16"),
    (('index', '65'), "65 is not in 1..64"),
    (('index', 'two'), "invalid value 'two' for '<N>': it is no number"),
    (('index', '2', '-x'), "unexpected argument '-x' found"),
    (('log', '--state'), "unexpected argument '--state' found: a similar one is '--states'"),
    (('log', '--states', '--states'), "unexpected argument '--states' found"),
    (('judge', '--jsn'), "unexpected argument '--jsn' found: a similar one is '--json'"),
    (('judge', '--lines', '--json'), "the argument '--lines' cannot be used with '--json'"),
    (('judge', '--json', '--summary'), "the argument '--json' cannot be used with '--summary'"),
    (('judge', '--json', '--json'), "the argument '--json' cannot be used multiple times"),
    (('judge', '--allow', 'gone', '--'), "gone: not the name of a clause that may be allowed: a similar one is 'Gone'"),
    (('judge', '--allow=NotADirectory',), "NotADirectory: not the name of a clause that may be allowed"),
    (('judge', '--allow', '--lines'), "a value is required for '--allow <CLAUSE>'"),
    (('judge', '--least', 'worst'), "worst: not a grade: lost, misled, owed or custom"),
    (('judge', '--least', '--lines'), "a value is required for '--least <GRADE>'"),
)


def shown(words):
    """What the fake program prints of a script."""
    return ''.join(f'[{word}]' for word in words) + f'\n{SCRIPT}'


class Unproved(Scene):

    def kept(self):
        folder = os.path.dirname(os.path.join(self.top, PROGRAM))
        return [name for name in sorted(os.listdir(folder)) if name.startswith('unproved.')] if os.path.isdir(folder) else []

    def test_it_says_so_and_what_proves_it(self):
        for extra in ('First it is compiled', f"'{self.top}/deolmutt build'"):
            ran = self.run_launcher(self.script())
            self.assertEqual((ran.returncode, ran.stdout), (0, PLAYED))
            self.assertEqual(ran.stderr.count('\n'), 1)
            self.assertIn(NOT_PROVED, ran.stderr)
            self.assertIn(extra, ran.stderr)
        self.assertNotIn('compiled', ran.stderr)
        self.assertEqual(os.listdir(self.temporary), [])

    def test_it_is_compiled_once_for_all_runs_up_to_a_change(self):
        script = self.script()
        for words in COMMANDS:
            self.assertEqual(self.run_launcher(*words, script).stdout, shown(words))
        self.assertEqual(self.run_launcher('judge', '--allow', 'Gone', input=SCRIPT).stdout, shown(('judge', '--allow', 'Gone')))
        self.assertEqual(len(self.calls()), 1)
        before = self.kept()
        self.change('md_core')
        self.assertEqual(self.run_launcher(script).stdout, PLAYED)
        self.assertEqual((len(self.calls()), self.kept()), (1, before))
        self.change('md_disk')
        self.assertEqual(self.run_launcher(script).stdout, PLAYED)
        self.assertEqual((len(self.calls()), len(self.kept())), (2, 1))
        self.assertNotEqual(self.kept(), before)
        self.write(self.path('kit', 'KIT-ID'), 'another\n')
        self.assertEqual(self.run_launcher(script).stdout, PLAYED)
        self.assertEqual((len(self.calls()), len(self.kept())), (3, 1))
        self.assertEqual(self.run_launcher('build').returncode, 0)
        self.assertEqual(self.kept(), [])

    def test_a_tree_that_cannot_be_written_will_do(self):
        os.chmod(self.scene, 0o777)
        for folder, _, _ in os.walk(self.top):
            os.chmod(folder, 0o555)
        for word, given in ((self.script(), ''), ('play', SCRIPT)):
            ran = self.run_launcher(word, before=without_rights(), input=given, cwd='/')
            self.assertEqual((ran.returncode, ran.stdout, ran.stderr.count('\n')), (0, PLAYED, 1), ran.stderr)
        self.assertEqual((self.kept(), os.listdir(self.temporary)), ([], []))

    def test_a_missing_temporary_folder_is_named(self):
        ran = self.run_launcher(self.script(), env={**self.environment, 'TMPDIR': self.path('not there')})
        self.assertEqual((ran.returncode, ran.stdout), (73, ''))
        self.assertIn('no temporary folder can be made', ran.stderr.splitlines()[-1])

    def test_it_ends_with_the_status_of_the_program(self):
        for _ in range(2):
            ran = self.run_launcher(self.script(text='folder i\nrefused\nlist i\n'))
            self.assertEqual((ran.returncode, ran.stdout), (1, '[play]\nfolder i\n'))
            self.assertEqual(ran.stderr.splitlines()[1:], ['line 2: bad command'])

    def test_where_nothing_is_compiled_it_is_not_the_program_that_refused(self):
        self.tell('no-answer', 'the crate is refused')
        ran = self.run_launcher(self.script())
        self.assertEqual((ran.returncode, ran.stdout), (70, ''))
        self.assertIn('not compiled: the crate is refused', ran.stderr)
        self.assertIn('build', ran.stderr.splitlines()[-1])
        self.assertEqual((self.kept(), os.listdir(self.temporary)), ([], []))

    def test_a_toolchain_that_has_the_program_elsewhere_is_told(self):
        self.tell('kept-elsewhere', '')
        ran = self.run_launcher(self.script())
        self.assertEqual((ran.returncode, ran.stdout, self.kept()), (70, '', []))
        self.assertIn('the unproved program was not compiled', ran.stderr.splitlines()[-1])

    def test_output_that_cannot_be_written_is_the_program_s_to_tell(self):
        self.assertNotEqual(self.run_into_full(self.script()).returncode, 0)

    def test_a_script_comes_whole_from_a_slow_pipe(self):
        ours, theirs = os.pipe()
        watch = Watch(self, 'play', stdin=ours)
        os.close(ours)
        for part in ('folder ', 'inbox\n', 'list inbox\n'):
            os.write(theirs, part.encode())
            time.sleep(0.2)
        os.close(theirs)
        self.assertEqual(watch.end(), (PLAYED, 0))

    def test_wrong_words_are_refused_before_anything_is_compiled(self):
        self.set_clauses()
        script = self.script()
        for words, text in WRONG:
            for last in ((), (script,)):
                with self.subTest(words=(*words, *last)):
                    self.refused(64, text, *words, *last)
        self.refused(64, 'the following required arguments were not provided: <N>', 'threads')
        self.refused(64, 'it is no number', 'index', script)
        self.assertEqual(self.calls(), [])

    def test_right_words_are_not(self):
        self.set_clauses()
        of_judge = (('judge', '--allow=Gone', '-'), ('judge', '--json', '--allow', 'Mixed'), ('judge', '--owed', '--summary'))
        for words in (('play', '--'), ('threads', '+02'), ('index', '64'), *of_judge):
            self.assertEqual(self.run_launcher(*words, input=SCRIPT).stdout, shown(words))

    def set_clauses(self):
        folder = os.path.join(self.top, 'crates', 'md_log', 'src')
        os.makedirs(folder)
        shutil.copy(os.path.join(TOP, 'crates', 'md_log', 'src', 'clause.rt'), folder)

    def test_an_end_by_a_signal_ends_the_run_and_leaves_nothing(self):
        self.tell('seconds', '30')
        for number, status in ((signal.SIGINT, 130), (signal.SIGTERM, 143), (signal.SIGHUP, 129)):
            with self.subTest(number=number):
                watch = Watch(self, self.script())
                self.assertTrue(watch.wait_for(NOT_PROVED))
                time.sleep(1)
                watch.stop(number)
                self.assertEqual(watch.end(5), ('', status))
                self.assertEqual(os.listdir(self.temporary), [])


class Built(Scene):

    def setUp(self):
        super().setUp()
        self.program = self.build()

    def assert_plays(self, *words, expected=PLAYED, **how):
        ran = self.run_launcher(*words, **how)
        self.assertEqual((ran.returncode, ran.stdout, ran.stderr), (0, expected, ''))

    def assert_stale(self, why):
        ran = self.run_launcher(self.script())
        self.assertEqual((ran.returncode, ran.stdout), (0, PLAYED))
        self.assertIn(NOT_PROVED, ran.stderr)
        self.assertIn(why, ran.stderr)

    def test_commands_have_their_words(self):
        script = self.script()
        self.assert_plays(script)
        for words in COMMANDS:
            self.assert_plays(*words, script, expected=shown(words))
            self.assert_plays(*words, input=SCRIPT, expected=shown(words))
        for words in (('threads', script), ('threads', '+02', '--'), ('play', '-'), ('judge', script, '--lines'), ('judge', '--allow', script)):
            self.assert_plays(*words, input=SCRIPT, expected=shown(words))
        self.assertFalse([call for call in self.calls() if ' try ' in call])

    def test_files_may_have_any_name(self):
        for name in NAMES:
            with self.subTest(name=name):
                self.script(name)
                self.assert_plays('play', f'./{name}')
                self.assert_plays(f'./{name}')

    def test_it_is_found_from_anywhere(self):
        script = self.script()
        self.assert_plays(os.path.basename(script))
        self.assert_plays('../a script', cwd=self.top, launcher='./deolmutt')
        self.assert_plays('../../../a script', cwd=os.path.join(self.top, 'crates', 'md_core'), launcher='../../deolmutt')
        link = self.path('a link')
        os.symlink('a tree/deolmutt', link)
        self.assert_plays('a script', launcher=link)
        os.symlink(link, os.path.join(self.bin, 'front'))
        self.assert_plays('a script', launcher=os.path.join(self.bin, 'front'))
        self.assert_plays('-c', 'front "a script"', launcher='/bin/sh')

    def test_any_posix_shell_will_do(self):
        for shell, flags in posix_shells():
            with self.subTest(shell=shell):
                words = (*flags, self.launcher)
                os.remove(self.program)
                for command in ('build', 'install', 'uninstall', '--help'):
                    ran = self.run_launcher(*words, command, launcher=shell)
                    self.assertEqual(ran.returncode, 0, ran.stderr)
                self.assert_plays(*words, self.script(), launcher=shell)

    def test_the_status_is_that_of_the_program(self):
        ran = self.run_launcher(self.script(text='refused\n'))
        self.assertEqual((ran.returncode, ran.stderr), (1, 'line 1: bad command\n'))

    def test_it_is_not_used_after_a_change(self):
        self.change('md_disk')
        self.assert_stale('older than crates/md_disk/src/lib.rt')

    def test_it_is_not_used_after_a_file_went(self):
        time.sleep(0.01)
        os.remove(os.path.join(self.top, 'crates', 'md_dirs', 'src', 'lib.rt'))
        self.assert_stale('older than crates/md_dirs/src')

    def test_it_is_not_used_with_another_toolchain(self):
        self.write(self.path('kit', 'KIT-ID'), 'another\n')
        self.assert_stale("by another toolchain")

    def test_it_is_used_after_a_change_that_it_is_not_made_of(self):
        for crate in ('md_name_tests', 'md_core', 'maildir_cli'):
            self.change(crate)
        self.assert_plays(self.script())

    def test_it_is_used_without_a_toolchain(self):
        os.remove(os.path.join(self.bin, 'rt'))
        self.assert_plays(self.script())

    def test_a_build_of_the_gate_goes_by_its_own_time(self):
        os.remove(f'{self.program}.built')
        self.assert_plays(self.script())
        self.change('md_disk')
        self.assert_stale('older than crates/md_disk/src/lib.rt')

    def test_output_that_cannot_be_written_is_the_program_s_to_tell(self):
        self.assertNotEqual(self.run_into_full(self.script()).returncode, 0)
