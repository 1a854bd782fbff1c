"""Proving and building: what is told of it, and when it comes."""

import os
import signal
import subprocess
import time

from scene import MADE_OF, PLAYED, PROGRAM, TOOLCHAIN, TOP, Scene, Watch


class Feed:
    """A pipe by which a test gives the fake toolchain what it prints for a crate."""

    def __init__(self, scene, crate):
        self.path = os.path.join(scene.scene, f'{crate}.feed')
        os.mkfifo(self.path)
        self.file = None

    def put(self, text, is_last=True):
        # Opened here, since it waits until the toolchain reads.
        self.file = self.file or open(self.path, 'w', encoding='utf-8')
        self.file.write(text)
        self.file.flush()
        if is_last:
            self.file.close()
            os.remove(self.path)


class Progress(Scene):

    def test_each_crate_has_a_line_as_it_begins(self):
        feeds = [Feed(self, name) for name in MADE_OF]
        watch = Watch(self, 'build')
        for number, (name, feed) in enumerate(zip(MADE_OF, feeds), 1):
            self.assertTrue(watch.wait_for(rf'deolmutt: crate {number} of 4, {name}\n\Z'), watch.text())
            feed.put('checked: ended status=0\n')
        self.assertEqual(watch.end()[1], 0)
        self.assertRegex(watch.text(), r'\A(deolmutt: crate [^\n]*\n){4}deolmutt: proved and built 4 crates in 0:\d\d\n\Z')

    def test_it_says_that_it_waits(self):
        feed = Feed(self, 'md_name')
        watch = Watch(self, 'build')
        feed.put('rt: waiting for another rt to finish in a folder/crates/md_name\n', is_last=False)
        self.assertTrue(watch.wait_for('deolmutt: waiting for another rt in a folder/crates/md_name\n'), watch.text())
        feed.put('')
        self.assertEqual(watch.end()[1], 0)


class Build(Scene):

    def test_each_crate_is_proved_after_those_that_it_uses(self):
        with open(os.path.join(TOP, 'crates.txt'), encoding='utf-8') as file:
            text = file.read()
        self.set_crates(text)
        self.assertEqual(self.run_launcher('build').returncode, 0)
        calls = [call.split() for call in self.calls()]
        uses = {line.split(':')[0]: line.split(':')[1].split() for line in text.splitlines() if line and line[0] != '#'}
        proved = [name for name, *_ in calls]
        for at, name in enumerate(proved):
            self.assertTrue({it for it in uses[name] if it in uses} <= {*proved[:at]}, name)
        self.assertEqual(calls[-1], ['deolmutt', 'run', '--', '--version'])
        self.assertTrue(all(words == ['lib'] for _, *words in calls[:-1]))
        self.assertEqual(len(proved), len({*proved}))

    def test_it_leaves_the_program_and_who_made_it(self):
        self.assertEqual(self.run_launcher('build').returncode, 0)
        program = os.path.join(self.top, PROGRAM)
        self.assertTrue(os.access(program, os.X_OK))
        self.assertEqual(self.read(f'{program}.built'), TOOLCHAIN)

    def test_a_build_that_is_there_is_not_made_again(self):
        self.build()
        ran = self.run_launcher('build')
        self.assertEqual((ran.returncode, ran.stdout), (0, ''))
        self.assertIn('nothing that it is made of has changed', ran.stderr)
        self.assertFalse([call for call in self.calls() if ' lib' in call])

    def test_a_crate_that_is_not_proved_is_named_with_what_rt_says(self):
        self.tell('md_disk.printed', 'fn md_disk::a: proved\nerror: the goal stays open\nfn md_disk::b: not proved\nlogic=not-proved\n')
        self.tell('md_disk.status', '1')
        ran = self.run_launcher('build')
        self.assertEqual((ran.returncode, ran.stdout), (70, ''))
        self.assertIn('error: the goal stays open\nfn md_disk::b: not proved\n', ran.stderr)
        self.assertNotIn('fn md_disk::a: proved', ran.stderr)
        self.assertTrue(ran.stderr.endswith('deolmutt: md_disk was not built: rt ended with status 1\n'))
        log = os.path.join(self.top, os.path.dirname(PROGRAM), 'build.log')
        self.assertIn('fn md_disk::a: proved', self.read(log))
        self.assertIn(log, ran.stderr)
        self.assertFalse(os.path.exists(os.path.join(self.top, PROGRAM)))
        self.assertFalse([call for call in self.calls() if call.startswith('deolmutt')])

    def test_a_crate_that_was_killed_is_named_with_the_likely_cause(self):
        self.tell('md_dirs.status', '247')
        ran = self.run_launcher('build')
        self.assertEqual(ran.returncode, 70)
        self.assertRegex(ran.stderr, r'\ndeolmutt: md_dirs was not built: it was killed, most likely since memory ran out; .*\n\Z')

    def test_an_end_by_a_signal_ends_the_toolchain_and_leaves_nothing(self):
        self.tell('seconds', '30')
        watch = Watch(self, 'build')
        self.assertTrue(watch.wait_for('crate 1 of 4'))
        time.sleep(0.5)
        # As a terminal does, to the whole process group, in which the toolchain is not: two signals are one too many for it.
        os.killpg(watch.process.pid, signal.SIGINT)
        self.assertEqual(watch.end(5), ('', 130))
        self.assertRegex(watch.text(), r'\A(deolmutt: [^\n]*\n)+\Z')
        self.assertNotEqual(int(self.read(os.path.join(self.scene, 'group'))), watch.process.pid)
        self.assertEqual(os.listdir(self.temporary), [])
        running = subprocess.run(['ps', '-eo', 'args'], capture_output=True, text=True, check=True).stdout
        self.assertNotIn(self.bin, running)

    def test_a_change_while_it_is_proved_is_newer(self):
        self.tell('seconds', '1')
        building = Watch(self, 'build')
        self.assertTrue(building.wait_for('crate 2 of'))
        self.change('md_name')
        self.assertEqual(building.end(60)[1], 0)
        self.refused(70, 'older than crates/md_name/src/lib.rt', 'list', 'Mail')

    def test_it_needs_no_setsid(self):
        os.remove(self.path('tools', 'setsid'))
        self.assertEqual(self.run_launcher('build').returncode, 0)
        self.assertEqual(self.run_launcher(self.script()).stdout, PLAYED)

    def test_a_reader_that_goes_away_ends_it(self):
        self.tell('seconds', '3')
        ran = self.run_launcher('-c', '"$0" build 2>&1 | head -n 1', self.launcher, launcher='/bin/sh')
        self.assertEqual(ran.stdout.count('\n'), 1)
        self.assertEqual(os.listdir(self.temporary), [])
