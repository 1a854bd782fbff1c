"""Installing below a prefix, and taking back exactly that."""

import hashlib
import os
import shutil
import stat
import subprocess

from scene import PLAYED, PROGRAM, SCRIPT, Scene, without_rights

MANIFEST = 'share/deolmutt/manifest'


# What is installed, as users expect it below a prefix, and where each file comes from.
INSTALLED = {
    'bin/deolmutt': PROGRAM,
    'share/man/man1/deolmutt.1': 'docs/deolmutt.1',
    'share/bash-completion/completions/deolmutt': 'launcher/completions/deolmutt.bash',
    'share/zsh/site-functions/_deolmutt': 'launcher/completions/_deolmutt',
    'share/fish/vendor_completions.d/deolmutt.fish': 'launcher/completions/deolmutt.fish',
}


class Prefixed(Scene):
    """A prefix, and what may be asked of it."""

    def setUp(self):
        super().setUp()
        self.prefix = self.path('a prefix')

    def below(self, *words):
        return os.path.join(self.prefix, *words)

    def tree(self):
        """Each path below the prefix, with the text of files, where links are not followed."""
        found = {}
        for folder, folders, files in os.walk(self.prefix):
            for name in files + folders:
                path = os.path.join(folder, name)
                is_file = os.path.isfile(path) and not os.path.islink(path)
                found[os.path.relpath(path, self.prefix)] = self.read(path) if is_file else None
        return found

    def run_well(self, *words, **how):
        ran = self.run_launcher(*words, **how)
        self.assertEqual(ran.returncode, 0, ran.stderr)
        return ran

    def install(self, *words, **how):
        return self.run_well('install', '--prefix', self.prefix, *words, **how)

    def install_into_folder(self):
        """Installs below a prefix that is there, and so stays."""
        os.mkdir(self.prefix)
        return self.install()

    def uninstall(self, **how):
        return self.run_well('uninstall', '--prefix', self.prefix, **how)

    def assert_refused(self, status, text, *words, **how):
        """A refusal, in which other commands may say why too, and after which all below the prefix is as before."""
        before = self.tree() if os.path.isdir(self.prefix) else None
        ran = self.run_launcher(*words, '--prefix', self.prefix, **how)
        self.assertEqual((ran.returncode, ran.stdout), (status, ''), ran.stderr)
        self.assertIn(text, ran.stderr.splitlines()[-1])
        self.assertEqual(self.tree() if os.path.isdir(self.prefix) else None, before)

    def assert_installed(self):
        files = {path: text for path, text in self.tree().items() if text is not None}
        self.assertEqual({*files}, {*INSTALLED, MANIFEST})
        for path, source in INSTALLED.items():
            self.assertEqual(files[path], self.read(os.path.join(self.top, source)))
            mode = 0o755 if path.startswith('bin/') else 0o644
            self.assertEqual(stat.S_IMODE(os.stat(self.below(path)).st_mode), mode, path)


class Install(Prefixed):

    def setUp(self):
        super().setUp()
        self.build()

    def test_an_empty_prefix_gets_all_and_gives_all_back(self):
        said = self.install_into_folder().stdout.splitlines()
        self.assert_installed()
        self.assertEqual(said, [f'installed {self.below(path)}' for path in (*INSTALLED, MANIFEST)])
        self.assertEqual(self.run_well('play', launcher=self.below('bin', 'deolmutt'), input=SCRIPT).stdout, PLAYED)
        said = self.uninstall().stdout.splitlines()
        self.assertEqual(said, [f'removed {self.below(path)}' for path in (*INSTALLED, MANIFEST)])
        self.assertEqual(self.tree(), {})

    def test_a_prefix_that_is_not_there_is_made_and_goes_again(self):
        above = self.path('new folders')
        self.prefix = os.path.join(above, 'of', 'mine')
        self.install()
        self.assert_installed()
        self.uninstall()
        self.assertFalse(os.path.exists(above))

    def test_without_a_prefix_it_is_the_user_s_own(self):
        self.run_well('install')
        self.prefix = os.path.join(self.environment['HOME'], '.local')
        self.assert_installed()
        self.run_well('uninstall')
        self.assertEqual(os.listdir(self.environment['HOME']), [])

    def test_without_a_prefix_and_a_home_it_is_refused(self):
        environment = {name: value for name, value in self.environment.items() if name != 'HOME'}
        self.refused(64, '--prefix', 'install', env=environment)

    def test_prefixes_may_be_spelled_in_any_way(self):
        os.makedirs(self.path('-x y'))
        os.symlink('-x y', self.path('link'))
        self.prefix = self.path('-x y')
        for spelled in ('-x y', './-x y/', 'link', self.path('link') + '//', 'temporary/../link/'):
            with self.subTest(spelled=spelled):
                self.run_well('install', '--prefix', spelled)
                self.assert_installed()
                self.run_well('uninstall', f'--prefix={spelled}')
                self.assertEqual(self.tree(), {})
        self.refused(64, '..', 'install', '--prefix', 'not there/../x')
        self.refused(64, 'line end', 'install', '--prefix', 'two\nlines')

    def test_a_prefix_may_have_any_bytes(self):
        name = os.fsdecode(b'p\xff*[a] \\t')
        self.environment['LC_ALL'] = 'C.UTF-8'
        os.mkdir(self.path(name))
        self.prefix = self.path(name)
        for command in ('install', 'install', 'uninstall'):
            subprocess.run([self.launcher, command, '--prefix', name], check=True, env=self.environment, cwd=self.room, capture_output=True)
            if command == 'install':
                self.assert_installed()
        self.assertEqual(self.tree(), {})

    def test_other_files_and_folders_stay(self):
        os.makedirs(self.below('share', 'man', 'man1'))
        os.makedirs(self.below('bin'))
        self.write(self.below('bin', 'other'), 'other\n')
        before = self.tree()
        self.install()
        self.write(self.below('share', 'fish', 'mine'), 'mine\n')
        self.uninstall()
        self.assertEqual(self.tree(), {**before, 'share/fish': None, 'share/fish/mine': 'mine\n'})

    def test_a_second_install_takes_the_place_of_the_first(self):
        self.install_into_folder()
        self.install()
        self.assert_installed()
        page = os.path.join(self.top, 'docs', 'deolmutt.1')
        self.write(page, self.read(page) + '.\\" newer\n')
        self.install()
        self.assert_installed()
        self.uninstall()
        self.assertEqual(self.tree(), {})

    def test_what_a_second_install_no_longer_brings_goes(self):
        self.install_into_folder()
        table = os.path.join(self.top, 'launcher', 'files.txt')
        self.write(table, ''.join(line for line in self.read(table).splitlines(True) if 'fish' not in line))
        self.install()
        self.assertNotIn('share/fish/vendor_completions.d/deolmutt.fish', self.tree())
        self.uninstall()
        self.assertEqual(self.tree(), {})

    def test_a_changed_file_is_left(self):
        self.install_into_folder()
        changed = 'share/zsh/site-functions/_deolmutt'
        self.write(self.below(changed), 'mine\n')
        self.assert_refused(73, f'{self.below(changed)}: is not from an install, or was changed since', 'install')
        ran = self.uninstall()
        self.assertEqual(ran.stderr, f'deolmutt: {self.below(changed)}: was changed since, and is left\n')
        folders = {'share': None, 'share/zsh': None, 'share/zsh/site-functions': None}
        self.assertEqual(self.tree(), {**folders, changed: 'mine\n'})

    def test_a_file_that_is_gone_is_said(self):
        self.install_into_folder()
        os.remove(self.below('bin', 'deolmutt'))
        self.assertIn('bin/deolmutt: is gone already', self.uninstall().stderr)
        self.assertEqual(self.tree(), {})

    def test_a_link_in_the_place_of_a_file_is_left(self):
        self.install_into_folder()
        shutil.move(self.below('bin', 'deolmutt'), self.path('moved'))
        os.symlink(self.path('moved'), self.below('bin', 'deolmutt'))
        self.assertIn('bin/deolmutt: was changed since, and is left', self.uninstall().stderr)
        self.assertTrue(os.path.exists(self.path('moved')))

    def test_a_foreign_file_is_never_overwritten(self):
        for path in INSTALLED:
            with self.subTest(path=path):
                os.makedirs(os.path.dirname(self.below(path)))
                self.write(self.below(path), 'foreign\n')
                self.assert_refused(73, f'{self.below(path)}: is not from an install', 'install')
                shutil.rmtree(self.prefix)
        program = self.below('bin', 'deolmutt')
        os.makedirs(program)
        self.assert_refused(73, f'{program}: is not from an install', 'install')
        os.rmdir(program)
        os.symlink('nowhere', program)
        self.assert_refused(73, f'{program}: is not from an install', 'install')

    def test_a_prefix_that_is_no_folder_is_refused(self):
        self.write(self.prefix, '')
        self.assert_refused(73, f'{self.prefix}: is no folder', 'install')
        self.refused(73, 'is no folder', 'install', '--prefix', os.path.join(self.prefix, 'x'))

    def test_a_prefix_that_cannot_be_written_is_refused(self):
        os.mkdir(self.prefix)
        os.chmod(self.prefix, 0o555)
        self.assert_refused_without_rights(f"{self.below('bin')}: can't be made", 'install')

    def test_an_install_that_fails_on_its_way_is_taken_back(self):
        os.makedirs(self.below('share', 'zsh'))
        for folder in ('', 'share', 'share/zsh'):
            os.chmod(self.below(folder), 0o777 if folder != 'share/zsh' else 0o555)
        self.assert_refused_without_rights(f"{self.below('share', 'zsh', 'site-functions')}: can't be made", 'install')

    def assert_refused_without_rights(self, text, command):
        self.assert_refused(73, text, command, before=without_rights(), cwd='/')

    def test_a_second_install_that_fails_leaves_the_first(self):
        self.install_into_folder()
        self.write(os.path.join(self.top, 'docs', 'deolmutt.1'), 'newer\n')
        self.replace_third_move('exit 1')
        self.assert_refused(73, "share/bash-completion/completions/deolmutt: can't be written", 'install')

    def test_an_install_that_a_signal_ends_is_taken_back(self):
        os.mkdir(self.prefix)
        self.replace_third_move('kill -TERM "$PPID"')
        ran = self.run_launcher('install', '--prefix', self.prefix)
        self.assertEqual((ran.returncode, ran.stdout), (143, ''))
        self.assertEqual((self.tree(), os.listdir(self.temporary)), ({}, []))

    def replace_third_move(self, command):
        """Has something else happen where mv is called for the third time, when two files are in their places."""
        path = self.path('tools', 'mv')
        os.remove(path)
        count = 'echo >>"$SCENE/moves"\n[ "$(wc -l <"$SCENE/moves")" -ne 3 ] ||'
        self.write(path, f'#!/bin/sh\n{count} {command}\nexec {shutil.which("mv")} "$@"\n')
        os.chmod(path, 0o755)

    def test_a_file_that_cannot_be_taken_away_is_named(self):
        self.install_into_folder()
        os.chmod(self.below('bin'), 0o555)
        self.assert_refused_without_rights("bin/deolmutt: can't be taken away", 'uninstall')

    def test_a_program_that_is_not_built_is_refused(self):
        shutil.rmtree(os.path.join(self.top, 'crates', 'deolmutt', 'out'))
        self.assert_refused(70, f"nothing is installed, since deolmutt is not built: '{self.top}/deolmutt build'", 'install')

    def test_a_file_that_is_missing_here_is_named(self):
        os.remove(os.path.join(self.top, 'docs', 'deolmutt.1'))
        self.assert_refused(66, "docs/deolmutt.1: can't be read", 'install')

    def test_where_nothing_is_installed_nothing_is_taken_back(self):
        os.mkdir(self.prefix)
        self.assert_refused(66, f'nothing is installed below {self.prefix}', 'uninstall')

    def test_a_record_that_leads_elsewhere_is_refused(self):
        victim = self.write(self.path('victim'), 'mine\n')
        with open(victim, 'rb') as file:
            total = hashlib.sha256(file.read()).hexdigest()
        self.install_into_folder()
        good = self.read(self.below(MANIFEST))
        for line in (
            f'file {total} {victim}',
            f'file {total} {self.prefix}/../victim',
            f'file {total} {self.prefix}/bin/../../victim',
            f'folder {self.scene}',
            f'folder {self.prefix}/../scene',
            f'file x {self.prefix}/bin/deolmutt',
            'folder bin',
            'something else',
            '',
        ):
            with self.subTest(line=line):
                self.write(self.below(MANIFEST), f'{good}{line}\n')
                self.assert_refused(65, f'{self.below(MANIFEST)}: is no record of an install', 'uninstall')
                self.assert_refused(65, f'{self.below(MANIFEST)}: is no record of an install', 'install')
        self.write(self.below(MANIFEST), '')
        self.assert_refused(65, 'is no record of an install', 'uninstall')
        self.assertEqual(self.read(victim), 'mine\n')

    def test_folders_and_files_are_readable_whatever_the_mask(self):
        os.mkdir(self.prefix)
        script = 'umask 077; exec "$0" install --prefix "$1"'
        self.run_well('-c', script, self.launcher, self.prefix, launcher='/bin/sh')
        self.assert_installed()
        self.assertEqual(stat.S_IMODE(os.stat(self.below('share')).st_mode), 0o755)

    def test_it_says_where_its_program_is_not_found(self):
        self.assertIn('is not on the path', self.install().stderr)
        environment = {**self.environment, 'PATH': f"{self.below('bin')}:{self.environment['PATH']}"}
        self.assertNotIn('is not on the path', self.install(env=environment).stderr)

    def test_a_build_that_is_too_old_is_refused(self):
        self.change('md_disk')
        why = "deolmutt's build is older than crates/md_disk/src/lib.rt"
        self.assert_refused(70, f"nothing is installed, since {why}: '{self.top}/deolmutt build' proves and builds it", 'install')

    def test_what_is_installed_does_not_go_for_want_of_a_build(self):
        self.install()
        shutil.rmtree(os.path.join(self.top, 'crates', 'deolmutt', 'out'))
        self.assert_refused(70, 'nothing is installed, since deolmutt is not built', 'install')
        self.assertEqual(self.read(self.below('bin', 'deolmutt')), self.read(os.path.join(self.bin, 'deolmutt')))

    def test_a_link_to_the_launcher_is_never_overwritten(self):
        os.makedirs(self.below('bin'))
        os.symlink(self.launcher, self.below('bin', 'deolmutt'))
        self.assert_refused(73, f"{self.below('bin', 'deolmutt')}: is not from an install", 'install')
