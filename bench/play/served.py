"""A program that is loaded once, and started for each script in a process of its own: some times as fast as a start from its file."""

import os
import select
import signal
import struct

import programs

# The numbers of the files by which serve.rs is asked, and tells.
ASKS, TELLS = 100, 101

MOST_SECONDS = 30
HANGS = 'no end'


def library(work):
    """The library that starts a program again and again, built in the folder `work`."""
    return programs.rust(work, 'serve.so', 'serve.rs', '-C', 'panic=abort', '--crate-type', 'cdylib')


class Served:
    """A program with its words. Its streams are files in memory."""

    def __init__(self, command, serve):
        self.files = [os.memfd_create(name) for name in ('script', 'printed', 'said')]
        asked, self.asks = os.pipe()
        self.told, tells = os.pipe()
        places = [*zip(self.files, (0, 1, 2)), (asked, ASKS), (tells, TELLS)]
        dup = [(os.POSIX_SPAWN_DUP2, file, place) for file, place in places]
        self.process = os.posix_spawn(command[0], command, {'LD_PRELOAD': serve}, file_actions=dup, setpgroup=0)
        os.close(asked)
        os.close(tells)

    def run(self, text):
        """The status, what is printed, and what is said on standard error. A status below 0 is a signal's, or HANGS."""
        script, *outputs = self.files
        os.ftruncate(script, 0)
        os.pwrite(script, text, 0)
        for file in self.files:
            os.lseek(file, 0, os.SEEK_SET)
        os.write(self.asks, b'x')
        if not select.select([self.told], [], [], MOST_SECONDS)[0]:
            return HANGS, b'', b''
        status = os.waitstatus_to_exitcode(struct.unpack('i', os.read(self.told, 4))[0])
        return status, *(os.pread(file, os.lseek(file, 0, os.SEEK_CUR), 0) for file in outputs)

    def close(self):
        """Ends it, and what it has started."""
        os.killpg(self.process, signal.SIGKILL)
        os.waitpid(self.process, 0)
        for file in [*self.files, self.asks, self.told]:
            os.close(file)
