import ctypes, mmap, os, threading
libc = ctypes.CDLL(None)
cwd = os.open('.', os.O_RDONLY)
box = os.open('box', os.O_RDONLY)
# A child that starts no program, a relative path, a name of many bytes.
if os.fork() == 0:
    os.chdir('box/tmp')
    name = b'a b\\\n\r\xff'
    file = os.open(name, os.O_CREAT | os.O_EXCL | os.O_WRONLY)
    os.write(file, b'one')
    os.fsync(file)
    os.link(name, b'../new/' + name)
    os.unlink(name)
    os._exit(0)
os.wait()
# A file that has lost the name by which it was opened, and a copied descriptor.
file = os.open('tmp/z', os.O_CREAT | os.O_RDWR | os.O_SYNC, dir_fd=box)
os.rename('tmp/z', 'tmp/y', src_dir_fd=box, dst_dir_fd=box)
os.link('box/tmp/y', 'box/new/y')
os.unlink('box/tmp/y')
os.write(os.dup(file), b'hello')
os.write(file, b'')
os.ftruncate(file, 3)
os.fdatasync(file)
os.unlink('box/new/y')
os.write(file, b'nobody sees it')
# From outside and to outside, and onto a name that is there.
os.rename('mail', 'box/new/m')
os.rename('box/new/m', 'mail')
os.rename('mail', 'box/cur/v:2,')
# What has no words.
libc.renameat2(-100, b'box/cur/u:2,S', -100, b'box/cur/v:2,', 2)
libc.renameat2(-100, b'box/cur/u:2,S', -100, b'box/cur/v:2,', 2)
memory = mmap.mmap(os.open('box/cur/u:2,S', os.O_RDWR), 4)
os.mkdir('box/cur/folder')
os.rmdir('box/cur/folder')
# Refusals.
for call in [lambda: os.unlink('box/cur/none'), lambda: os.link('box/cur/none', 'box/cur/more'), lambda: os.link('box/cur/u:2,S', 'box/cur/v:2,'),
             lambda: os.open('box/cur/u:2,S', os.O_CREAT | os.O_EXCL), lambda: os.unlink('box/cur/' + 256 * 'n')]:
    try:
        call()
    except OSError:
        pass
# A thread, which shares directory and descriptors.
def in_thread():
    os.chdir('box')
    os.write(os.open('tmp/t', os.O_CREAT | os.O_TRUNC | os.O_WRONLY), b't')
thread = threading.Thread(target=in_thread)
thread.start()
thread.join()
os.open('tmp/old', os.O_WRONLY | os.O_TRUNC)
os.sync()
# A reading that is left, one from its beginning again, and one of the whole.
first = os.open('new', os.O_RDONLY)
libc.getdents64(first, ctypes.create_string_buffer(64), 64)
os.close(first)
list(os.scandir('cur'))
os.fchdir(cwd)
os.rename('box', 'far')
