"""Where tests have their files. Each run of the program brings its files to the disk, and there are thousands of runs: in memory that takes no time."""
import contextlib
import os
import shutil
import tempfile

MEMORY, LEAST = "/dev/shm", 1 << 30


def is_fit(folder):
    """Whether tests can write there as much as they do, and run what they write."""
    if not os.path.isdir(folder) or not os.access(folder, os.W_OK | os.X_OK):
        return False
    held = os.statvfs(folder)
    return not held.f_flag & os.ST_NOEXEC and held.f_bavail * held.f_frsize >= LEAST


@contextlib.contextmanager
def room():
    """A folder for all temporary files of these tests and of what they start, which goes away with them: where TMPDIR says, or else in memory."""
    in_memory = "TMPDIR" not in os.environ and is_fit(MEMORY)
    folder = tempfile.mkdtemp(prefix="exbr-test-", dir=MEMORY if in_memory else None)
    # Some tests have the program run by another user, who has to come to it.
    os.chmod(folder, 0o711)
    os.environ["TMPDIR"] = tempfile.tempdir = folder
    try:
        yield
    finally:
        shutil.rmtree(folder, ignore_errors=True)
