"""What tests set before they begin, so that they pass however they are started.

Ignored signals, a closed input, `umask 077`, another language or a hook of git change nothing. A folder for temporary
files that is too small is told at the beginning.

    python3 tests/surroundings.py MEGABYTES TOOL ..

ends with 1, and says so, where there is less room for temporary files, or no such tool: before an hour of proofs.
"""
import os
import shutil
import signal
import sys
import tempfile

# variables of the caller's shell that would change the results
UNWANTED = ("ANTELOPE_SYNC", "LANGUAGE", "GIT_DIR", "GIT_WORK_TREE", "GIT_INDEX_FILE", "CDPATH", "POSIXLY_CORRECT")
SIGNALS = (signal.SIGHUP, signal.SIGINT, signal.SIGQUIT, signal.SIGTERM, signal.SIGPIPE)


def default_signals():
    """For `preexec_fn`: a process that `nohup` or `&` of a shell began hands on the signals that it ignores."""
    for number in SIGNALS:
        signal.signal(number, signal.SIG_DFL)


def settle(megabytes):
    """Sets what the caller may have set otherwise, and ends where the tests would not have enough room."""
    for number in range(3):
        try:
            os.fstat(number)
        except OSError:
            os.open(os.devnull, os.O_RDWR)
    # signals that a shell ignores in the background; a hangup stays ignored, as nohup needs
    for number in (signal.SIGINT, signal.SIGQUIT, signal.SIGTERM):
        if signal.getsignal(number) == signal.SIG_IGN:
            signal.signal(number, signal.SIG_DFL)
    os.umask(0o022)
    signal.signal(signal.SIGCHLD, signal.SIG_DFL)
    signal.pthread_sigmask(signal.SIG_SETMASK, ())
    os.environ["LC_ALL"] = "C.UTF-8"
    for name in UNWANTED:
        os.environ.pop(name, None)
    folder = tempfile.gettempdir()
    free = shutil.disk_usage(folder).free >> 20
    if free < megabytes:
        sys.exit(f"the tests need {megabytes} MB for temporary files, and {folder} has {free}: TMPDIR may name another folder")


def main(megabytes, *tools):
    settle(int(megabytes))
    missing = [it for it in tools if not shutil.which(it)]
    return f"the gate needs {' and '.join(missing)} on the path" if missing else 0


if __name__ == "__main__":
    sys.exit(main(*sys.argv[1:]))
