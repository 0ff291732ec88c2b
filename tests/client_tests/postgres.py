"""A server of PostgreSQL that a test starts, stops and asks."""
import contextlib
import glob
import os
import pwd
import shutil
import subprocess
import tempfile

from client_tests.common import Skipped, same


def binaries():
    """The folder of the newest server that Debian's packages have put here."""
    found = sorted(glob.glob("/usr/lib/postgresql/*/bin/initdb"), key=lambda it: float(it.split("/")[4]))
    if not found or not shutil.which("psql"):
        raise Skipped("there is no server of PostgreSQL, as Debian's package postgresql brings one")
    return os.path.dirname(found[-1])


class Server:
    """A server with a socket in a folder of its own, which belongs to a user who is not root."""

    def __init__(self, folder):
        self._folder = folder
        self._binaries = binaries()
        # it does not run as root
        self._as = {"user": "nobody", "group": pwd.getpwnam("nobody").pw_gid} if os.getuid() == 0 else {}
        if self._as:
            shutil.chown(folder, **self._as)
        how = ("-A", "trust", "-N", "-U", "station", "--no-locale", "-E", "UTF8")
        self._do("initdb", "-D", f"{folder}/data", *how)
        self.target = f"postgresql:host={folder} user=station dbname=postgres"

    def _do(self, *words):
        # a server that was begun keeps what it writes to, which therefore is no pipe
        with tempfile.TemporaryFile() as said:
            how = {"stdin": subprocess.DEVNULL, "stdout": subprocess.DEVNULL, "stderr": said, "cwd": self._folder}
            ended = subprocess.run([f"{self._binaries}/{words[0]}", *words[1:]], **how, **self._as)
            said.seek(0)
            same(ended.returncode, 0, f"{words}: {said.read().decode()}")

    def start(self):
        options = f"-k {self._folder} -c listen_addresses= -c fsync=off"
        self._do("pg_ctl", "-D", f"{self._folder}/data", "-w", "-o", options, "-l", f"{self._folder}/log", "start")

    def stop(self):
        """Breaks it off, as a crash does."""
        self._do("pg_ctl", "-D", f"{self._folder}/data", "-m", "immediate", "stop")

    def is_running(self):
        return os.path.exists(f"{self._folder}/data/postmaster.pid")

    def ask(self, query):
        """The rows of an answer, as lists of texts."""
        words = ["psql", "-X", "-A", "-t", "-F", "\t", "-h", self._folder, "-U", "station", "-c", query, "postgres"]
        environment = {**os.environ, "PGTZ": "UTC"}
        ended = subprocess.run(words, stdout=subprocess.PIPE, stderr=subprocess.PIPE, env=environment)
        same((ended.returncode, ended.stderr), (0, b""), f"psql, asked {query}")
        return [it.split("\t") for it in ended.stdout.decode().splitlines()]


@contextlib.contextmanager
def postgres():
    """A server that runs."""
    binaries()
    with tempfile.TemporaryDirectory(prefix="sorachest-") as folder:
        server = Server(folder)
        try:
            server.start()
            yield server
        finally:
            if server.is_running():
                server.stop()
