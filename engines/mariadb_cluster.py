"""A MariaDB server of one's own: a folder, a server on a socket in it and on no port, and no other use of the machine's
own server. It goes when the run ends. Root starts it as another user."""
import contextlib
import os
import shutil
import signal
import subprocess
import time

from clients import NotRun
from cluster import LONGEST, SECONDS, user

# Debian has the server in a folder that is in the PATH of root alone.
FOLDERS = os.pathsep.join([os.environ.get("PATH", ""), "/usr/sbin", "/usr/local/sbin"])


def programs():
    """The program that makes an empty database, and the server; None where one isn't here."""
    found = tuple(shutil.which(name, path=FOLDERS) for name in ("mariadb-install-db", "mariadbd"))
    return found if all(found) else None


class Cluster:
    """A server in a folder of its own."""

    def __init__(self, folder, is_durable):
        self.folder, self.is_durable = folder, is_durable
        self.data, self.socket = os.path.join(folder, "data"), os.path.join(folder, "socket")
        found = programs()
        if found is None:
            raise NotRun("no MariaDB server is installed here (Debian's package mariadb-server)")
        if len(self.socket) > LONGEST:
            raise NotRun("%s is too long a path for a socket; TMPDIR names another folder" % self.socket)
        self.maker, self.program = found
        self.user = user("mysql", "nobody")
        os.mkdir(folder, 0o755)
        if self.user:
            os.chown(folder, self.user["user"], self.user["group"])
        self.server = None

    def told(self):
        """The errors that the server or the maker has told, or the end of all that it has told."""
        with open(os.path.join(self.folder, "log"), encoding="utf-8", errors="replace") as file:
            lines = file.read().splitlines()
        return "; ".join([line for line in lines if "ERROR" in line] or lines)[-2000:]

    def started(self, *words):
        """One of MariaDB's programs, which reads no file of settings, has its temporary files in the folder, since it
        may be another user, and tells what it tells in the folder's log."""
        with open(os.path.join(self.folder, "log"), "wb") as log:
            return subprocess.Popen([words[0], "--no-defaults", "--datadir=" + self.data, *words[1:]],
                                    cwd=self.folder, stdin=subprocess.DEVNULL, stdout=log, stderr=log,
                                    env=dict(os.environ, TMPDIR=self.folder, LC_ALL="C", TZ="UTC"), **self.user)

    def make(self):
        """Makes an empty database, whose user root has no password."""
        status = self.started(self.maker, "--auth-root-authentication-method=normal", "--skip-name-resolve",
                              "--skip-test-db").wait()
        if status != 0:
            raise NotRun("mariadb-install-db ended with status %d: %s" % (status, self.told()))

    @contextlib.contextmanager
    def running(self):
        """The server runs while this is entered. It is a child of this process, so that it ends with it."""
        self.server = self.started(
            self.program, "--socket=" + self.socket, "--skip-networking", "--skip-name-resolve", "--skip-log-bin",
            "--max-connections=200", "--innodb-flush-log-at-trx-commit=%d" % self.is_durable,
            "--character-set-server=ascii", "--collation-server=ascii_bin", "--sql-mode=TRADITIONAL",
            "--pid-file=" + os.path.join(self.folder, "pid"))
        try:
            yield
        finally:
            self.end()

    def wait_until(self, is_ready):
        """Waits until the server can be used, as the function says."""
        until = time.monotonic() + SECONDS
        while not is_ready():
            if self.server.poll() is not None or time.monotonic() > until:
                raise NotRun("MariaDB doesn't start: " + self.told())
            time.sleep(0.05)

    def end(self):
        """Ends the server at once: nothing of it is kept."""
        self.server.send_signal(signal.SIGKILL)
        self.server.wait()
