"""A PostgreSQL cluster of one's own: a folder, a server on a socket in it and on no port, and no other use of the
machine's own server. It goes when the run ends. PostgreSQL doesn't run as root, so root starts it as another user."""
import contextlib
import glob
import os
import pwd
import shutil
import signal
import subprocess
import time

from clients import NotRun

# The system's longest path of a socket is 107 bytes.
LONGEST = 107
# The longest that a server may take to start or to end.
SECONDS = 600
# How far behind the standby is.
LAG = "50ms"


def folder_of_programs():
    """The folder with initdb and postgres: that of the initdb which is found by name, or Debian's newest."""
    found = shutil.which("initdb")
    folders = [os.path.dirname(os.path.realpath(found))] if found else []
    folders += sorted(glob.glob("/usr/lib/postgresql/*/bin"), key=lambda path: float(path.split("/")[4]), reverse=True)
    for folder in folders:
        if os.access(os.path.join(folder, "initdb"), os.X_OK) and os.access(os.path.join(folder, "postgres"), os.X_OK):
            return folder
    return None


def user(*names):
    """Who runs a server: whoever runs this, but for root the first of these users that is here."""
    if os.geteuid() != 0:
        return {}
    for name in names:
        with contextlib.suppress(KeyError):
            entry = pwd.getpwnam(name)
            return {"user": entry.pw_uid, "group": entry.pw_gid, "extra_groups": []}
    raise NotRun("a database's server doesn't run as root, and here is none of the users " + ", ".join(names))


class Cluster:
    """A server in a folder of its own."""

    def __init__(self, folder, is_durable):
        self.folder, self.is_durable = folder, is_durable
        self.data = os.path.join(folder, "data")
        self.programs = folder_of_programs()
        if self.programs is None:
            raise NotRun("no PostgreSQL server is installed here (Debian's package postgresql)")
        if len(os.path.join(folder, ".s.PGSQL.5432")) > LONGEST:
            raise NotRun("%s is too long a path for a socket; TMPDIR names another folder" % folder)
        self.user = user("postgres", "nobody")
        os.mkdir(folder, 0o755)
        if self.user:
            os.chown(folder, self.user["user"], self.user["group"])
        self.server = None

    def program(self, name, *words):
        """Runs one of PostgreSQL's programs to its end."""
        done = subprocess.run([os.path.join(self.programs, name), *words], cwd=self.folder, stdin=subprocess.DEVNULL,
                              capture_output=True, text=True, env=surroundings(), **self.user)
        if done.returncode != 0:
            raise NotRun("%s ended with status %d: %s" % (name, done.returncode, done.stderr.strip()[-2000:]))

    def make(self):
        """Makes an empty cluster, whose only user is tatp."""
        self.program("initdb", "-D", self.data, "-U", "tatp", "-A", "trust", "-E", "UTF8", "--locale=C", "--no-sync")

    def copy_of(self, other):
        """Makes this cluster a standby of another, which lags behind it."""
        self.program("pg_basebackup", "-D", self.data, "-h", other.folder, "-U", "tatp", "-R", "-c", "fast",
                     "--no-sync")
        with open(os.path.join(self.data, "postgresql.auto.conf"), "a", encoding="ascii") as file:
            file.write("recovery_min_apply_delay = '%s'\n" % LAG)

    @contextlib.contextmanager
    def running(self):
        """The server runs while this is entered. It is a child of this process, so that it ends with it."""
        durable = "on" if self.is_durable else "off"
        settings = {"listen_addresses": "", "unix_socket_directories": self.folder, "max_connections": "200",
                    "fsync": durable, "synchronous_commit": durable, "full_page_writes": durable,
                    "logging_collector": "off", "max_pred_locks_per_transaction": "256"}
        words = [word for name, value in settings.items() for word in ("-c", "%s=%s" % (name, value))]
        with open(os.path.join(self.folder, "log"), "wb") as log:
            self.server = subprocess.Popen(
                [os.path.join(self.programs, "postgres"), "-D", self.data, *words], cwd=self.folder,
                stdin=subprocess.DEVNULL, stdout=log, stderr=log, env=surroundings(), **self.user)
        try:
            self.wait_until_ready()
            yield
        finally:
            self.end()

    def wait_until_ready(self):
        until = time.monotonic() + SECONDS
        ready = [os.path.join(self.programs, "pg_isready"), "-q", "-h", self.folder, "-U", "tatp", "-d", "postgres"]
        while subprocess.run(ready, env=surroundings()).returncode != 0:
            if self.server.poll() is not None or time.monotonic() > until:
                with open(os.path.join(self.folder, "log"), encoding="utf-8", errors="replace") as file:
                    raise NotRun("PostgreSQL doesn't start: " + file.read()[-2000:])
            time.sleep(0.05)

    def end(self):
        """Ends the server at once: nothing of it is kept."""
        self.server.send_signal(signal.SIGQUIT)
        try:
            self.server.wait(SECONDS)
        except subprocess.TimeoutExpired:
            self.server.kill()
            self.server.wait()


def surroundings():
    """The surroundings without what names another server."""
    kept = {name: value for name, value in os.environ.items() if not name.startswith("PG")}
    return dict(kept, LC_ALL="C", TZ="UTC")
