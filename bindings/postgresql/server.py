"""A PostgreSQL server for trials: with the extension that is built here, in a temporary folder, on a socket there.

Nothing is installed in the system: the folder has a copy of the server's programs and links to its other files, and the extension is
installed beside them. A server refuses to run as root, so root runs it as the user postgres, or as nobody.
"""
import os
import pwd
import shutil
import signal
import subprocess
import sys
import tempfile

HERE = os.path.dirname(os.path.abspath(__file__))
sys.path.insert(0, os.path.join(HERE, "..", "databases"))
from checking import build, run  # noqa: E402

SETTINGS = {
    "listen_addresses": "", "fsync": "off", "synchronous_commit": "off", "full_page_writes": "off", "max_wal_size": "4GB", "jit": "off",
    "shared_buffers": "256MB", "max_worker_processes": "8", "max_parallel_workers": "8", "log_min_messages": "fatal", "autovacuum": "off",
}


def another_user():
    """The user that the server runs as, if this is root."""
    if os.geteuid() != 0:
        return None
    names = {user.pw_name for user in pwd.getpwall()}
    return "postgres" if "postgres" in names else "nobody"


class Server:
    """A server that runs in a `with`."""

    def __init__(self, **settings):
        self.settings = {**SETTINGS, **settings}
        self.user = another_user()
        self.identity = {"user": self.user, "group": pwd.getpwnam(self.user).pw_gid, "extra_groups": []} if self.user else {}
        self.folder = None

    def __enter__(self):
        build("postgresql")
        self.folder = tempfile.mkdtemp(prefix="theta_sketch.")
        signal.signal(signal.SIGTERM, lambda *_: sys.exit("ended by a signal"))
        try:
            self.copy_server()
            build("postgresql", "install", f"DESTDIR={self.folder}")
            if self.user:
                run(["chown", "-R", self.user, self.folder])
            self.program("initdb", "-D", self.at("data"), "-A", "trust", "-U", "postgres", "--no-sync", "-E", "UTF8", "--locale=C")
            with open(self.at("data", "postgresql.conf"), "a", encoding="utf-8") as file:
                file.writelines(f"{name} = '{value}'\n" for name, value in self.settings.items())
            self.program("pg_ctl", "-D", self.at("data"), "-o", f"-k {self.folder}", "-l", self.at("log"), "-w", "start")
            self.query("CREATE EXTENSION theta_sketch")
        except BaseException:
            self.__exit__()
            raise
        return self

    def __exit__(self, *_):
        if os.path.exists(self.at("data", "postmaster.pid")):
            self.program("pg_ctl", "-D", self.at("data"), "-m", "immediate", "-w", "stop")
        shutil.rmtree(self.folder)

    def at(self, *names):
        return os.path.join(self.folder, *names)

    def copy_server(self):
        """The server finds its libraries and its extensions by the path of its program."""
        programs, libraries, shared = (run(["pg_config", word]).strip() for word in ("--bindir", "--pkglibdir", "--sharedir"))
        self.programs = self.folder + programs
        os.makedirs(self.programs)
        for name in ("postgres", "initdb", "pg_ctl"):
            shutil.copy(os.path.join(programs, name), self.programs)
        for place in (libraries, shared):
            os.makedirs(self.folder + place, exist_ok=True)
            run(["cp", "-rs", "--no-clobber", place + "/.", self.folder + place])

    def program(self, name, *words):
        """Runs a program of the server as its user. What it leaves running keeps no pipe open."""
        with open(self.at(f"{name}.log"), "w+", encoding="utf-8") as log:
            streams = {"stdin": subprocess.DEVNULL, "stdout": log, "stderr": log}
            done = subprocess.run([os.path.join(self.programs, name), *words], cwd=self.folder, **self.identity, check=False, **streams)
            log.seek(0)
            if done.returncode != 0:
                sys.exit(f"{name}: status {done.returncode}\n{log.read()[-2000:]}")

    def psql(self, sql, seconds=300):
        """Runs SQL in a session of its own, as the server's user, and goes on after an error; returns what is printed and the messages."""
        words = ["psql", "-X", "-q", "-A", "-t", "-h", self.folder, "-U", "postgres", "-d", "postgres", "-f", "-"]
        streams = {"input": sql, "capture_output": True, "text": True, "cwd": self.folder}
        done = subprocess.run(words, timeout=seconds, check=False, **self.identity, **streams)
        return done.stdout.splitlines(), done.stderr.splitlines()

    def query(self, sql):
        """The rows of SQL that succeeds."""
        found, messages = self.psql(sql)
        if any("ERROR" in line or "FATAL" in line or "lost" in line for line in messages):
            sys.exit(f"postgresql: {sql[:300]}: {messages[:3]}")
        return [line.split("|") for line in found]

    def value(self, sql):
        return self.query(sql)[0][0]
