"""A MariaDB server in a folder of its own, without a network, with its Performance Schema on, and clients of it, for
the scripts of this folder. It wants Linux, and `mariadbd`, `mariadb-install-db` and `mariadb` on the path, which
Debian's mariadb-server has. The path of the folder is short, as that of a socket has to be."""
import contextlib
import getpass
import pathlib
import shutil
import subprocess
import sys
import tempfile
import time

PROGRAMS = ("mariadbd", "mariadb-install-db", "mariadb")


def lacking():
    """Those of its programs that aren't there."""
    return [name for name in PROGRAMS if not shutil.which(name)]


class Server:
    """The server, with these words more."""

    def __init__(self, folder, *more):
        self.socket = str(folder / "socket")
        data = f"--datadir={folder / 'data'}"
        user = f"--user={getpass.getuser()}"
        made = ["mariadb-install-db", "--no-defaults", "--auth-root-authentication-method=normal", user, data]
        subprocess.run(made, stdout=subprocess.DEVNULL, stderr=subprocess.DEVNULL, check=True)
        words = ["mariadbd", "--no-defaults", user, data, f"--socket={self.socket}", "--skip-networking"]
        words += ["--performance-schema=ON", f"--pid-file={folder / 'pid'}", *more]
        self.log = open(folder / "log", "wb")
        self.process = subprocess.Popen(words, stdout=self.log, stderr=self.log)

    def words(self, user, *more):
        return ["mariadb", "--no-defaults", f"--socket={self.socket}", f"--user={user}", "--batch", *more]

    def wait(self):
        """Waits until it answers, a minute at most."""
        for _ in range(600):
            asked = subprocess.run(self.words("root", "-e", "SELECT 1"), capture_output=True)
            if asked.returncode == 0:
                return
            time.sleep(0.1)
        sys.exit("the server doesn't answer")

    def told(self, text):
        """What it answers root to this."""
        asked = subprocess.run(self.words("root"), input=text.encode(), stdout=subprocess.PIPE, check=True)
        return asked.stdout

    def connected(self, user, *more):
        """A client of this user that goes on after an error, as an application does."""
        words = self.words(user, "--force", "--unbuffered", "--skip-column-names", *more)
        return subprocess.Popen(words, stdin=subprocess.PIPE, stdout=subprocess.PIPE, stderr=subprocess.DEVNULL)

    def stop(self):
        self.process.terminate()
        self.process.wait()
        self.log.close()


@contextlib.contextmanager
def server(*more):
    """A server that answers, until the end of the block."""
    with tempfile.TemporaryDirectory(prefix="server-", dir="/tmp") as room:
        running = Server(pathlib.Path(room), *more)
        try:
            running.wait()
            yield running
        finally:
            running.stop()
