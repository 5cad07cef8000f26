"""Services that tools/jail/learning.py traces and jails: how each is prepared, used by its clients and stopped.

A function of a service takes a folder, writes there what the service needs, and returns its command, how it is run in front of which
other command, and what comes of that: what its clients get, and its exit status.
"""

import http.client
import os
import pathlib
import re
import shutil
import signal
import socket
import subprocess
import time

from commands import ENVIRONMENT, SECONDS, run

# Where programs and services are.
PATH = "/usr/sbin:/usr/bin:/sbin:/bin"

NGINX = """{user}daemon off;
pid nginx.pid;
error_log nginx.log;
events {{ worker_connections 16; }}
http {{
    access_log off;
    client_body_temp_path body; proxy_temp_path proxy; fastcgi_temp_path fastcgi; uwsgi_temp_path uwsgi; scgi_temp_path scgi;
    server {{ listen 127.0.0.1:{port}; root .; }}
}}
"""

SSHD = """Port {port}
ListenAddress 127.0.0.1
HostKey {folder}/host_key
PidFile {folder}/sshd.pid
AuthorizedKeysFile {folder}/login_key.pub
StrictModes no
UsePAM no
PermitRootLogin yes
Subsystem sftp internal-sftp
"""

MOSQUITTO = "listener {port} 127.0.0.1\nallow_anonymous true\npid_file {folder}/mosquitto.pid\nuser root\n"

# An application of Flask, which keeps what it is given in a database of SQLite.
APPLICATION = """import sqlite3
from flask import Flask, request
app = Flask(__name__)

def database():
    base = sqlite3.connect("notes.db")
    base.execute("create table if not exists notes (text text)")
    return base

@app.post("/notes")
def add():
    with database() as base:
        base.execute("insert into notes values (?)", (request.get_data(as_text=True),))
    return "added"

@app.get("/notes")
def notes():
    return ",".join(row[0] for row in database().execute("select text from notes order by rowid"))
"""

# What PostgreSQL is asked: it writes, sorts, plans with threads of its own, cleans up, and rejects.
STATEMENTS = [
    "create table t (a int primary key, b text)",
    "insert into t select k, repeat('x', k % 100) from generate_series(1, 20000) k",
    "create index on t (b)", "analyze t", "select count(*), sum(length(b)) from t",
    "select a from t order by b desc, a limit 1", "update t set b = b || 'y' where a % 7 = 0", "vacuum t", "checkpoint",
    "select count(*) from t where b like '%y'", "drop table t",
]
ANSWERS = "20000|990000\n99\n2857\n"

# What is asked for last of a saving, and what redis-server answers to it, and to its end.
THE_END, SAVED = "the end of it", ["+Background saving started", "ok"]


def free_port():
    """Returns the number of a port that is free."""
    with socket.socket() as one:
        one.bind(("127.0.0.1", 0))
        return one.getsockname()[1]


def used_by(port, use, stop):
    """Returns what starts a service, uses it once its port answers, stops it, and returns what came of it and the exit status."""
    def by_service(words, front, folder):
        service = subprocess.Popen([*front, *words], cwd=folder, env={**ENVIRONMENT, "PATH": PATH}, stdin=subprocess.DEVNULL,
                                   stdout=subprocess.DEVNULL, stderr=subprocess.DEVNULL)
        try:
            came = use() if is_up(service, port) else "it doesn't answer"
            if service.poll() is None:
                stop()
            return came, service.wait(20)
        except (OSError, ValueError, http.client.HTTPException, subprocess.TimeoutExpired) as error:
            return str(error), service.poll()
        finally:
            service.kill()
            service.wait()
    return by_service


def is_up(service, port):
    """Waits until a service's port answers; returns whether it does."""
    end = time.monotonic() + 30
    while time.monotonic() < end and service.poll() is None:
        try:
            socket.create_connection(("127.0.0.1", port), 1).close()
            return True
        except OSError:
            time.sleep(0.05)
    return False


def stopped_by(number, file):
    """Returns what sends a signal to the process whose number is the first line of a file."""
    return lambda: os.kill(int(file.read_text().split()[0]), number)


def taken(port, path, body=None):
    """Returns the body of a page."""
    other = http.client.HTTPConnection("127.0.0.1", port, timeout=SECONDS)
    other.request("GET" if body is None else "POST", path, body)
    return other.getresponse().read().decode()


def answered(port, asked):
    """Asks redis-server something; returns the first line of its answer, or how its last saving ended once it has."""
    end, question = time.monotonic() + 10, "INFO persistence" if asked == THE_END else asked
    while True:
        with socket.create_connection(("127.0.0.1", port), SECONDS) as other:
            other.sendall(f"{question}\r\n".encode())
            answer = other.recv(65536).decode()
        if question == asked:
            return answer.partition("\r\n")[0]
        if "rdb_bgsave_in_progress:0" in answer or time.monotonic() > end:
            return re.search(r"rdb_last_bgsave_status:(\w+)", answer)[1]
        time.sleep(0.1)


def nginx(folder):
    """A page of nginx."""
    port = free_port()
    (folder / "nginx.conf").write_text(NGINX.format(user="user root;\n" if os.geteuid() == 0 else "", port=port))
    used = used_by(port, lambda: taken(port, "/numbers"), stopped_by(signal.SIGQUIT, folder / "nginx.pid"))
    return ["nginx", "-p", f"{folder}/", "-c", "nginx.conf"], used, ((folder / "numbers").read_text(), 0)


def redis(folder, *asked):
    """A value that redis-server is given, and more that it is asked."""
    port = free_port()
    (folder / "dump.rdb").unlink(missing_ok=True)

    def answers():
        return [answered(port, it) for it in ("SET a 1", "GET a", *asked)]

    words = ["redis-server", "--port", str(port), "--save", "", "--daemonize", "no", "--dir", str(folder)]
    return words, used_by(port, answers, lambda: answered(port, "SHUTDOWN NOSAVE")), (["+OK", "$1", *SAVED[:len(asked)]], 0)


def redis_that_saves(folder):
    """The same, with a saving to a file, for which redis-server starts a process."""
    return redis(folder, "BGSAVE", THE_END)


def memcached(folder):
    """A value that memcached is given, and its numbers."""
    port = free_port()

    def use():
        with socket.create_connection(("127.0.0.1", port), SECONDS) as other:
            other.sendall(b"set a 0 0 5\r\nhello\r\nget a\r\nincr b 1\r\ndelete a\r\nverbosity 0\r\nversion\r\n")
            came = b""
            while b"VERSION" not in came:
                came += other.recv(65536)
        return came.decode().partition("VERSION")[0]

    file = folder / "memcached.pid"
    file.unlink(missing_ok=True)
    words = ["memcached", "-l", "127.0.0.1", "-p", str(port), "-P", str(file)]
    words += ["-u", "root"] if os.geteuid() == 0 else []
    wanted = "STORED\r\nVALUE a 0 5\r\nhello\r\nEND\r\nNOT_FOUND\r\nDELETED\r\nOK\r\n"
    return words, used_by(port, use, stopped_by(signal.SIGTERM, file)), (wanted, 0)


def mosquitto(folder):
    """A message that mosquitto retains and passes on."""
    port = free_port()
    (folder / "mosquitto.conf").write_text(MOSQUITTO.format(port=port, folder=folder))

    def use():
        place = ["-h", "127.0.0.1", "-p", str(port), "-t", "a/b"]
        sent = run(["mosquitto_pub", *place, "-r", "-q", "1", "-m", "hello"], folder)
        return sent, run(["mosquitto_sub", *place, "-C", "1", "-W", "10"], folder)

    used = used_by(port, use, stopped_by(signal.SIGTERM, folder / "mosquitto.pid"))
    return ["mosquitto", "-c", "mosquitto.conf"], used, ((("", "", 0), ("hello\n", "", 0)), 0)


def gunicorn(folder):
    """Notes that an application of Flask keeps in a database of SQLite, under gunicorn."""
    port = free_port()
    (folder / "application.py").write_text(APPLICATION)

    def use():
        (folder / "notes.db").unlink(missing_ok=True)
        return [taken(port, "/notes", "one"), taken(port, "/notes", "two"), taken(port, "/notes")]

    words = ["gunicorn", "-b", f"127.0.0.1:{port}", "-w", "2", "-p", "gunicorn.pid", "--log-level", "critical", "application:app"]
    used = used_by(port, use, stopped_by(signal.SIGTERM, folder / "gunicorn.pid"))
    return words, used, (["added", "added", "one,two"], 0)


def sshd(folder):
    """A login by sshd, a file that it sends, and one that sftp puts."""
    port = free_port()
    pathlib.Path("/run/sshd").mkdir(exist_ok=True)
    for key in ("host_key", "login_key"):
        if not (folder / key).exists():
            run(["ssh-keygen", "-q", "-t", "ed25519", "-N", "", "-f", folder / key], folder)
    (folder / "sshd.conf").write_text(SSHD.format(port=port, folder=folder))
    (folder / "batch").write_text(f"put numbers {folder}/put\n")
    options = ["-F", "none", "-i", folder / "login_key", "-o", "StrictHostKeyChecking=no", "-o", "UserKnownHostsFile=/dev/null",
               "-o", "LogLevel=ERROR", "-o", "BatchMode=yes"]

    def use():
        shown = run(["ssh", *options, "-p", str(port), "root@127.0.0.1", f"cat {folder}/numbers; exit 7"], folder)
        put = run(["sftp", *options, "-q", "-b", "batch", "-P", str(port), "root@127.0.0.1"], folder)
        return shown, put[2], (folder / "put").read_text()

    (folder / "put").unlink(missing_ok=True)
    numbers = (folder / "numbers").read_text()
    used = used_by(port, use, stopped_by(signal.SIGTERM, folder / "sshd.pid"))
    return [shutil.which("sshd", path=PATH), "-D", "-f", f"{folder}/sshd.conf"], used, (((numbers, "", 7), 0, numbers), 0)


def postgres(folder):
    """Tables of PostgreSQL, in a cluster that is made before."""
    port, place, programs = free_port(), folder / "cluster", postgres_programs()
    front = []
    if os.geteuid() == 0:
        front = ["setpriv", "--reuid=postgres", "--regid=postgres", "--clear-groups", "--"]
        folder.chmod(0o711)
    if not place.exists():
        place.mkdir()
        if front:
            shutil.chown(place, "postgres", "postgres")
        run([*front, programs / "initdb", "-A", "trust", "-U", "postgres", "-D", place], place)

    client = [programs / "psql", "-qtA", "-h", "127.0.0.1", "-p", str(port), "-U", "postgres"]

    def use():
        # It answers before it is ready.
        end = time.monotonic() + 30
        while time.monotonic() < end and run([*client, "-c", "select 1"], folder)[2] != 0:
            time.sleep(0.2)
        return run([*client, *[part for it in STATEMENTS for part in ("-c", it)]], folder)

    words = [*front, programs / "postgres", "-D", place, "-p", str(port), "-h", "127.0.0.1", "-k", ""]
    return words, used_by(port, use, stopped_by(signal.SIGINT, place / "postmaster.pid")), ((ANSWERS, "", 0), 0)


def postgres_programs():
    """Returns the folder of PostgreSQL's programs; none if it isn't installed."""
    folders = sorted(pathlib.Path("/usr/lib/postgresql").glob("*/bin"))
    return folders[-1] if folders else None
