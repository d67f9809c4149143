"""A PostgreSQL server of one's own, which listens on a socket in its folder alone, without fsync."""
from __future__ import annotations

import contextlib
import glob
import os
import queue
import shutil
import threading
import typing
from collections.abc import Mapping, Sequence

from .programs import printed
from .texts import Path, temporary_folder

if typing.TYPE_CHECKING:
    from psycopg2.extensions import connection

SETTINGS = {"fsync": "off", "synchronous_commit": "off", "full_page_writes": "off", "listen_addresses": "",
            "default_transaction_isolation": "serializable", "max_pred_locks_per_transaction": "1024"}
SETTINGS_OF_CASES = {"max_pred_locks_per_transaction": "256", "deadlock_timeout": "50ms", "autovacuum": "on",
                     "client_min_messages": "error"}


def server_programs() -> str | None:
    """The folder that has initdb and what belongs to it, on the path or where Debian puts it; None without one."""
    found = [shutil.which("initdb"), *sorted(glob.glob("/usr/lib/postgresql/*/bin/initdb"), reverse=True)]
    return next((os.path.dirname(os.path.realpath(each)) for each in found if each), None)


class Server:
    """Started in an empty folder. As PostgreSQL does not run as root, root starts it as the user `postgres`.

    Settings more go over those above, and words more to initdb.
    """

    def __init__(self, folder: Path, settings: Mapping[str, str] | None = None, words: Sequence[str] = ()) -> None:
        self.folder = str(folder)
        self.programs = server_programs()
        if os.getuid() == 0:
            shutil.chown(folder, "postgres")
        self.run("initdb", "-D", f"{folder}/data", "-A", "trust", "-U", "postgres", "--no-sync", *words)
        options = " ".join(f"-c {name}={value}" for name, value in {**SETTINGS, **(settings or {})}.items())
        self.run("pg_ctl", "-D", f"{folder}/data", "-w", "-o", f"{options} -k {folder}", "-l", f"{folder}/log", "start")

    def run(self, name: str, *words: str) -> str:
        """What a program of PostgreSQL prints on both streams; it has to end well."""
        command = [f"{self.programs}/{name}", *words]
        if os.getuid() == 0:
            command = ["runuser", "-u", "postgres", "--", *command]
        return printed(command, cwd="/")

    def stop(self) -> None:
        """Ends the server; its folder stays."""
        self.run("pg_ctl", "-D", f"{self.folder}/data", "-m", "immediate", "stop")


class ServerOfCases(Server):
    """One for cases from Python, by psycopg2. Its folder goes with it."""

    def __init__(self) -> None:
        self.held = contextlib.ExitStack()
        folder = self.held.enter_context(temporary_folder())
        super().__init__(folder, SETTINGS_OF_CASES, ("--locale=C", "-E", "UTF8"))

    def connect(self, options: str = "") -> connection:
        """A connection that begins no transaction by itself."""
        import psycopg2

        made = psycopg2.connect(host=self.folder, user="postgres", dbname="postgres", options=options)
        made.autocommit = True
        return made

    def stop(self) -> None:
        super().stop()
        self.held.close()


class Player(threading.Thread):
    """A session, which plays the events that it is given, one after the other, on a connection of its own."""

    def __init__(self, server: ServerOfCases, schema: str) -> None:
        super().__init__(daemon=True)
        self.connection = server.connect(f"-c search_path={schema} -c enable_seqscan=off -c jit=off")
        self.cursor, self.idle = self.connection.cursor(), True
        self.work: queue.Queue[str | None] = queue.Queue()

    def give(self, event: str | None) -> None:
        """An event, to be played behind those before it; None is the end."""
        self.idle = False
        self.work.put(event)

    def run(self) -> None:
        while (event := self.work.get()) is not None:
            self.play(event)
            self.idle = self.work.empty()

    def play(self, event: str) -> None:
        """Plays one event."""
        raise NotImplementedError
