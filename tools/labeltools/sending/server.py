"""The journal of several computers: a database of PostgreSQL, which does the same steps as a file.

A run holds an advisory lock of its number, which the server ends with the connection of the run. A
connection that breaks is made again, and the step is done again: each one may be done twice, since
its second time finds what the first has left. A label that was claimed then is in doubt at worst.
"""

import re
import time
from collections.abc import Iterator, Sequence
from contextlib import contextmanager
from typing import Any

from labeltools.common.messages import ToolError
from labeltools.common.text import Text

SERVER = "postgresql://"  # begins the name of such a journal
PASSWORD = re.compile(r"^[a-z]+://[^/@]*:[^/@]*@|[?&]password=")
SCHEMA = """
BEGIN;
SELECT pg_advisory_xact_lock(hashtext('labels'));
CREATE TABLE IF NOT EXISTS runs (number BIGSERIAL PRIMARY KEY, printer TEXT NOT NULL);
CREATE TABLE IF NOT EXISTS labels (
    code TEXT PRIMARY KEY,
    state TEXT NOT NULL DEFAULT 'sent',
    run BIGINT NOT NULL REFERENCES runs,
    turn INTEGER NOT NULL,
    place TEXT NOT NULL,
    time TEXT NOT NULL DEFAULT CURRENT_TIMESTAMP
);
COMMIT;
SET lock_timeout = '60s';
"""
KEYS = "'runs'::regclass::oid::integer, ?"
HOLD = f"SELECT pg_advisory_lock({KEYS})"
RELEASE = f"SELECT pg_advisory_unlock({KEYS})"
HELD = """
SELECT 1 FROM pg_locks WHERE locktype = 'advisory' AND classid = 'runs'::regclass AND objid = ?
"""
CONNECT = 10  # seconds that a server may take to answer
AWAY = 60.0  # seconds in which a connection that broke is made again
PAUSE = 0.5  # seconds between two trials


class Server:
    """A connection to a database."""

    has_others = False  # the server knows who may read it

    def __init__(self, address: str) -> None:
        """Connects to it, and makes its tables if there are none; raises `ToolError`."""
        if PASSWORD.search(address):
            what = Text("the address of the journal has a password, which other users can see")
            raise ToolError(what, Text("leave it out, and write it into the file ~/.pgpass"))
        try:
            import psycopg2
        except ImportError as error:
            hint = Text("install python3-psycopg2")
            raise ToolError(Text("{} is not there", error.name), hint) from error
        self.connect = psycopg2.connect
        self.address = address
        self.error = psycopg2.Error
        self.run = 0  # that this one holds
        with self.errors():
            self.base = self.connected()

    def connected(self) -> Any:
        """Returns a new connection; raises what psycopg2 does."""
        base = self.connect(self.address, connect_timeout=CONNECT)
        base.autocommit = True
        with base.cursor() as cursor:
            cursor.execute(SCHEMA)
        return base

    def require_place(self) -> None:
        """Does nothing: no program can replace what the server has."""

    def do(self, statement: str, *values: str | int, is_synced: bool = True) -> list[Any]:
        """Does a step, which the server syncs in any case, and returns its rows; raises
        `ToolError`.
        """
        with self.errors():
            try:
                return self.rows(statement, values)
            except self.error:
                if not self.base.closed:
                    raise
            self.connect_again()
            return self.rows(statement, values)

    def rows(self, statement: str, values: Sequence[str | int]) -> list[Any]:
        """Does a step, and returns its rows; raises what psycopg2 does."""
        with self.base.cursor() as cursor:
            cursor.execute(statement.replace("?", "%s"), values)
            return list(cursor.fetchall())

    def connect_again(self) -> None:
        """Makes a connection again that broke, with the lock of the run, if the server is there
        within a minute; raises what psycopg2 does.
        """
        end = time.monotonic() + AWAY
        while True:
            try:
                self.base = self.connected()
                break
            except self.error:
                if time.monotonic() > end:
                    raise
            time.sleep(PAUSE)
        if self.run:
            self.rows(HOLD, [self.run])

    def hold(self, run: int) -> None:
        """Shows others that a run goes on, until it is released or the connection ends."""
        self.do(HOLD, run)
        self.run = run

    def release(self, run: int) -> None:
        """Shows others that a run has ended."""
        self.run = 0
        self.do(RELEASE, run)

    def is_held(self, run: int) -> bool:
        """Returns whether a connection shows that a run goes on."""
        return bool(self.do(HELD, run))

    def close(self) -> None:
        """Ends the connection."""
        self.base.close()

    @contextmanager
    def errors(self) -> Iterator[None]:
        """Raises `ToolError` in place of an error of the server."""
        try:
            yield
        except self.error as error:
            first = (str(error).splitlines() or ["no connection"])[0]
            raise ToolError(Text("{}", first)) from error
