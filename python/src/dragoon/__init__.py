"""dragoon: a client of the store, one reader of its formats, and tools over both. `dragoon.database` is the page to read first."""
from .client import connect, make
from .errors import *  # noqa: F401,F403  (a class for each refusal)
from .errors import Error, Fault, InvalidStatement, Locked, Refused
from .database import Database, Era, Loaded, Rows, Session
from .kinds import Kind, Scale
from .language import Report, Span, Verdict, Version

__version__ = "1.0"
