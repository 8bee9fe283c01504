"""A page, metrics and an interface over HTTP to look at nodes: docs/LOOKING.md. It only reads."""
from .server import Server
from .state import State
from .watch import Away, Watched

__all__ = ["Away", "Server", "State", "Watched"]
