"""Mishantral from Python: a policy engine in which every answer is proved.

    from mishantral import Engine, Record, Reply

    engine = Engine()
    engine.load([Record.user(300), Record.role(0), Record.user_has_role(300, 0)])
    answer = engine.request(Record.create_subject(5, 300, roles={0}))
    if not answer:
        print(answer)

The module calls the shared library (tools/archive shared) through ctypes; there is no build step. Refusals are values:
an Answer is true exactly when the request was granted. Only a refused load raises, because nothing sensible can follow.
Desk asks a served desk by HTTP instead (docs/HTTP.md); it needs no library.
"""

from .desk import Desk, DeskAnswer, DeskError
from .engine import Answer, Dropped, Engine, Figures, Mended, Rule, StuckTasks
from .errors import LibraryNotFound, LoadRefused, MishantralError, TextRefused
from .opl import records_from_opl
from .records import Kind, Record
from .replies import Reply

__all__ = [
    "Answer",
    "Desk",
    "DeskAnswer",
    "DeskError",
    "Dropped",
    "Engine",
    "Figures",
    "Kind",
    "LibraryNotFound",
    "LoadRefused",
    "Mended",
    "MishantralError",
    "Record",
    "Reply",
    "Rule",
    "StuckTasks",
    "TextRefused",
    "records_from_opl",
]

__version__ = "0.2.0"
