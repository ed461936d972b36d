"""The errors that this module raises."""

from .replies import Reply


class MishantralError(Exception):
    """The base of all errors of this module."""


class LibraryNotFound(MishantralError):
    """The shared library was not found in any of the searched places."""


class LoadRefused(MishantralError):
    """A policy was refused; the engine is now empty."""

    def __init__(self, reply: Reply, place: int) -> None:
        super().__init__(f"{reply} at record {place}")
        self.reply = reply
        #: The refused record's place in the policy, counted from 1.
        self.place = place


class TextRefused(MishantralError):
    """OPL/XML or its task lines were refused; no record was made."""

    def __init__(self, reply: Reply, text: int, place: int) -> None:
        where = {1: f" of the policy text at byte {place}", 2: f" of the task lines at byte {place}"}.get(text, "")
        super().__init__(f"{reply}{where}")
        self.reply = reply
        #: 1 for the policy text, 2 for the task lines, 0 for neither.
        self.text = text
        #: The byte, counted from 1; 0 if the reply has no place.
        self.place = place
