"""Why a command ends, each with its exit status. A message says what is wrong, and what to do."""

STATUSES = {
    0: "all is done",
    1: "verify found differences, or explain found lines that wdq refuses",
    2: "an argument or a setting is wrong, or a package or program is missing",
    3: "the store, the wiki or a disk failed: run the command again",
    4: "the store or the home isn't as the mirror left it: do what the message says",
    5: "the stream has a gap: run wdq-mirror heal",
    6: "wdq refused to go on: do what the message says",
    7: "a dump or an event file has bad lines",
    130: "interrupted",
}


class MirrorError(Exception):
    """Any reason to end a command."""

    status = 3


class Usage(MirrorError):
    """An argument or a setting is wrong, or something that the command needs isn't installed."""

    status = 2


class Unreachable(MirrorError):
    """The store, the wiki or a disk failed. It may pass, so the command can be run again."""

    status = 3


class Mismatch(MirrorError):
    """The store or the home differs from what the home has made."""

    status = 4


class Gap(MirrorError):
    """The stream has lost changes."""

    status = 5


class ProgramFailed(MirrorError):
    """wdq ended with a status that a second run wouldn't change."""

    status = 6


class BadInput(MirrorError):
    """A dump or an event file has bad lines."""

    status = 7
