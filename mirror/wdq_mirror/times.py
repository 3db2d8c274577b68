"""Times of event lines, as texts in UTC and as microseconds since 1970."""

import datetime

EPOCH = datetime.datetime(1970, 1, 1)


def micros(text: str) -> int:
    """The microseconds of a time."""
    return (datetime.datetime.fromisoformat(text.removesuffix("Z")) - EPOCH) // datetime.timedelta(microseconds=1)


def text_of(time: int) -> str:
    """The text of a time in microseconds."""
    return (EPOCH + datetime.timedelta(microseconds=time)).isoformat() + "Z"


def now() -> int:
    """The clock of this machine, in microseconds."""
    return (datetime.datetime.now(datetime.timezone.utc).replace(tzinfo=None) - EPOCH) // datetime.timedelta(microseconds=1)
