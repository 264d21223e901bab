"""The meaning of a printed line, and the files that it may be about."""

from typing import NamedTuple, Optional, Sequence

from pipe_source import Source, Text


class Meaning(NamedTuple):
    """A sentence, and offsets in a text that it is about."""

    sentence: str
    text: Optional[Text] = None
    offsets: Sequence[int] = ()


class Files(NamedTuple):
    """The source, and the input and the record if their names were given."""

    source: Source
    input: Optional[Text] = None
    record: Optional[Text] = None
