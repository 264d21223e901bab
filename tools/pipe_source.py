"""Texts with their lines, and the symbols of a pipeline's source, by docs/LANGUAGE.md. A source need not be accepted."""

import bisect
import re
from typing import Callable, Iterator, List, NamedTuple, Optional, Sequence, Tuple

RESERVED_WORDS = frozenset(
    "version limits iterations stages steps emits cell init pipe_while pipe_wait pipe_continue final let if else while emit"
    " more take iter input output".split()
)
STAGE_WORDS = ("pipe_wait", "pipe_continue")
LIMIT_WORDS = ("iterations", "stages", "steps", "emits")
BLANKS = b" \t\r\n"
LONGEST_SHOWN_LINE = 100

SYMBOL = re.compile(
    r"(?P<comment>//[^\n]*)|(?P<name>[A-Za-z_][A-Za-z_0-9]*)|(?P<number>[0-9]+)|(?P<sign>\|\||&&|[=!<>]=|[-+*/%<>!=()\[\]{},;])"
)


class Place(NamedTuple):
    """A line and a column, both from 1. A column is a character."""

    line: int
    column: int


class Text:
    """A file's bytes. Offsets are bytes from 0."""

    def __init__(self, name: str, data: bytes):
        self.name = name
        self.data = data
        self._line_starts = [0] + [match.end() for match in re.finditer(b"\n", data)]

    def place(self, offset: int) -> Place:
        """Returns the place of an offset. An offset in the blanks at the end is moved to the end of the last symbol."""
        offset = min(offset, len(self.data.rstrip(BLANKS))) if offset >= len(self.data) else offset
        line = bisect.bisect_right(self._line_starts, offset)
        return Place(line, len(shown(self.data[self._line_starts[line - 1] : offset])) + 1)

    def line(self, number: int) -> str:
        """Returns a line, by its number from 1, without its end."""
        end = self._line_starts[number] if number < len(self._line_starts) else len(self.data)
        return shown(self.data[self._line_starts[number - 1] : end].rstrip(b"\r\n"))

    def lines(self) -> List[bytes]:
        """Returns all lines without their line feeds. The last one may lack its line feed."""
        return self.data.removesuffix(b"\n").split(b"\n") if self.data else []

    def line_offset(self, number: int) -> int:
        """Returns the offset at which a line begins, by its number from 0; one past the end if there is no such line."""
        begins = number < len(self._line_starts) and self._line_starts[number] < len(self.data)
        return self._line_starts[number] if begins else len(self.data) + 1

    def marked(self, line: int, columns: Sequence[int]) -> Tuple[str, str]:
        """Returns a line and a second one with a caret under each column, both cut to a width that a terminal has."""
        text = self.line(line)
        first = max(0, columns[0] - 1 - LONGEST_SHOWN_LINE // 2) if len(text) > LONGEST_SHOWN_LINE else 0
        last = first + LONGEST_SHOWN_LINE
        carets = ["\t" if sign == "\t" else " " for sign in text[first:last]] + [" "]
        for column in columns:
            if column - 1 - first < len(carets):
                carets[column - 1 - first] = "^"
        return text[first:last], "".join(carets).rstrip()


def shown(data: bytes) -> str:
    """Returns bytes as text, each character that cannot be seen as a dot."""
    text = data.decode("utf-8", errors="replace")
    return "".join(sign if sign == "\t" or sign.isprintable() else "·" for sign in text)


class Symbol(NamedTuple):
    """A symbol, where it begins, the part that it is in, and its stage, where the text alone shows it."""

    text: str
    offset: int
    is_name: bool = False
    part: str = ""
    stage: Optional[int] = None


class Source(Text):
    """The source of a pipeline with its symbols."""

    def __init__(self, name: str, data: bytes):
        super().__init__(name, data)
        self.symbols = with_parts_and_stages(list(read_symbols(data)))

    def index_at(self, offset: int) -> Optional[int]:
        """Returns the index of the symbol that begins at an offset."""
        index = bisect.bisect_left([symbol.offset for symbol in self.symbols], offset)
        found = index < len(self.symbols) and self.symbols[index].offset == offset
        return index if found else None

    def text_at(self, offset: int) -> str:
        """Returns the symbol that begins at an offset, or the byte there."""
        index = self.index_at(offset)
        return shown(self.data[offset : offset + 1]) if index is None else self.symbols[index].text

    def text_before(self, index: int, distance: int = 1) -> str:
        """Returns a symbol before the one with this index, or an empty text."""
        return self.symbols[index - distance].text if index >= distance else ""

    def text_after(self, index: int, distance: int = 1) -> str:
        """Returns a symbol after the one with this index, or an empty text."""
        return self.symbols[index + distance].text if index + distance < len(self.symbols) else ""

    def limit(self, word: str) -> Tuple[Optional[int], Optional[int]]:
        """Returns the value and the offset of a limit, if the source has it."""
        for symbol, following in zip(self.symbols, self.symbols[1:]):
            if symbol.text == word and following.text.isdigit():
                return int(following.text), following.offset
        return None, None

    def declarations(self, word: str, name: str) -> List[int]:
        """Returns the indices of the names that are declared by `cell` or by `let` and have this name."""
        indices = range(1, len(self.symbols))
        return [index for index in indices if self.symbols[index].text == name and self.text_before(index) == word]

    def offsets(self, part: str, stage: Optional[int], test: Callable[[int], bool]) -> List[int]:
        """Returns the offsets of the symbols in a part that meet a test and may be in a stage. `None` is any stage."""
        found = []
        for index, symbol in enumerate(self.symbols):
            may_be_there = stage is None or symbol.stage in (stage, None)
            if symbol.part == part and may_be_there and test(index):
                found.append(symbol.offset)
        return found

    def accesses(self, cell: str, kind: str, stage: Optional[int]) -> List[int]:
        """Returns the offsets of what may access a cell in a stage of the loop. The kind is `read` or `write`."""
        makers = {"output": ("emit",), "input": ("take",) if kind == "write" else ("more", "take")}
        if cell in makers:
            return self.offsets("pipe_while", stage, lambda index: self.symbols[index].text in makers[cell])
        name = cell.partition("[")[0]

        def accesses_name(index: int) -> bool:
            is_written = self.text_before(index) in (";", "{", "}")
            return self.symbols[index].text == name and is_written == (kind == "write")

        return self.offsets("pipe_while", stage, accesses_name)

    def stage_begins(self, stage: int) -> List[int]:
        """Returns the offsets of what may begin a stage of the loop: its head, or the stage statements that may name the stage."""

        def may_begin(index: int) -> bool:
            symbol, number = self.symbols[index], self.text_after(index, 2)
            if stage == 0 or symbol.text not in STAGE_WORDS:
                return stage == 0 and symbol.text == "pipe_while"
            if number == ")":
                return symbol.stage in (stage - 1, None)
            is_computed = not number.isdigit() or self.text_after(index, 3) != ")"
            return is_computed or int(number) == stage

        return self.offsets("pipe_while", None, may_begin)

    def block_has_ended(self, earlier: int, later: int) -> bool:
        """Returns whether the innermost block around one symbol ends before another."""
        depth = 0
        for symbol in self.symbols[earlier:later]:
            depth += (symbol.text == "{") - (symbol.text == "}")
            if depth < 0:
                return True
        return False


def read_symbols(data: bytes) -> Iterator[Symbol]:
    """Yields the symbols of a source. Comments are left out, and bytes that begin no symbol are skipped."""
    for match in SYMBOL.finditer(data.decode("latin-1")):
        if match.lastgroup != "comment":
            is_name = match.lastgroup == "name" and match.group() not in RESERVED_WORDS
            yield Symbol(match.group(), match.start(), is_name)


def with_parts_and_stages(symbols: List[Symbol]) -> List[Symbol]:
    """Returns the symbols with their parts and stages."""
    placed: List[Symbol] = []
    for part, statement in statements(symbols):
        stage = stage_after(placed, part)
        if part == "pipe_while" and not is_stage_statement(statement):
            stage = None if any(symbol.text in STAGE_WORDS for symbol in statement) else stage
        placed += [symbol._replace(part=part, stage=stage) for symbol in statement]
    return placed


def statements(symbols: List[Symbol]) -> Iterator[Tuple[str, List[Symbol]]]:
    """Yields the parts' heads and their outermost statements, each with the name of its part. Declarations have the part ``."""
    part, statement, depth = "", [], 0
    for symbol, following in zip(symbols, symbols[1:] + [Symbol("", 0)]):
        if depth == 0 and symbol.text in ("init", "pipe_while", "final"):
            part = symbol.text
        statement.append(symbol)
        depth += (symbol.text == "{") - (symbol.text == "}")
        opens_part = symbol.text == "{" and depth == 1
        ends_block = symbol.text == "}" and depth <= 1 and following.text != "else"
        if opens_part or ends_block or (symbol.text == ";" and depth <= 1):
            yield part, statement
            statement = []
    if statement:
        yield part, statement


def is_stage_statement(statement: Sequence[Symbol]) -> bool:
    """Returns whether a statement is a `pipe_wait` or a `pipe_continue`."""
    return bool(statement) and statement[0].text in STAGE_WORDS


def stage_after(placed: Sequence[Symbol], part: str) -> Optional[int]:
    """Returns the stage of the statement after these symbols, or `None` if the text alone does not show it."""
    if part != "pipe_while":
        return None
    if not placed or placed[-1].part != part:
        return 0
    texts = [symbol.text for symbol in placed[-5:]]
    if texts[-4:-3] and texts[-4] in STAGE_WORDS and texts[-3:] == ["(", ")", ";"]:
        return None if placed[-1].stage is None else placed[-1].stage + 1
    if len(texts) == 5 and texts[0] in STAGE_WORDS and texts[2].isdigit() and texts[3:] == [")", ";"]:
        return int(texts[2])
    return None if ends_stage(placed) else placed[-1].stage


def ends_stage(placed: Sequence[Symbol]) -> bool:
    """Returns whether the last statement is a `pipe_wait` or `pipe_continue` with a computed number."""
    for symbol in reversed(placed[:-1]):
        if symbol.text in (";", "{", "}"):
            return False
        if symbol.text in STAGE_WORDS:
            return True
    return False
