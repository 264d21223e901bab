"""What the refusals and read faults of `cilkp` mean."""

import re
from typing import Optional, Sequence

from meaning import Files, Meaning
from pipe_source import LIMIT_WORDS, RESERVED_WORDS, Source, Text

REFUSED = re.compile(r"refused (source|check|wave|input) ([A-Za-z]+) at ([0-9]+)")
REFUSED_RECORD = re.compile(r"refused record (BadLine|NotAllowed) at ([0-9]+)")
LIMIT_OUT = re.compile(r"refused check LimitOut ([1-5])")
MISSING = re.compile(r"refused missing (.*)")
FAULT = re.compile(r"fault read (.*)")
OUTCOME_LINE = re.compile(rb"-?[0-9]+|race .*|trap [A-Z].*")
COMMENT_WITH_RETURN = re.compile(rb"//[^\n]*\r[^\n]")

BYTE_ORDER_MARK = b"\xef\xbb\xbf"
WIDE_BYTE_ORDER_MARKS = (b"\xff\xfe", b"\xfe\xff")
MARK_SENTENCE = "The file begins with a byte order mark, which is refused as a bad byte: save it as plain text without one."
RETURN_SENTENCE = "A carriage return alone is a blank, which ends no comment: save the file with line feeds (`Unix` line ends)."

WHOLE = {
    "refused usage": "The words are no command: `./cilkp` without words prints the commands; their numbers have ranges.",
    "refused source SourceTooLong": "The source has more than 1,048,576 bytes, with its comments: shorten it, and give data as the input.",
    "refused input TooLong": "The input has more than 16,777,216 bytes: cut it into several files, and run the program on each.",
    "refused record TooLong": "The record has more than 67,108,864 bytes: save that of a shorter run.",
    "refused wave BadTest": "This is no wave loop: its test has to be the number 1, as in `pipe_while (1)`. The limit `iterations` says how many columns there"
    " are.",
    "refused wave NoRow": "This is no wave loop: the first statement in its body has to be `let row = 0;`, which makes `row` the number of the row.",
    "stop": "The run was stopped: memory ran out.",
}
LIMIT_RANGES = {
    1: "`iterations` has to be from 1 to 65,536.",
    2: "`stages` has to be from 1 to 4,096.",
    3: "`iterations` times `stages` has to be at most 262,144: lower the one of which you need less.",
    4: "`steps` has to be from 1 to 1,000,000: cut a long stage into several.",
    5: "`emits` has to be at most 1,048,576.",
}
SIMPLE = {
    "source TooWide": "The number is above 9223372036854775807, the greatest that fits into 64 bits: write a smaller one.",
    "source NameTooLong": "The name has more than 64 bytes: choose a shorter one.",
    "source TooDeep": "With this bracket more than 64 are open: nest less, or keep a part of the expression in a `let`.",
    "source TooLong": "This is symbol 257 of one expression, which has at most 256: keep a part of it in a `let`.",
    "check PipeOutside": "`{}` is allowed only in the loop: stage statements in its body, and `iter()` in its test and body.",
    "check TooManyCells": "With `{}` there are more than 65,536 cells, where each element of an array counts: declare smaller arrays.",
    "check TooManyLocals": "`{}` is the 65th `let` of its part, which may have 64: assign to an earlier local again.",
    "check NotAnArray": "`{}` has an index and is no array: leave out the index, or declare it as one by `cell {}[10] = 0;`.",
    "check NeedsIndex": "`{}` is an array, so it needs an index here, as in `{}[0]`.",
    "check ZeroSize": "The array `{}` has size 0: the least size is 1.",
    "wave HasStage": "A wave loop has no `{}`: it goes from row to row by itself, and a point comes after those above it and to the left.",
    "wave RowSet": "A wave loop sets `{}` only by its first statement, `let row = 0;`: take another name here.",
    "input TooMany": "Here number 1,048,577 of the input begins, and 1,048,576 are the most: cut it into several files.",
    "input TooWide": "The number does not fit into 64 bits (from -9223372036854775808 to 9223372036854775807).",
}


RECORD_SENTENCES = {
    "BadLine": "Line {} of the record (from 0) has none of the forms of its lines",
    "NotAllowed": "The events before event {} (from 0) are a run of the program on this input, and this one cannot follow them",
}
# What an event needs to be allowed, by the first word of its line.
EVENT_NEEDS = {
    "begin": "an iteration begins once stage 0 of the previous one has ended, in the order of their numbers, unless the loop is closed, and while fewer than the"
    " limit (`--throttle`, 1,024 by default) are alive",
    "read": "the iteration has to come to this read now, and the value has to be that of the cell",
    "write": "the iteration has to come to this write now, with this value",
    "wait": "the iteration has to come to a `pipe_wait` of this stage now",
    "continue": "the iteration has to come to a `pipe_continue` of this stage now",
    "enter": "the iteration has to have named a stage, and after `wait` the previous iteration has to have passed that stage",
    "end": "the iteration has to be at the end of the body",
    "closed": "the loop's test has to be 0 in this iteration",
    "trap": "the iteration has to come to this trap now",
    "stop": "a run is stopped once",
}


def meaning(line: str, files: Files) -> Optional[Meaning]:
    """Returns the meaning of a refusal or a read fault, or `None` if the line is neither."""
    if line in WHOLE:
        return Meaning(WHOLE[line])
    refused, limit_out, in_record = (form.fullmatch(line) for form in (REFUSED, LIMIT_OUT, REFUSED_RECORD))
    if refused:
        return refusal(refused[1], refused[2], int(refused[3]), files)
    if limit_out:
        return limit_meaning(int(limit_out[1]), files.source)
    if in_record:
        return record_meaning(in_record[1], int(in_record[2]), files.record)
    return file_meaning(line)


def file_meaning(line: str) -> Optional[Meaning]:
    """Returns the meaning of a line about a file that could not be read."""
    missing, fault = MISSING.fullmatch(line), FAULT.fullmatch(line)
    if missing:
        remedy = "look at its spelling and at the folder in which you are (for no input, give `/dev/null`)"
        return Meaning(f"There is no file `{missing[1]}`: {remedy}.")
    if fault:
        return Meaning(f"`{fault[1]}` exists and could not be read: it may be a folder, or you may not have the right to read it.")
    return None


def record_meaning(kind: str, number: int, record: Optional[Text]) -> Meaning:
    """Returns the meaning of a refused line or event of a record, by its number from 0."""
    sentence = RECORD_SENTENCES[kind].format(number)
    if record is None or not record.data:
        return Meaning(f"{sentence}. (Give the record's name after those of the source and of the input to see its line.)")
    lines = record.lines()
    line = number if kind == "BadLine" else number + first_event_line(lines)
    text = lines[line] if line < len(lines) else b""
    reason = bad_line(text) if kind == "BadLine" else refused_event(text)
    return Meaning(f"{sentence}: {reason}.", record, [record.line_offset(line)])


def first_event_line(lines: Sequence[bytes]) -> int:
    """Returns the number of the first line, from 0, that is no emitted number, race or trap."""
    return next((number for number, line in enumerate(lines) if not OUTCOME_LINE.fullmatch(line)), len(lines))


def bad_line(line: bytes) -> str:
    """Returns why a line may be none of a record."""
    if line == b"":
        return "it is empty"
    if line.endswith(b"\r"):
        return "it ends with a carriage return: save the file with line feeds (`Unix` line ends)"
    if OUTCOME_LINE.fullmatch(line):
        return "emitted numbers, races and a trap are in range and are before the first event, and a race names a cell of the program"
    return "its cell has to be one of the program, and its numbers plain and in range (an iteration is at most 65,536)"


def refused_event(line: bytes) -> str:
    """Returns what the event of a line needs to be allowed."""
    return EVENT_NEEDS.get(line.split(b" ")[0].decode("latin-1"), "it is no event of the program here")


def limit_meaning(which: int, source: Source) -> Meaning:
    """Returns the meaning of a limit that is out of its range, or of a product of the first two limits that is."""
    words = LIMIT_WORDS[:2] if which == 3 else (LIMIT_WORDS[which - 1 if which < 3 else which - 2],)
    offsets = [offset for _, offset in map(source.limit, words) if offset is not None]
    return Meaning(LIMIT_RANGES[which], source, offsets)


def refusal(where: str, kind: str, offset: int, files: Files) -> Optional[Meaning]:
    """Returns the meaning of a refusal with an offset, in the source or in the input."""
    text = files.input if where == "input" else files.source
    special = {
        "source BadByte": lambda: source_byte(files.source, offset),
        "source Unexpected": lambda: unexpected(files.source, offset) + return_note(files.source, offset),
        "check Unknown": lambda: unknown(files.source, offset) + return_note(files.source, offset),
        "check Twice": lambda: twice(files.source, offset),
        "input BadByte": lambda: input_byte(files.input, offset),
    }
    name = f"{where} {kind}"
    if name in special:
        sentence = special[name]()
    elif name in SIMPLE:
        sentence = SIMPLE[name].replace("{}", files.source.text_at(offset))
    else:
        return None
    if text is None:
        return Meaning(f"{sentence} (Byte {offset} of the input; give its name after that of the source to see its line.)")
    return Meaning(sentence, text, [offset])


def mark_sentence(text: Text, offset: int) -> Optional[str]:
    """Returns a sentence on the byte order mark, if the refused byte belongs to one."""
    if offset != 0 or not text.data.startswith((BYTE_ORDER_MARK,) + WIDE_BYTE_ORDER_MARKS):
        return None
    return MARK_SENTENCE


def source_byte(source: Source, offset: int) -> str:
    """Returns why a byte of a source is refused."""
    mark = mark_sentence(source, offset)
    if mark:
        return mark
    byte = source.data[offset : offset + 1]
    if byte == b"\r":
        return RETURN_SENTENCE
    if byte in (b"&", b"|"):
        sign = byte.decode() * 2
        return f"A single `{byte.decode()}` is no operator: write `{sign}`, which is 1 or 0."
    if byte and byte[0] > 127:
        return "This byte is not ASCII: letters with accents, typographic quotes and the like are allowed in comments only."
    return f"`{source.text_at(offset)}` begins no symbol of the language: the signs are `! = ( ) [ ] {{ }} , ;` and the operators."


def return_note(source: Source, offset: int) -> str:
    """Returns a note on a comment before an offset that goes on after a carriage return, or an empty text."""
    comment = COMMENT_WITH_RETURN.search(source.data, 0, offset)
    return f" The comment on line {source.place(comment.start()).line} may be longer than it looks. {RETURN_SENTENCE}" if comment else ""


def unexpected(source: Source, offset: int) -> str:
    """Returns why a symbol cannot be where it is."""
    if offset >= len(source.data):
        return source_end(source)
    index = source.index_at(offset) or 0
    symbol, before = source.text_at(offset), source.text_before(index)
    if not before:
        return f"A program begins with `limits`, and not with `{symbol}`."
    if symbol == "if" and before == "else":
        return "A block follows `else`: write `else { if (..) { .. } }`."
    if before in ("let", "cell") and symbol in RESERVED_WORDS:
        return f"`{symbol}` is a reserved word and no name: choose another one."
    if before.isdigit() and symbol[:1].isalpha():
        return f"A name begins with a letter or `_`: `{before}{symbol}` is the number `{before}` and then the name `{symbol}`."
    if symbol == "cell":
        return "Cells are declared after the limits and before `init` and the loop: move this declaration, or use `let` in a block."
    if symbol in ("limits", "init", "pipe_while", "final"):
        return f"`{symbol}` cannot be here: a program is limits, cells, `init`, one `pipe_while`, and `final`, in this order."
    if source.symbols[index - 1].is_name and source.text_before(index, 2) in (";", "{", "}"):
        return f"A statement that begins with `{before}` is an assignment, `{before} = ..;` or `{before}[..] = ..;`."
    remedy = "a sign before it may be missing, such as `;` or a bracket, or docs/LANGUAGE.md has another form"
    return f"`{symbol}` cannot follow `{before}` here: {remedy}."


def source_end(source: Source) -> str:
    """Returns why a source ends too early."""
    if not source.symbols:
        return "The source is empty, or has only comments: a program begins with `limits`."
    depth = sum((symbol.text == "{") - (symbol.text == "}") for symbol in source.symbols)
    if depth > 0:
        return f"The source ends too early, with {depth} open `{{`: a `}}` is missing."
    return "The source ends too early: a program is limits, cells, `init`, `pipe_while (..) { .. }` and `final`, in this order."


def unknown(source: Source, offset: int) -> str:
    """Returns why a name is not known."""
    name = source.text_at(offset)
    index = source.index_at(offset) or 0
    part = source.symbols[index].part if source.symbols else ""
    earlier = [place for place in source.declarations("let", name) if place < index and source.symbols[place].part == part]
    if earlier and part:
        line = source.place(source.symbols[earlier[-1]].offset).line
        remedy = f"write it before the block, and assign to `{name}` inside"
        return f"The `let` of `{name}` on line {line} is out of scope here, since its block has ended: {remedy}."
    return (
        f"`{name}` is neither a cell declared above nor a local in scope: declare it by `cell {name} = 0;` before the loop if iterations"
        f" share it, or by `let {name} = ..;` in the block (the loop's test sees no local)."
    )


def twice(source: Source, offset: int) -> str:
    """Returns why a declared name may not be used again."""
    name = source.text_at(offset)
    index = source.index_at(offset) or 0
    cells = [place for place in source.declarations("cell", name) if place < index]
    if cells:
        line = source.place(source.symbols[cells[0]].offset).line
        return f"`{name}` is a cell already, declared on line {line}: choose another name, or assign to it without `let`."
    part = source.symbols[index].part if source.symbols else ""
    earlier = [place for place in source.declarations("let", name) if place < index and source.symbols[place].part == part]
    if not earlier:
        return f"`{name}` is declared already: choose another name."
    line = source.place(source.symbols[earlier[-1]].offset).line
    if source.block_has_ended(earlier[-1], index):
        return (
            f"A part has each local once, even if the block of the `let` on line {line} has ended: write `let {name} = 0;` once before both"
            f" blocks and `{name} = ..;` in each, or choose another name."
        )
    return f"`{name}` is a local already, by the `let` on line {line}: assign to it without `let`, or choose another name."


def input_byte(text: Optional[Text], offset: int) -> str:
    """Returns why a byte of an input is refused."""
    general = "An input has whole numbers, with an optional `-` before their digits, and spaces, tabs or line ends between them"
    if text is None:
        return f"{general}: another byte is refused, and so is a byte order mark at byte 0."
    mark = mark_sentence(text, offset)
    if mark:
        return mark
    if offset >= len(text.data):
        return f"{general}: the last `-` has no digits."
    return f"{general}: `{shown_byte(text, offset)}` cannot be here."


def shown_byte(text: Text, offset: int) -> str:
    """Returns a byte as a sentence shows it."""
    byte = text.data[offset]
    return chr(byte) if 32 < byte < 127 else f"byte {byte}"
