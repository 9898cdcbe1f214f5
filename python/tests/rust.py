"""The package's values as the Rust crate's example `answers` writes them: each type by its name in the crate, with the crate's names of fields."""
import dataclasses
import enum
import struct

import lorukinde
from lorukinde import Head, Placed, Reading

# A variant with values in brackets; the others are written with their fields.
TUPLES = (lorukinde.Clock, lorukinde.Sun, lorukinde.Next, lorukinde.Previous)
STEPS = (lorukinde.Years, lorukinde.Weeks)


def debug(value):
    """As `{:?}` writes it."""
    if isinstance(value, enum.Enum):
        return value.name.capitalize()
    if isinstance(value, bool):
        return str(value).lower()
    if isinstance(value, Placed):
        return f"Placed {{ place: {value.place}, meaning: {variant(value.meaning)} }}"
    if not dataclasses.is_dataclass(value):
        return str(value)
    name = type(value).__name__
    fields = {field.name: getattr(value, field.name) for field in dataclasses.fields(value)}
    if isinstance(value, TUPLES):
        return f"{name}({', '.join(map(debug, fields.values()))})"
    if not fields:
        return name
    return f"{'Steps' if isinstance(value, STEPS) else name} {{ {', '.join(f'{key}: {optional(key, some)}' for key, some in fields.items())} }}"


def optional(key, value):
    if key in ("year", "to_weekday", "repeat"):
        return "None" if value is None else f"Some({debug(value)})"
    return debug(value)


def variant(meaning):
    return f"{type(meaning).__name__}({debug(meaning)})"


def answer(sheet, whole):
    """What the crate answers for a sheet that was read part by part, and for the reading of it as a whole."""
    lines = []
    for part in sheet.parts:
        lines.append(f"part {part.range.start}..{part.range.stop}")
        lines.extend(accepted(part.reading) if part.is_accepted else refused(part.reading))
    return "\n".join([*lines, of_whole(whole), ""])


def accepted(reading):
    yield f"warnings {reading.warnings}"
    for rule in reading.rules:
        assert isinstance(rule.head, Head)
        yield f"rule {rule.place} {debug(rule.head)}"
        yield "comment " + ("None" if rule.comment is None else f"Some({list(rule.comment.encode())})")
        _, *records = struct.iter_unpack("<16i", rule.records)
        assert len(records) == len(rule.items)
        for item, words in zip(rule.items, records):
            yield f"item {debug(item)} {list(words)}"
        yield f"says {rule}"


def refused(refusal):
    yield f"refused {refusal.number} {refusal.place} {refusal.line} {refusal.column}"
    yield f"says {refusal}"


def of_whole(whole):
    if isinstance(whole, Reading):
        return f"whole {len(whole.records) // 64} {whole.warnings}"
    return f"whole refused {whole.number} {whole.place}"
