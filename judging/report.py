"""Verdicts as a table in Markdown, and as JSON."""
import collections
import json
from collections.abc import Iterator

from judging.rows import BROKEN, BY_DEFINITION, MET, NOT_SURE, VERDICTS, Row

HEADS = ("requirement", "section", "level", "asks", "verdict", "occasions", "shown by")
# of the occasions that show a verdict, how many packets a row has
MOST_SHOWN = 5


def text_of(evidence) -> str:
    return evidence if isinstance(evidence, str) else evidence.text()


def would_show(row: Row) -> str:
    return ", ".join(filter(None, (row.needs, row.requirement.shown_by)))


def table(rows: list[Row]) -> Iterator[str]:
    """Yields the lines of the table."""
    yield f"| {' | '.join(HEADS)} |"
    yield f"|{' --- |' * len(HEADS)}"
    for row in rows:
        it, is_against = row.requirement, row.verdict in (BROKEN, NOT_SURE)
        verdict = f"**{row.verdict}**{' (definition)' if row.judged_by == BY_DEFINITION else ''}"
        occasions = f"{row.broken} of {row.broken + row.met} broken" if is_against else str(row.met)
        packets = "; ".join(map(text_of, row.evidence[0][:MOST_SHOWN])) if row.evidence else None
        shown_by = f"{row.note}: " * bool(row.note) + (packets or f"would show it: {would_show(row)}")
        cells = (it.name, f"RFC {it.rfc}, {it.section}", it.level, it.asks, verdict, occasions, shown_by)
        yield f"| {' | '.join(cell.replace('|', chr(92) + '|') for cell in cells)} |"
    counts = collections.Counter(it.verdict for it in rows)
    yield ""
    yield ", ".join(f"{counts[it]} {it}" for it in VERDICTS)


def shown(evidence, files: dict[str, list]) -> dict:
    """Returns a piece of evidence as an object, with the side, file and number of each of its packets."""
    found = {}
    for name, it in zip(("arrived", "left"), getattr(evidence, "places", ())):
        found[name] = it and {"side": it[0], "file": files[it[0]][max(it[1] - 1, 0)], "packet": it[2]}
    return {**found, "text": text_of(evidence)}


def lines(rows: list[Row], files: dict[str, list]) -> Iterator[str]:
    """Yields a line with an object for each requirement. `files` has the captures of each side."""
    for row in rows:
        it = row.requirement
        yield json.dumps({
            "requirement": it.name, "rfc": it.rfc, "section": it.section, "level": it.level, "asks": it.asks,
            "verdict": row.verdict, "met": row.met, "broken": row.broken, "judged_by": row.judged_by,
            "note": row.note or None,
            "packets": [[shown(found, files) for found in occasion] for occasion in row.evidence],
            "would_show": None if row.verdict in (MET, BROKEN) else would_show(row),
        })
