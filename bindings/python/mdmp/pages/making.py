"""Makes a page of a dump."""

from __future__ import annotations

import base64
import hashlib
import pathlib
from functools import lru_cache
from typing import Any

from .. import __version__
from .._dump import Dump
from . import crash, memory_tables, pictures, places, tables, text, texts
from .reading import Reading

_TEMPLATES = pathlib.Path(__file__).resolve().parent / "templates"


class NoJinja(Exception):
    """Jinja2 is missing."""

    def __str__(self) -> str:
        return "Jinja2 is missing, which pages are made with: apt-get install python3-jinja2"


@lru_cache(maxsize=None)
def _environment() -> Any:
    try:
        from jinja2 import Environment, FileSystemLoader, StrictUndefined
    except ImportError:
        raise NoJinja from None
    return Environment(
        loader=FileSystemLoader(_TEMPLATES),
        autoescape=True,
        undefined=StrictUndefined,
        trim_blocks=True,
        lstrip_blocks=True,
        keep_trailing_newline=True,
    )


def check() -> None:
    """Raises NoJinja if pages cannot be made."""
    _environment()


def _hash(part: str) -> str:
    return "'sha256-" + base64.b64encode(hashlib.sha256(part.encode()).digest()).decode() + "'"


def _narrow(columns: dict[str, list[str]]) -> str:
    """The style that names each cell of a table if a screen is too narrow for the columns."""
    rules = []
    for key, titles in columns.items():
        for at, title in enumerate(titles, 1):
            rules.append(f'  #{key} td:nth-child({at})::before {{ content: "{title}"; }}\n')
    return f"@media screen and (max-width: 1040px) {{\n{''.join(rules)}}}\n"


def rendered(template: str, columns: dict[str, list[str]], values: dict[str, Any]) -> str:
    """A page of a template. Its style and script are in it, and its policy lets the browser load no others."""
    environment = _environment()
    style = (_TEMPLATES / "style.css").read_text("utf-8") + _narrow(columns)
    script = (_TEMPLATES / "sort.js").read_text("utf-8")
    policy = (
        f"default-src 'none'; style-src {_hash(style)}; script-src {_hash(script)}; base-uri 'none'; form-action 'none'"
    )
    made = environment.get_template(template).render(
        style=style, script=script, policy=policy, version=__version__, **values
    )
    return str(made)


def _without_fault_of_file(reading: Reading, shown: list[tables.Table]) -> list[tables.Table]:
    """The tables, which do not say again what the page says of the whole file."""
    for table in shown:
        if reading.fault and table.fault == str(reading.fault):
            table.fault = table.empty = ""  # nothing was read: this does not say that there are no rows
    return shown


def page_of(dump: Dump, name: str, size: int, most: int) -> tuple[str, Reading]:
    """The page of a dump whose file has this name and size, with at most `most` rows a table, and what was read."""
    reading = Reading(dump, size, most)
    spans = sorted(places.in_file(reading))  # sorted spans are quick to sort again
    is_listed = reading.header is not None and not reading.is_too_long
    processes = _without_fault_of_file(reading, tables.of_process(reading)) if is_listed else []
    memories = _without_fault_of_file(reading, memory_tables.of_memory(reading)) if is_listed else []
    memories = [table for table in memories if table.rows or table.fault]
    directory, over = tables.verdicts(reading), pictures.over_table(reading, spans)
    shown = [*processes, *memories, over, directory]
    values = {
        "name": text.shortened(name),
        "badge": crash.badge(reading),
        "card": crash.card(reading) if reading.header else None,
        "tables": processes,
        "about_file": crash.about_file(reading),
        "file": pictures.of_file(reading, spans),
        "memory": pictures.of_memory(reading),
        "memory_tables": memories,
        "over": over,
        "texts": texts.all_texts(reading),
        "directory": directory,
        "bad_entries": reading.bad_count,
    }
    columns = {table.key: [column.title for column in table.columns] for table in shown}
    return rendered("page.html", columns, values), reading
