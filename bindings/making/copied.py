"""The types of streams that `copy` takes by names: in the code and its definitions, the help, the pages, and what shells complete."""

from __future__ import annotations

from dataclasses import dataclass

from lib.generated import Stretches, filled

from .names import Names

SPECS = "crates/mdmp_words/specs"
SOURCES = "crates/mdmp_words/src"
AS_BYTES = "as bytes"


@dataclass(frozen=True)
class Copied:
    """A type."""

    number: int
    word: str  # what its records are called, or empty
    name: str  # in the header
    how: str  # it is copied

    @property
    def names(self) -> list[str]:
        return [self.word, self.name] if self.word else [self.name]


def put_code(files: Stretches, words: list[tuple[str, int]], names: list[tuple[str, int]]) -> None:
    """The functions that look a name up, and their definitions."""
    source, specs = f"{SOURCES}/type_names.rt", f"{SPECS}/TypeNames.antt"
    for function, rows in (("type_of_records", words), ("type_in_header", names)):
        arms = "".join(f'        "{name}" => Some({number}),\n' for name, number in rows)
        files.put(source, f"ensures {{ result ≡ {function} word.now }}\n{{\n    match word {{\n", "        _ => None", arms)
        tests = "    else ".join(f'if bytes_eq word (codes "{name}") then Some {number}\n' for name, number in rows)
        files.put(specs, f"\n{function} word =\n    ", "    else None", tests)
    source, specs = f"{SOURCES}/near_types.rt", f"{SPECS}/NearTypes.antt"
    every = [name for name, _ in words + names]
    files.put(source, "const TYPE_WORDS: [&str; ", "]", str(len(every)))
    files.put(source, f"const TYPE_WORDS: [&str; {len(every)}] = [\n", "];", "".join(f'    "{name}",\n' for name in every))
    files.put(source, "let names: [&str; ", "]", str(len(every)))
    codes = [f'codes "{name}"' for name in every]
    lines = [" ∷ ".join(codes[start:end]) for start, end in zip([0, *range(7, len(codes), 5)], [*range(7, len(codes), 5), len(codes)])]
    files.put(specs, "\ntype_words =\n    ", " ∷ []", "\n    ∷ ".join(lines))


def put_texts(files: Stretches, types: list[Copied]) -> None:
    """The help, and the pages."""
    rows = [f"  {one.number:<14}{', '.join(one.names)}\n" for one in types]
    head = "Types that are copied, by their numbers or names:\n"
    files.put(f"{SOURCES}/help.rt", head, "  65536 and on", "".join(rows))
    files.put("tests/command_lines/help.txt", head, "|   65536 and on", "".join(f"| {row}" for row in rows))
    items = "".join(f".It {one.number}\n.Cm {' , '.join(one.names)}\n" for one in types)
    files.put("man/mdmp.1", 'takes these types:\n.Pp\n.Bl -tag -width "65536 and on" -compact\n', ".It 65536", items)
    raw = [one for one in types if one.how == AS_BYTES]
    table = [
        f"| {one.number} | {', '.join(f'`{name}`' for name in one.names)} | {one.how}{' ' if one.how else ''}|\n"
        for one in types
        if one not in raw
    ]
    numbers, names = ", ".join(str(one.number) for one in raw), ", ".join(f"`{one.name}`" for one in raw)
    table.append(f"| {numbers} | {names} | {AS_BYTES} |\n")
    files.put("docs/cli.md", "| type | names | copied |\n|---|---|---|\n", "| from 65,536", "".join(table))


def put_package(files: Stretches, types: list[Copied]) -> None:
    """The words that the package's own command takes. It has the header's names too."""
    rows = "".join(f'    "{one.word}": names.StreamType.{one.name},\n' for one in types if one.word)
    files.put("bindings/python/mdmp/__main__.py", "_OF_RECORDS = {\n", "}", rows)


def put_completions(files: Stretches, words: list[tuple[str, int]], names: list[tuple[str, int]]) -> None:
    """What each shell offers: first the words, on one line, and then the names."""
    fish = " ".join(f"{name}:{number}" for name, number in words)
    rows = filled([f"{name}:{number}" for name, number in names], " ", 112, " " * 8, " \\")
    files.put("completions/mdmp.fish", "\nfor type in ", "\n    set -l parts", "\n".join([f"{fish} \\", *rows]).removesuffix(" \\"))
    zsh = " ".join(f"'{name}:{number}'" for name, number in words)
    rows = filled([f"'{name}:{number}'" for name, number in names], " ", 120, " " * 8)
    files.put("completions/_mdmp", "    types=(\n", "    )", f"        {zsh}\n" + "".join(f"{row}\n" for row in rows))
    bash = " ".join(name for name, _ in words)
    rows = filled([name for name, _ in names], " ", 120, "        words+=' ", "'")
    text = f"        words='{bash}'\n" + "".join(f"{row}\n" for row in rows)
    files.put("completions/mdmp.bash", "((place >= 2)); then\n", "        mapfile", text)


def put_tests(files: Stretches, words: list[tuple[str, int]], names: list[tuple[str, int]]) -> None:
    """Command lines with all words, and with all names."""
    text = ""
    for rows in (words, names):
        given, numbers = "|".join(name for name, _ in rows), " ".join(str(number) for _, number in rows)
        text += f"copy|a|b|{given} => copy [a] [b] {numbers} usual\n"
    before = "copy|a|b|threads|exception|7 => copy [a] [b] 3 6 7 usual\n"
    files.put("crates/mdmp_command_tests/src/requests.rt", before, "copy|a|b|thread => bad", text)


def put_copied(files: Stretches, names: Names) -> None:
    """All of them."""
    types = [Copied(number, word, names.group("stream_types").name_of(number), how) for number, word, how in names.copied]
    by_word = [(one.word, one.number) for one in types if one.word]
    by_name = [(one.name, one.number) for one in types]
    put_code(files, by_word, by_name)
    put_texts(files, types)
    put_package(files, types)
    put_completions(files, by_word, by_name)
    put_tests(files, by_word, by_name)
