"""The functions of a crate's source, with their contracts as text: read off the layout that `rt fmt` gives."""

import re
from pathlib import Path

ROOT = Path(__file__).resolve().parent.parent
IMPL = re.compile(r"impl(?:<.*?>)? (?:(?:\w+::)?(\w+)(?:<(.*)>)? for )?(\w+)")
FUNCTION = re.compile(r'(\s*)(pub )?(?:pub\(crate\) )?(?:extern "C" )?fn (\w+)')
CLAUSE = re.compile(r"\s*(requires|ensures)\b")
# A clause that an impl gives for a trait's method: `ghost from_gives = { .. };`.
GIVES = re.compile(r"\s+ghost (\w+)_gives = ")


class Function:
    """A function by its path in the crate: whether others may call it, whether it does nothing, its attributes and its contract as text,
    and the text of its file."""

    def __init__(self, crate, path, public, idle, attributes, contract, text):
        self.crate, self.path, self.public, self.idle = crate, path, public, idle
        self.attributes, self.contract, self.text = attributes, contract, text

    @property
    def name(self):
        return f"{self.crate}::{self.path}"

    @property
    def promises(self):
        return bool(re.search(r"\bensures\b|_gives = ", self.contract))


def capital(word):
    return word[0].upper() + word[1:]


def words_of(argument):
    """A trait's argument as the check has it in a function's path: `[Option<u32>; 8]` is ArrayOptionU328."""
    return ("Array" if argument.startswith("[") else "") + "".join(map(capital, re.findall(r"\w+", argument)))


def clauses(rows, start, indent):
    """The clauses of the function that is declared in a row, which stand between its signature and its body, and the body's first row."""
    for end in range(start, len(rows)):
        if rows[end] in (f"{indent}{{", f"{indent}{{}}") or rows[end].endswith(";") and not CLAUSE.match(rows[end]):
            return "\n".join(rows[start:end]), rows[end].strip()
        if rows[end].endswith(" {") and not any(CLAUSE.match(row) for row in rows[start : end + 1]):
            return "", "{"
    return "", "{"


def attributes(rows, end):
    """The rows of attributes above the function that is declared in a row."""
    start = end
    while start and rows[start - 1].strip().startswith("#["):
        start -= 1
    return "\n".join(rows[start:end])


def functions_of(crate):
    """The functions of a crate, by the path that the check gives them. That of `impl From<u8> for CmpOp` is CmpOpFromU8::from, and it is
    public; a method goes by the module of its type."""
    files = sorted((ROOT / "crates" / crate / "src").rglob("*.rt"))
    texts = [(path.stem, re.sub(r"^\s*//.*$", "", path.read_text(), flags=re.M)) for path in files]
    homes = {kind: stem for stem, text in texts for kind in re.findall(r"^(?:pub )?(?:struct|enum) (\w+)", text, re.M)}
    found = {}
    for stem, text in texts:
        owner, module, trait, gives = [], stem, None, {}
        rows = text.splitlines()
        for number, row in enumerate(rows):
            if opened := IMPL.match(row):
                trait, argument, kind = opened.groups()
                owner = [f"{capital(kind)}{trait}{words_of(argument or '')}" if trait else kind]
                module, gives = homes.get(kind, stem), {}
            elif row == "}":
                owner, module, trait = [], stem, None
            elif given := GIVES.match(row):
                end = next(k for k in range(number, len(rows)) if rows[k].endswith("};"))
                gives[given[1]] = "\n".join(rows[number : end + 1])
            elif declared := FUNCTION.match(row):
                indent, public, name = declared.groups()
                path = "::".join([module] * (module not in ("lib", "main")) + owner + [name])
                contract, body = clauses(rows, number, indent)
                is_public = bool(public) or (trait or "").endswith("From")
                found[path] = Function(crate, path, is_public, body == "{}", attributes(rows, number), contract + gives.get(name, ""), text)
    return found
