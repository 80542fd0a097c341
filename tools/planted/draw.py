"""Draws simple bugs from the code of a crate, each a change of one place in one line:

    comparison   `<` for `<=`, and so on        negation   `==` for `!=`, a `!` left out
    connective   `&&` for `||`                  off by one `+ 1` or `- 1` left out, `..` for `..=`
    constant     one more, `true` for `false`   arguments  two neighbours swapped
    dropped      a statement left out           early end  a `return` or `break` left out

Clauses, ghost items and tests are left alone, and the limits, of which other crates speak. So are lines that begin with a
brace, and lines whose text stands more than once in a file, since an edit has to name its place by one line. Arguments are
swapped in calls of two words, of which none is `run`."""
import re

from bugs import CRATES, Bug

FUNCTION = re.compile(r"\s*(?:pub(?:\(crate\))? )?(?:final )?fn (\w+)")
CLAUSE = re.compile(r"(ensures|requires|invariant|decreases|ghost)\b")
NO_CODE = re.compile(r"(//|#|use |pub use |mod |pub mod |\}|$)")

# What is written for what. Spaces keep type parameters and references out.
SWAPS = [
    ("comparison", r" < (?!\w+>)", " <= "),
    ("comparison", r" <= ", " < "),
    ("comparison", r" > ", " >= "),
    ("comparison", r" >= ", " > "),
    ("negation", r" == ", " != "),
    ("negation", r" != ", " == "),
    ("negation", r"(?<![\w!])!(?=[\w(])", ""),
    ("connective", r" && ", " || "),
    ("connective", r" \|\| ", " && "),
    ("off by one", r" [+-] 1\b", ""),
    ("off by one", r"(?<=\w)\.\.=(?=\w)", ".."),
    ("constant", r"\btrue\b", "false"),
    ("constant", r"\bfalse\b", "true"),
]
NUMBER = re.compile(r"(?<![\w.'\"])\d+(?![\w\"'.])|(?<![\w.'\"])\d+(?=\.\.)")
PAIR = re.compile(r"\b\w+\(([&\w]+), ([&\w.]+)\)")
# A call or an assignment that is a statement of its own.
STATEMENT = re.compile(r"(?!let\b|return\b|break\b|const\b|pub\b|type\b|fn\b)[^;]*(\)|\+= .*|\|= .*|[^=!<>]= [^=].*);$")


def code(text):
    """The lines of code, each with the function that it stands in."""
    depth, function = 0, ""
    for line in text.split("\n"):
        stripped = line.strip()
        if stripped.startswith(("#[cfg(test)]", "#[test]")):
            return
        if depth > 0 or CLAUSE.match(stripped):
            depth += stripped.count("{") - stripped.count("}")
            continue
        found = FUNCTION.match(line)
        function = found.group(1) if found else function
        if not NO_CODE.match(stripped) and not found:
            yield function, stripped


def changes(line):
    """What one line may be changed into, with the kind of the change."""
    for kind, pattern, instead in SWAPS:
        for place in re.finditer(pattern, line):
            yield kind, line[: place.start()] + instead + line[place.end() :]
    for place in NUMBER.finditer(line):
        is_of_a_type = line.startswith(("const", "pub const")) and place.start() < line.index("=")
        if not is_of_a_type:
            yield "constant", line[: place.start()] + str(int(place.group()) + 1) + line[place.end() :]
    for place in PAIR.finditer(line):
        if place.group(1) != place.group(2) and "run" not in place.groups():
            swapped = f"{place.group(2)}, {place.group(1)}"
            yield "arguments", line[: place.start(1)] + swapped + line[place.end(2) :]
    if STATEMENT.match(line):
        yield "dropped", "();"
    if re.match(r"(return|break)\b.*;$", line):
        yield "early end", "();"


def drawn(crate):
    """The bugs of a crate, each named by its file and function and a number there."""
    for path in sorted((CRATES / crate / "src").glob("*.rt")):
        text = path.read_text()
        count = {}
        if path.stem in ("cases", "limits"):
            continue
        for function, line in code(text):
            if text.count(line) != 1:
                continue
            for kind, new in dict.fromkeys(changes(line)):
                count[function] = count.get(function, 0) + 1
                place = f"{path.stem}_{function}" if function else path.stem
                edit = (("file", f"src/{path.name}"), ("old", line), ("new", new))
                yield Bug(crate, f"{place}_{count[function]}", kind, edit)
