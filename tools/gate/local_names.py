"""Where a name is a local in the body of a function: its arguments, `let`, `for`, the arms of `match`, closures."""
import re

BRACKET = re.compile(r"[({\[]|[)}\]]|;")
MARK = re.compile(r"[({\[]|[)}\]]|;|,|=>")
STRUCT = re.compile(r"\{([^{}]*)\}")
FIELD = re.compile(r"\b\w+\s*:(?!:)")
WORDS = re.compile(r"(?<![.\w])[a-z_]\w*\b(?!\s*(?:\(|::|!))")
ARGUMENT = re.compile(r"\b([a-z_]\w*)\s*:(?!:)")
LET = re.compile(r"(\b(?:if|while)\s+|&&\s*)?\blet\b([^;]*?)(?<![=<>!])=(?![=>])")
FOR = re.compile(r"\bfor\b([^;{]*?)\bin\b")
MATCH = re.compile(r"\bmatch\b")
CLOSURE = re.compile(r"(?<=[(,=])\s*(?:move\s*)?\|([^|]*)\|")


def brackets(text, at, marks=BRACKET):
    """The brackets and marks after a place, each with the depth after it."""
    depth = 0
    for found in marks.finditer(text, at):
        depth += {"(": 1, "{": 1, "[": 1}.get(found[0], -1 if found[0] in ")}]" else 0)
        yield found, depth


def closing(text, at):
    """The place after the bracket that closes the one at a place."""
    return next((found.end() for found, depth in brackets(text, at) if depth == 0), len(text))


def block_after(text, at):
    """Where the first block after a place begins."""
    return next((found.start() for found, depth in brackets(text, at) if (found[0], depth) == ("{", 1)), len(text))


def end_of(text, at, mark):
    """Where the expression at a place ends: at this mark, or where what is around it closes."""
    return next(
        (found.start() for found, depth in brackets(text, at, MARK) if depth < 0 or depth == 0 and found[0] == mark),
        len(text),
    )


def arms_of(text, begin):
    """The arms of a `match` by its block: the pattern of each, where it begins, and where the arm ends."""
    at, last = begin + 1, closing(text, begin) - 1
    while (arrow := end_of(text, at, "=>")) < last:
        body = re.compile(r"\s*").match(text, arrow + 2).end()
        end = closing(text, body) if text[body : body + 1] == "{" else body
        if end == body or re.compile(r"\s*[.?]").match(text, end):
            end = end_of(text, end, ",")
        yield re.split(r"\bif\b", text[at:arrow])[0], at, end
        at = end + 1 if text[end : end + 1] == "," else end


def names_in(pattern):
    """The names that a pattern binds, without the fields of its structs."""
    while (flat := STRUCT.sub(lambda found: f"({FIELD.sub('', found[1])})", pattern)) != pattern:
        pattern = flat
    return WORDS.findall(pattern)


def locals_of(arguments, body):
    """The locals of a function: the name of each, and where it begins and ends to be one."""
    parts = []
    for found in LET.finditer(body):
        begin = block_after(body, found.end()) if found[1] else end_of(body, found.end(), ";")
        parts.append((found[2], begin, closing(body, begin) if found[1] else end_of(body, begin, "")))
        parts.append((found[2], *found.span(2)))
    for found in FOR.finditer(body):
        begin = block_after(body, found.end())
        parts += [(found[1], begin, closing(body, begin)), (found[1], *found.span(1))]
    for found in MATCH.finditer(body):
        begin = block_after(body, found.end())
        parts += arms_of(body, begin) if begin < len(body) else []
    parts += [(found[1], found.start(1), end_of(body, found.end(), ",")) for found in CLOSURE.finditer(body)]
    bound = [(name, begin, end) for pattern, begin, end in parts for name in names_in(pattern)]
    return bound + [(name, 0, len(body)) for name in ARGUMENT.findall(arguments)]
