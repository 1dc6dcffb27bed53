"""Lays bundle texts out in styles that people write: what `lint` says of a good text must not depend on its layout.

A text is split into entries, each with its head (a key and a type, or an item) and its body, and joined again. Comments are
dropped; the tokens of strings stay as they are.
"""
import re

TOKEN = re.compile(r'"(?:\\.|[^"\\])*"|[{},:]|[^\s{},:"]+', re.S)


def entries(text):
    """The entries of a text, each a head and a body, which is None for an item that is a text."""
    stack, body, head = [], [], []

    def end(inner):
        body.append((" ".join(head).replace(" : ", ":").replace(": ", ":"), inner))
        head.clear()

    for token in TOKEN.findall(text):
        if token not in ("{", "}", ","):
            head.append(token)
        elif token == "{":
            stack.append(body)
            end(inner := [])
            body = inner
        else:
            if head:
                end(None)
            body = stack.pop() if token == "}" else body
    return body


def is_list(body):
    return all(inner is None for _, inner in body)


def one_line(body):
    if is_list(body):
        return ", ".join(head for head, _ in body)
    return "".join(f"{head}," if inner is None else f"{head}{{{one_line(inner)}}}" for head, inner in body)


def short(head, inner):
    """An entry in its line, if it is a text or its body has at most one."""
    if inner is None:
        return f"{head},"
    return f"{head} {{ {one_line(inner)} }}" if is_list(inner) and len(inner) <= 1 else None


def lines(body, indent, opening=" {", column=None, depth=0):
    """Yields the lines of a body. What opens one is behind its head, or in the next line after a line feed. With a column, the items of a list continue
    in further lines, at the column that the beginning of the first line gives."""
    for head, inner in body:
        line, before = short(head, inner), indent * depth
        if line:
            yield before + line
        elif column and is_list(inner):
            first = f"{before}{head} {{ "
            yield first + f",\n{' ' * column(first, depth)}".join(item for item, _ in inner) + " }"
        else:
            yield from (before + part for part in (head + opening).split("\n"))
            yield from lines(inner, indent, opening, column, depth + 1)
            yield before + "}"


def joined(body, depth=0):
    """Lines of which the last of a body closes it too."""
    made = []
    for head, inner in body:
        if inner is None or is_list(inner):
            made.append("  " * depth + (f"{head}," if inner is None else f"{head} {{ {one_line(inner)} }}"))
            continue
        made += [f"{'  ' * depth}{head} {{", *joined(inner, depth + 1)]
        made[-1] += " }"
    return made


STYLES = {
    "one line": lambda body: [one_line(body)],
    "Allman braces": lambda body: lines(body, "    ", "\n{"),
    "aligned continuations": lambda body: lines(body, "  ", column=lambda first, depth: len(first)),
    "indented continuations": lambda body: lines(body, "    ", column=lambda first, depth: 4 * depth + 8),
    "tabs": lambda body: lines(body, "\t"),
    "two spaces": lambda body: lines(body, "  "),
    "derb's": lambda body: lines(body, "    ", "{"),
    "closed in the last line": joined,
}


def laid_out(text):
    body = entries(text)
    return {name: "\n".join(style(body)) + "\n" for name, style in STYLES.items()}
