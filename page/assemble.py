"""Puts the page together: one file, of the parts, the examples, the language's page and the packed module.

    assemble.py TOP MODULE KIT yes|no FILE    the last but one word says whether the module is of the proved program
"""

import base64
import gzip
import hashlib
import html
import json
import pathlib
import re
import sys

# In the order in which the scripts are read.
SCRIPTS = [
    "dom", "caller", "editor", "link", "kept", "answers", "never", "gathering", "search", "checking", "journals",
    "stepper", "playground", "main",
]
# Nothing is asked for from anywhere. {} is the sum of the page's one script.
POLICY = (
    "default-src 'none'; script-src 'sha256-{}' 'wasm-unsafe-eval'; style-src 'unsafe-inline'; "
    "worker-src blob:; img-src data:; base-uri 'none'; form-action 'none'"
)
# Code of fewer letters stays on one line.
SHORT = 24
ICON = (
    "data:image/svg+xml,%3Csvg xmlns='http://www.w3.org/2000/svg' viewBox='0 0 16 16'%3E"
    "%3Crect width='16' height='16' rx='3' fill='%231d5f8a'/%3E"
    "%3Cpath d='M4.5 3v10M11.5 3v10M4.5 8h5.5M8 6l2.5 2L8 10' stroke='white' stroke-width='1.4' fill='none'/%3E"
    "%3C/svg%3E"
)


def marked_up(text):
    """A line of Markdown as HTML: code, bold and slanted words. A link is its text, since this page stands alone."""
    pieces = []
    for at, piece in enumerate(re.split(r"`([^`]+)`", text)):
        piece = html.escape(piece, quote=False)
        if at % 2:
            short = ' class="short"' if len(piece) < SHORT else ""
            pieces.append(f"<code{short}>{piece}</code>")
            continue
        piece = re.sub(r"\[([^\]]+)\]\([^)]+\)", r"\1", piece)
        piece = re.sub(r"\*\*([^*]+)\*\*", r"<strong>\1</strong>", piece)
        pieces.append(re.sub(r"\*([^*]+)\*", r"<em>\1</em>", piece))
    return "".join(pieces)


def table(lines):
    """A table of Markdown as HTML."""
    rows = [re.split(r"\s*(?<!\\)\|\s*", line.strip().strip("|").strip()) for line in lines]
    head, body = rows[0], rows[2:]
    top = "".join(f"<th>{marked_up(it)}</th>" for it in head)
    # On a narrow screen a row is a list, and each cell begins with the name of its column.
    row = lambda cells: "".join(
        f'<td data-name="{html.escape(name)}">{marked_up(it)}</td>' for name, it in zip(head, cells)
    )
    rest = "".join(f"<tr>{row(it)}</tr>" for it in body)
    return f'<div class="wide"><table><thead><tr>{top}</tr></thead><tbody>{rest}</tbody></table></div>'


def block(text):
    """A block of Markdown as HTML: code, a heading, a table, a list or a paragraph."""
    lines = text.split("\n")
    if text.startswith("```"):
        return f'<pre tabindex="0"><code>{html.escape(chr(10).join(lines[1:-1]), quote=False)}</code></pre>'
    heading = re.match(r"(#+) (.*)", text)
    if heading:
        depth = len(heading[1]) + 1
        return f"<h{depth}>{marked_up(heading[2])}</h{depth}>"
    if text.startswith("|"):
        return table(lines)
    if text.startswith("- "):
        items = "".join(f"<li>{marked_up(it[2:])}</li>" for it in lines)
        return f"<ul>{items}</ul>"
    return f"<p>{marked_up(' '.join(lines))}</p>"


def page_of(markdown):
    """A page of Markdown as HTML. Blocks have an empty line between them, which code may have inside."""
    blocks = re.findall(r"^```[^\n]*\n.*?^```$|(?:^(?!```)[^\n]+(?:\n|\Z))+", markdown, re.M | re.S)
    return "\n".join(block(it.strip("\n")) for it in blocks)


def examples(top):
    """The examples that the list names: each of the folder has to be there."""
    folder = top / "crates/test_cases/data/examples"
    found = []
    for line in (top / "page/examples.txt").read_text().splitlines():
        if line and not line.startswith("#"):
            name, rows, title = line.split(None, 2)
            text = (folder / f"{name}.pcml").read_text()
            found.append({"name": name, "rows": int(rows), "title": title, "text": text})
    left = {it.stem for it in folder.glob("*.pcml")} - {it["name"] for it in found}
    if left:
        sys.exit(f"page/examples.txt lacks {' '.join(sorted(left))}")
    return found


def options(found):
    first = '<option value="" hidden>of your own</option>'
    return first + "".join(f'<option value="{it["name"]}">{html.escape(it["title"])}</option>' for it in found)


def filled(text, values):
    """The text with each `{{name}}` replaced, in one pass, so that nothing that was put in is read again."""
    return re.sub(r"\{\{(\w+)\}\}", lambda it: values[it[1]], text)


def about(parts, module, packed, kit, is_proved, lines):
    proved = (parts / ("proved.html" if is_proved else "unproved.html")).read_text()
    values = {
        "proved": proved,
        "kit": html.escape(kit),
        "lines": str(lines),
        "size": f"{len(module):,}",
        "packed": f"{len(packed):,}",
        "sum": hashlib.sha256(module).hexdigest(),
    }
    return filled((parts / "about.html").read_text(), values)


def assembled(top, module, kit, is_proved):
    """The text of the page."""
    parts = top / "page/parts"
    packed = gzip.compress(module, 9, mtime=0)
    lines = len((top / "page/memory.c").read_text().splitlines())
    script = "\n" + '"use strict";\n' + "\n".join((parts / f"{it}.js").read_text() for it in SCRIPTS)
    found = examples(top)
    sum_of_script = base64.b64encode(hashlib.sha256(script.encode()).digest()).decode()
    values = {
        "policy": POLICY.format(sum_of_script),
        "icon": ICON,
        "style": (parts / "page.css").read_text(),
        "options": options(found),
        "language": page_of((top / "docs/LANGUAGE.md").read_text()),
        "about": about(parts, module, packed, kit, is_proved, lines),
        "examples": json.dumps(found).replace("<", "\\u003c"),
        "program": (parts / "program.js").read_text(),
        "module": base64.b64encode(packed).decode(),
        "script": script,
    }
    return filled((parts / "page.html").read_text(), values)


def main():
    top, module, kit, proved, to = sys.argv[1:]
    module = pathlib.Path(module).read_bytes()
    text = assembled(pathlib.Path(top), module, kit, proved == "yes")
    pathlib.Path(to).write_text(text)
    print(f"{len(text.encode()):,} bytes, of which the module, {len(module):,} bytes, takes "
          f"{len(gzip.compress(module, 9, mtime=0)) * 4 // 3:,}")


main()
