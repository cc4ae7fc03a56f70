"""Runs the Python snippets of a page, one after the other with the same names, and compares what each prints with the text that
follows it. page.py FILE prints how many there were."""

import contextlib
import io
import re
import sys

PATTERN = re.compile(r"^```(python|text)\n(.*?)^```$", re.M | re.S)


def main(path):
    with open(path, encoding="utf-8") as file:
        page = file.read()
    names, printed, count = {"__name__": "page"}, None, 0
    for found in PATTERN.finditer(page):
        kind, text = found.groups()
        line = page.count("\n", 0, found.start()) + 2
        if kind == "python":
            if printed:
                sys.exit(f"{path}: what is printed before line {line} isn't on the page: {printed}")
            out = io.StringIO()
            with contextlib.redirect_stdout(out):
                exec(compile("\n" * (line - 1) + text, path, "exec"), names)
            printed, count = out.getvalue(), count + 1
        elif printed != text:
            sys.exit(f"{path}, line {line}: the page has\n{text}and the snippet prints\n{printed}")
        else:
            printed = None
    print(count)


main(sys.argv[1])
