"""The parts of documents that scripts make: each follows a line `<!-- made by SCRIPT -->` and ends before the next
comment `<!-- end -->`, or with the document. All other lines are by hand."""
import sys
import textwrap

COLUMNS = 120


def item(text, indent="  "):
    """The lines of an item of a list, within the columns of documents."""
    return textwrap.wrap(text, COLUMNS, initial_indent="- ", subsequent_indent=indent, break_long_words=False,
                         break_on_hyphens=False)


def with_part(lines, script, part):
    """The lines of a document with its made part in place of the one that it has."""
    begin = lines.index(f"<!-- made by {script} -->") + 1
    end = lines.index("<!-- end -->", begin) if "<!-- end -->" in lines[begin:] else len(lines)
    return lines[:begin] + part + lines[end:]


def renew(path, script, part, check):
    """Writes the document with its part made anew; with `check` only says whether that would change it, and ends with
    status 1 then."""
    with open(path, encoding="utf-8") as file:
        old = file.read()
    new = "\n".join(with_part(old.splitlines(), script, part)) + "\n"
    if check:
        sys.exit(f"{script}: {path} isn't as it is made" if new != old else 0)
    with open(path, "w", encoding="utf-8") as file:
        file.write(new)
