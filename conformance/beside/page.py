"""The tables in a page, each between two comments that name it."""
import re

TABLE = r"(<!-- table {} -->\n)(.*?)(<!-- end -->)"


def filled(text, tables):
    """The page with these tables in their places."""
    for name, lines in tables.items():
        if not re.search(TABLE.format(name), text, re.DOTALL):
            raise ValueError(f"docs/upstream.md has no place for the table '{name}'")
        body = "\n" + "\n".join(lines) + "\n\n"
        text = re.sub(TABLE.format(name), lambda found, body=body: found[1] + body + found[3], text, flags=re.DOTALL)
    return text
