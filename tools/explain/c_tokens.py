"""The tokens of a source of C0, with the places at which they begin; also of one with signs that C0 has not."""
import re

TOKEN = re.compile(rb'//[^\n]*|/\*|[A-Za-z_]\w*|\d+|->|==|!=|<=|>=|&&|\|\||"[^"\n]*"?|[^\s]')


def tokens(data):
    """The tokens of a source as pairs of a place and a text; comments are none."""
    found = []
    for match in TOKEN.finditer(data):
        if not match.group().startswith(b'//'):
            found.append((match.start(), match.group().decode('utf-8', errors='replace')))
    return found
