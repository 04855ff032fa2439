"""Texts as terms: what a literal can't hold, as a tab, a quote or a byte beyond ASCII, stands as a number."""
import re

PLAIN = re.compile(r'[ !#-\[\]-~]+')
MARK = '  -- of dispatch'


def term(text):
    """The bytes of a text (as latin-1) as a list."""
    parts, at = [], 0
    while at < len(text):
        run = PLAIN.match(text, at)
        parts.append(run.group() if run else ord(text[at]))
        at = run.end() if run else at + 1
    if not parts:
        return 'codes ""'
    out = ''
    for part in reversed(parts):
        if isinstance(part, int):
            out = '%d ∷ %s' % (part, ('(%s)' % out if '++' in out else out) or '[]')
        else:
            out = 'codes "%s" ++ (%s)' % (part, out) if out else 'codes "%s"' % part
    return out


def bracketed(text):
    """The same, as an argument."""
    shown = term(text)
    return '(%s)' % shown


def of_lines(text, marked=None):
    """A whole text, line by line, as the body of a definition. A line that is marked, by its number from 0, has a comment that tells it from others like it."""
    lines = text.split('\n')
    rest = lines.pop()
    if not lines:
        return [term(rest)]
    shown = [term(line) for line in lines]
    shown = ['(%s)' % it if '∷' in it or '++' in it else it for it in shown]
    out = ['by_lines (']
    out += ['    %s%s%s%s' % ('∷ ' if i else '', line, ' ∷ [])' if i == len(shown) - 1 else '', MARK if i == marked else '') for i, line in enumerate(shown)]
    if rest:
        out[0] = '(by_lines ('
        out[-1] += ') ++ ' + bracketed(rest)
    return out


def definition(name, text, marked=None):
    """A definition of a text, with the imports that it needs."""
    body = of_lines(text, marked)
    uses = ['codes'] if any('codes "' in line for line in body) else []
    uses = ['ℕ', 'List', '[]', '◌∷◌'] + (['◌++◌'] if any('++' in line for line in body) else []) + uses
    return uses, ['abbrev pub %s : List ℕ' % name, '%s = %s' % (name, body[0])] + body[1:]
