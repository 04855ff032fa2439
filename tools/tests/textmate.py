"""A tokenizer for grammars of the TextMate form, as far as this repository's use it: match, begin and end, includes, captures of the whole."""
import functools
import re


@functools.lru_cache(maxsize=None)
def compiled(pattern):
    return re.compile(pattern, re.A)


class Tokenizer:
    def __init__(self, grammar):
        self.grammar = grammar

    def rules(self, patterns):
        """The rules of a list of patterns, with those that are included in their place."""
        found = []
        for pattern in patterns:
            if 'include' in pattern:
                inside = self.grammar['repository'][pattern['include'].lstrip('#')]
                found += self.rules([inside]) if 'match' in inside or 'begin' in inside else self.rules(inside['patterns'])
            elif 'match' in pattern or 'begin' in pattern:
                found.append(pattern)
            else:
                found += self.rules(pattern['patterns'])
        return found

    def next(self, stack, line, at):
        """The first match from a place on: an end comes before a rule at one place, and an earlier rule before a later one."""
        best = None
        choices = [(stack[-1]['end'], 'end')] if stack else []
        patterns = stack[-1].get('patterns', []) if stack else self.grammar['patterns']
        choices += [(rule.get('match') or rule['begin'], rule) for rule in self.rules(patterns)]
        for pattern, rule in choices:
            match = compiled(pattern).search(line, at)
            if match and (best is None or match.start() < best[0].start()):
                best = (match, rule)
        return best

    def line(self, stack, line):
        """The tokens of a line, as places, ends and scopes; the stack is left as the next line begins with it."""
        found, at = [], 0
        while True:
            best = self.next(stack, line, at)
            if best is None:
                return found
            match, rule = best
            if rule == 'end':
                closed = stack.pop()
                scope = closed.get('endCaptures', {}).get('0', {}).get('name')
            elif 'begin' in rule:
                stack.append(rule)
                scope = rule.get('beginCaptures', {}).get('0', {}).get('name')
            else:
                scope = rule['name']
            if scope and match.end() > match.start():
                found.append((match.start(), match.end(), scope))
            at = match.end()
            if match.end() == match.start() and rule != 'end':
                at += 1

    def tokens(self, text):
        """The tokens of a text, as places and scopes."""
        found, stack, start = [], [], 0
        for line in text.split('\n'):
            found += [(start + first, start + last, scope) for first, last, scope in self.line(stack, line)]
            start += len(line) + 1
        return found
