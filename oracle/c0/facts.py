"""What is known of a function's variables where a part of its code stands, after docs/COMPILER.md ("What is known of variables")."""
from collections import namedtuple

ANSWER, ARGUMENTS = 2, 20
WATCHED = 64        # so many of a function's variables may be known as other than null


class Facts(namedtuple('Facts', 'params answer sure')):
    """By their numbers: the parameters in the frame that stand in their argument registers too; the variable in the frame whose word r2 has, or None; and
    the variables that surely aren't null."""

    def register(self, number):
        """The register that has the word of a variable too; None where none has."""
        return ANSWER if self.answer == number else ARGUMENTS + number if number in self.params else None

    def assigned(self, number):
        return Facts(self.params - {number}, None if self.answer == number else self.answer, self.sure - {number})

    def called(self):
        """Behind a call, which changes no variable of the function."""
        return Facts(frozenset(), None, self.sure)

    def renewed(self):
        """Behind `new`."""
        return self._replace(answer=None)

    def answered(self, number):
        return self._replace(answer=number)

    def overwritten(self, count):
        """Where so many arguments have gone to their registers."""
        return self._replace(params=frozenset(number for number in self.params if number >= count))

    def found(self, number):
        """Where a variable isn't null; None is no variable."""
        return self if number is None or number >= WATCHED else self._replace(sure=self.sure | {number})


NOTHING = Facts(frozenset(), None, frozenset())


class Knowing:
    """What becomes known in a function, whose `variables` are by name, each with its number first."""
    variables, in_registers = {}, False

    def begins(self, f):
        """What is known where a function begins."""
        return NOTHING if self.in_registers else NOTHING._replace(params=frozenset(range(len(f.params))))

    def number(self, e):
        """The number of the parameter or local that an expression is; None where it is none."""
        return self.variables[e.parts[0]][0] if e.kind == 'var' and e.parts[0] in self.variables else None

    # ---- of expressions
    def followed(self, e, facts):
        """What is known once an expression has a value or a place: it surely followed some variables."""
        for part in inside(e)[:1] if decides(e) else inside(e):
            facts = self.followed(part, facts)
        return facts.found(self.number(inside(e)[0])) if e.kind == 'arrow' or e.kind == 'un' and e.parts[0] == '*' else facts

    def told(self, e, s, facts):
        """What is known once a test came out as s."""
        op = e.parts[0] if e.kind in ('un', 'bin') else None
        if op == '!':
            return self.told(e.parts[1], not s, facts)
        if decides(e) and s == (op == '&&'):
            return self.told(e.parts[2], s, self.told(e.parts[1], s, facts))
        facts = self.followed(e, facts)
        return facts.found(self.number(e.parts[1])) if op in ('==', '!=') and s == (op == '!=') and e.parts[2].kind == 'null' else facts

    def beside(self, e, facts):
        """What is known on the right side of an operator."""
        return self.told(e.parts[1], e.parts[0] == '&&', facts) if decides(e) else facts

    # ---- of statements
    def each(self, statements, facts):
        """The statements, each with what is known before it."""
        for s in statements:
            yield s, facts
            facts = self.behind(s, facts)

    def behind_all(self, statements, facts):
        for s in statements:
            facts = self.behind(s, facts)
        return facts

    def behind(self, s, facts):
        """What is known behind a statement."""
        if s.kind == 'if':
            return self.changed([s], self.followed(s.parts[0], facts))
        if s.kind == 'while':
            return self.followed(s.parts[0], self.turning(s, facts))
        place = s.parts[0]
        for e in s.parts[1:2] if s.kind == 'assign' else s.parts[2] if s.kind == 'call' else ():
            facts = self.followed(e, facts)
        facts = self.stored_to(place, self.followed(place, self.left(s, facts)))
        return facts if s.kind != 'call' or self.number(place) is None or self.in_registers else facts.answered(self.number(place))

    def turning(self, s, facts):
        """What is known at each test of a loop."""
        return self.changed(s.parts[1], facts)

    def changed(self, statements, facts):
        """What is left of facts where statements have been done, or not: no fact is added."""
        for s in statements:
            if s.kind in ('if', 'while'):
                facts = self.changed(s.parts[2], self.changed(s.parts[1], facts))
            else:
                facts = self.stored_to(s.parts[0], self.left(s, facts))
        return facts

    def left(self, s, facts):
        """What is left of facts before a statement stores to its place."""
        return facts.called() if s.kind == 'call' else facts.renewed() if s.kind == 'new' else facts

    def stored_to(self, place, facts):
        return facts if self.number(place) is None else facts.assigned(self.number(place))


def inside(e):
    """The expressions that an expression is made of, from left to right."""
    return e.parts if e.kind == 'index' else e.parts[1:] if e.kind in ('un', 'bin') else e.parts[:1] if e.kind in ('field', 'arrow') else ()


def decides(e):
    """Whether the left side of an operator may decide alone."""
    return e.kind == 'bin' and e.parts[0] in ('&&', '||')
