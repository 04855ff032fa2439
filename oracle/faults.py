"""A fault of a C0 source, explained: its place, the expression with its values, and the chain of calls."""
from oracle import values
from oracle.c0.meaning import Fault
from oracle.c0.tree import Function, Node


def explained(source, meaning, fault):
    """The file, the line, the expression, why it is a fault, and the calls, the first one first, each as (name, arguments, line that is done)."""
    node = fault.node
    at = node.span[0] if node is not None else meaning.unit.functions['dispatch'].name_span[0] if 'dispatch' in meaning.unit.functions else 0
    return dict(file=source.name, line=source.line(at), text=source.part(node.span) if node is not None else '', why=why(source, meaning, fault),
                chain=chain(source, meaning), place=at)


def why(source, meaning, fault):
    """The values that make it a fault, in words."""
    node = fault.node
    if fault.kind == 'stack':
        return want_of_stack(meaning, node)
    if fault.kind == 'bounds':
        index = quiet(meaning, node.parts[1])
        length = quiet_type(meaning, node.parts[0])[2]
        return '%s is %d, and the length is %d' % (named('the index', source, node.parts[1]), index, length)
    if fault.kind == 'null':
        inner = node.parts[1] if node.kind == 'un' else node.parts[0]
        return '%s is null' % source.part(inner.span)
    return '%s is 0' % named('the divisor', source, node.parts[2])


def named(what, source, node):
    return '%s, %s,' % (what, source.part(node.span)) if node.kind != 'num' else what


def want_of_stack(meaning, node):
    name = node.parts[1][0] if node is not None else 'dispatch'
    size = meaning.unit.layout(meaning.unit.functions[name])[2] if name in meaning.unit.functions else 0
    return 'the frame of %s has %d words, and %d of the %d of the stack are used' % (name, size, meaning.used, meaning.stack)


def quiet(meaning, e):
    """The value of an expression that is no fault; expressions change nothing."""
    return meaning.value(e)[1]


def quiet_type(meaning, e):
    return meaning.place(e)[0]


def parts_of(source, meaning, e):
    """The values of the variables, fields and elements of an expression, each as it is written, as far as they have one."""
    found = {}

    def visit(e):
        for part in e.parts:
            if isinstance(part, Node):
                visit(part)
        if e.kind in ('var', 'field', 'arrow', 'index'):
            try:
                t, v = meaning.value(e)
            except (Fault, TypeError):
                return
            if t[0] not in ('array', 'struct'):
                found[source.part(e.span)] = values.scalar(meaning.unit, t, v, meaning.objects)

    visit(e)
    return list(found.items())


def chain(source, meaning):
    """The functions that run, the first one first: name, arguments as texts, and the line that is done in each."""
    calls = []
    for frame in meaning.frames:
        f = frame.function
        args = ['%s = %s' % (x[0], values.scalar(meaning.unit, t, v, meaning.objects)) for (t, _, x), v in zip(f.params, frame.args)]
        at = frame.at
        place = at.return_at if isinstance(at, Function) else at.span[0] if at is not None else f.name_span[0]
        calls.append((f.name, args, source.line(place)))
    return calls
