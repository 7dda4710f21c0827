"""MIR's rvalues and statements. A body is a list in prefix order: a statement, then those that it holds."""
from c_types import length
from constants import held, initializer
from operations import op1, op2
from places import converted, operand, place, same
from rules import apply, refuse, rule, split

# ---- rvalues: each assigns one to a place `to` (its C text and its type)


@rule('rvalue', 'Opd')
def plain(function, to, node):
    function.put(f'{to.text} = {converted(function, operand(function, node), to.type)};')


@rule('rvalue', 'Op2')
def of_two(function, to, node):
    a, b = operand(function, node[1]), operand(function, node[2])
    function.put(f'{to.text} = {converted(function, op2(function, node[0], a, b), to.type)};')
    function.note(split(node[0])[0], to.text, a.text, b.text)


@rule('rvalue', 'Op1')
def of_one(function, to, node):
    x = op1(function, node[0], operand(function, node[1]))
    function.put(f'{to.text} = {converted(function, x, to.type)};')


@rule('rvalue', 'AddrOf')
def address(function, to, node):
    function.put(f'{to.text} = ({function.types.c(to.type)})(void *)&{place(function, node).text};')


@rule('rvalue', 'Aggregate')
def aggregate(function, to, node):
    """A struct of these fields, an array of these elements, or an enum of this tag and then these fields."""
    names, wanted = held(function.types, to.type, node)
    values = [converted(function, operand(function, part), ty) for part, ty in zip(node, wanted, strict=True)]
    function.put(f'{to.text} = ({function.types.c(to.type)}){initializer(names, values, wanted)};')


@rule('rvalue', 'Repeat')
def repeat(function, to, node):
    """An array of equal elements; the operand is a constant here, so that it does not matter when it is evaluated."""
    x, count = operand(function, node[0]), length(node[1])
    name, inside = split(to.type)
    if name != 'Array' or length(inside[1]) != count or 'Copy' in node[0]:
        refuse('repeat', node)
    same(x.type, inside[0])
    function.put(f'for (size_t i = 0; i < {count}; i++)')
    function.put(f'    {to.text}.e[i] = {x.text};')


# ---- statements: each puts its lines and gives the index in the body after it


def statement(function, at):
    return apply('statement', function.body[at], function, at)


def indented(function, at):
    function.depth += 1
    after = statement(function, at)
    function.depth -= 1
    return after


@rule('statement', 'Skip')
def skip(_, at, __):
    return at + 1


@rule('statement', 'Seq')
def seq(function, at, _):
    return statement(function, statement(function, at + 1))


@rule('statement', 'Assign')
def assign(function, at, node):
    """The unit value is nothing in C."""
    to = place(function, node[0])
    if to.type != 'Unit':
        apply('rvalue', node[1], function, to)
    elif split(node[1])[0] != 'Opd':
        refuse('unit from', node[1])
    return at + 1


@rule('statement', 'LendStatic')
def lend_static(function, at, node):
    """A reference to a constant, which lies in memory that is never written. C's static objects are such."""
    to, ty, value = place(function, node[0]), node[1], apply('constant', node[2], function.types, node[1])
    same(split(to.type)[1][2], ty, function.name)
    name = f'l{node[0]["local"]}_{at}'
    function.put(f'static const {function.types.c(ty)} {name} = {value};')
    function.put(f'{to.text} = ({function.types.c(to.type)})(void *)&{name};')
    return at + 1


@rule('statement', 'Call')
def call(function, at, node):
    """A direct call, the only kind; a unit is not passed on."""
    callee = node[0]
    wanted = [local['ty'] for local in function.callee(callee)['locals'][:1 + len(node[1])]]
    values = [operand(function, part) for part in node[1]]
    if len(values) != function.callee(callee)['params']:
        refuse('arguments of', callee)
    passed = [converted(function, x, ty) for x, ty in zip(values, wanted[1:]) if ty != 'Unit']
    to = place(function, node[2])
    same(to.type, wanted[0], callee)
    text = f'{function.symbol(callee)}({", ".join(passed)});'
    function.put(text if to.type == 'Unit' else f'{to.text} = {text}')
    return at + 1


@rule('statement', 'Return')
def return_(function, at, _):
    function.put('return;' if function.local(0) == 'Unit' else 'return l0;')
    return at + 1


@rule('statement', 'Unreachable')
def unreachable(function, at, _):
    """Where the machine is stuck; that it does not come here is proved."""
    function.put('UNREACHABLE;')
    return at + 1


def second_of_and(function, at, node):
    """b of `a && b` where b is one operation of two numbers, else None. MIR has it as x = a; if (x) { x = b }."""
    (name, then), other = split(function.body[at + 1]), function.body[at + 2]
    if other != 'Skip' or name != 'Assign' or {'Copy': then[0]} != node:
        return None
    value, parts = split(then[1])
    return parts if value == 'Op2' else None


@rule('statement', 'If')
def if_(function, at, node):
    """An `&&` with an operation stays an `&&`: gcc then makes the two ends of an interval one comparison."""
    condition = operand(function, node)
    same(condition.type, 'Bool')
    second = second_of_and(function, at, node)
    if second is not None:
        b = op2(function, second[0], operand(function, second[1]), operand(function, second[2]))
        function.put(f'{condition.text} = ({condition.text} && {converted(function, b, condition.type)});')
        return at + 3
    function.put(f'if ({condition.text}) {{')
    middle = indented(function, at + 1)
    mark = len(function.lines)
    function.put('} else {')
    after = indented(function, middle)
    if len(function.lines) == mark + 1:
        function.lines.pop()
    function.put('}')
    return after


@rule('statement', 'Switch')
def switch(function, at, node):
    """The last arm takes what is left. It is the default, or else the machine is stuck where no key matches, which is
    proved not to happen."""
    value, arms, default = node
    arms = arms + [[]] * default
    function.put(f'switch ({operand(function, value).text}) {{')
    at += 1
    for n, keys in enumerate(arms):
        cases = [f'case {key}:' for key in keys] + ['default:'] * (n == len(arms) - 1)
        function.put(' '.join(cases) + ' {')
        at = indented(function, at)
        function.put('    break;')
        function.put('}')
    function.put('}')
    return at


# Blocks and loops are numbered from the innermost, 0, outwards. `Exit n` leaves the n-th: a block goes on after it, a
# loop takes its next turn. In C it is a goto to a label at the end of either.


@rule('statement', 'Block')
def block(function, at, _):
    function.enter()
    after = statement(function, at + 1)
    function.leave()
    return after


@rule('statement', 'Loop')
def loop(function, at, _):
    """Turns for ever, until a return or an exit out of it."""
    function.put('for (;;) {')
    function.enter()
    after = indented(function, at + 1)
    function.leave()
    function.put('}')
    return after


@rule('statement', 'Exit')
def exit_(function, at, n):
    function.put(f'goto {function.label(n)};')
    return at + 1
