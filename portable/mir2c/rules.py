"""The rules of the translation, one small function for each constructor of MIR, found by class and name.

The classes are those of logic/Mir/Syntax.antt: type, step, operand, op2, op1, rvalue, constant, statement. A
constructor without a rule is refused: nothing is guessed.
"""
import json

RULES = {}


def refuse(*why):
    raise SystemExit('mir2c: ' + ' '.join(str(part) for part in why))


def rule(kind, *names):
    """Enters a function as the rule of these constructors."""
    def enter(function):
        for name in names:
            if (kind, name) in RULES:
                refuse('two rules for', kind, name)
            RULES[kind, name] = function
        return function
    return enter


def split(node):
    """Name and contents of a constructor: mir.json has "Name" or {"Name": contents}."""
    if isinstance(node, str):
        return node, None
    if isinstance(node, dict) and len(node) == 1:
        return next(iter(node.items()))
    return refuse('expected a constructor, found', json.dumps(node)[:80])


def apply(kind, node, *context):
    """What the constructor's rule makes of its contents."""
    name, contents = split(node)
    if (kind, name) not in RULES:
        refuse('no rule for', kind, name)
    return RULES[kind, name](*context, contents)
