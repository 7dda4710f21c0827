"""Arguments in place of the parameters of generic types and functions, and the names of what comes of it."""
import re

from rules import refuse, split


def nth(arguments, i):
    return arguments[i] if i < len(arguments) else refuse('no argument for parameter', i)


def put_in(node, types, dicts):
    """Part of MIR with types and numbers for its parameters and dictionaries for those that it is given."""
    if isinstance(node, list):
        return [put_in(part, types, dicts) for part in node]
    if not isinstance(node, dict):
        return node
    if 'Param' in node:
        return nth(types, node['Param'])
    if 'Given' in node:
        return nth(dicts, node['Given'])
    made = {name: put_in(part, types, dicts) for name, part in node.items()}
    for counted in {'Array', 'Repeat'} & set(made):
        made[counted][1] = as_length(made[counted][1])
    return made


def as_length(count):
    """A number that was put in for a length is a literal like any other."""
    return {'Lit': count['Const']} if isinstance(count, dict) and 'Const' in count else count


def suffix(types):
    """What the name of an instance ends with."""
    return '_of_' + '_'.join(brief(ty) for ty in types) if types else ''


def brief(ty):
    """A type's name within that of an instance: of a path the last part, of a closure those after its module's."""
    name, inside = split(ty)
    if name == 'Named':
        path = re.sub(r'^\(,*\)$', 'tuple', inside[0]['name'])
        path = path.removesuffix('+Self').split('::fn::')[-1] if path.endswith('+Self') else path.split('::')[-1]
        return '_'.join([re.sub(r'\W+', '_', path)] + [brief(argument) for argument in inside[1]])
    if name == 'Ref':
        return 'ref_' + brief(inside[2])
    if name == 'Array':
        return f'array_{brief(inside[0])}_{split(inside[1])[1]}'
    if name == 'Struct':
        return 'slice_' + brief(inside[1][0]['Ref'][2]) if inside[0] == '&[]' else re.sub(r'\W+', '_', inside[0])
    return {'Int': f'u{inside}', 'Float': f'f{inside}', 'Const': f'{inside}'}.get(name, name.lower())
