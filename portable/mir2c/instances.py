"""The functions of the proved crates, and the instances of the generic ones: arguments take the place of a function's
types and dictionaries (logic/Mir/Inst.antt). Each instance has a name of its own, and is a function like any other."""
import json
import os

from c_types import erase, identifier
from generics import brief, put_in, suffix
from rules import refuse, split

DROP = 'core::marker::Destruct'
# The dictionary of a type whose values end without a trace: each crate has an impl of its own that does nothing.
NO_DROP = {'Impl': ['', [], []]}
# What a function may consist of that does nothing.
IDLE = {'Skip', 'Seq', 'Block', 'Exit', 'If', 'Switch', 'Return'}


class Functions(dict):
    """The functions by name. A call in them names an instance: {'Call': [name, operands, place]}. A crate's MIR is read
    when one of its functions is asked for first: mir.json is what is proved and compiled."""

    def __init__(self, folders):
        super().__init__()
        self.folders, self.crates = folders, set()
        self.sources, self.impls = {}, {}   # functions as they stand in MIR; each impl's trait and methods
        self.parts, self.names = {}, {}     # an instance's symbol and arguments by its name, and the name by those

    def __missing__(self, name):
        self[name] = self.instance(*self.parts.get(name, (name, [], [])))
        return self[name]

    def source(self, symbol):
        """A function as it stands in its crate's MIR."""
        crate = symbol.split('::')[0]
        if crate not in self.crates:
            self.read(crate)
        return self.sources.get(symbol) or refuse('no function', symbol)

    def read(self, crate):
        places = [os.path.join(folder, file) for folder in self.folders
                  for file in (crate + '.json', os.path.join(crate + '.rlib', 'toolchain', 'mir.json'))]
        found = [path for path in places if os.path.exists(path)]
        if crate in self.crates or len(found) != 1:
            refuse('crates named', crate, found)
        self.crates.add(crate)
        with open(found[0], encoding='utf-8') as file:
            self.sources.update(json.load(file))
        for symbol, function in self.sources.items():
            if symbol.split('::')[0] == crate:
                self.learn(function['generics']['impls'])

    def learn(self, impls):
        """The impls that a function's dictionaries name; all functions have to agree."""
        for one in impls:
            known = one['of']['of'], one['methods']
            if self.impls.setdefault(one['name'], known) != known:
                refuse('two impls named', one['name'])

    def instance(self, symbol, types, dicts):
        """The function at these arguments."""
        source = self.source(symbol)
        wanted = len(source['generics']['types']), len(source['generics']['bounds'])
        if wanted != (len(types), len(dicts)):
            refuse(symbol, 'takes', *wanted, 'types and dictionaries, and is given', len(types), len(dicts))
        locals_, body = source['locals'], source['body']
        if types or dicts:
            locals_, body = put_in(locals_, types, dicts), put_in(body, types, dicts)
        return dict(source, locals=locals_, body=[self.resolved(node) for node in body])

    def resolved(self, node):
        """A statement, of which a call names an instance. A drop that does nothing is left out."""
        if not (isinstance(node, dict) and 'Call' in node):
            return node
        callee, operands, to = node['Call']
        symbol, types, dicts = self.called(callee)
        if symbol is None:
            return 'Skip'
        return {'Call': [self.name(symbol, erase(types), self.dictionaries(dicts)), operands, to]}

    def called(self, callee):
        """The function that a call names, None for an idle drop, and its arguments: a method takes its impl's and then
        its own."""
        how, inside = split(callee)
        if how == 'Fn':
            return inside[0], inside[1]['types'], inside[1]['dicts']
        if how != 'Method':
            refuse('call', callee)
        dictionary, n, own = inside
        dictionary, = self.dictionaries([dictionary])
        if dictionary == NO_DROP:
            return None, [], []
        name, types, dicts = dictionary['Impl']
        return self.methods(name)[n], types + own['types'], dicts + own['dicts']

    def methods(self, impl):
        return self.impls[impl][1] if impl in self.impls else refuse('no impl', impl)

    def dictionaries(self, dicts):
        """Dictionaries in one form each."""
        found = []
        for one in dicts:
            name, types, own = one.get('Impl') or refuse('dictionary', one)
            if name:
                one = {'Impl': [name, erase(types), self.dictionaries(own)]}
                one = NO_DROP if self.is_idle_drop(*one['Impl']) else one
            found.append(one)
        return found

    def is_idle_drop(self, impl, types, dicts):
        drop, = self.methods(impl) if self.impls.get(impl, [None])[0] == DROP else [None]
        if drop is None:
            return False
        function = self[self.name(drop, types, dicts)]
        return all(is_idle(node) for node in function['body']) and function['locals'][0]['ty'] == 'Unit'

    def name(self, symbol, types, dicts):
        """An instance's name, which tells its types. Where another has that name, a number tells it apart."""
        if not types and not dicts:
            return symbol
        parts = json.dumps([symbol, types, dicts])
        if parts not in self.names:
            base, count = symbol + suffix(types), 0
            name = base
            while name == symbol or name in self.parts:
                count += 1
                name = f'{base}_{count}'
            self.names[parts], self.parts[name] = name, (symbol, types, dicts)
        return self.names[parts]


def is_idle(node):
    """Whether a statement changes nothing but a local."""
    name, inside = split(node)
    if name == 'Assign':
        return not any('Deref' in step for step in inside[0]['steps']) and split(inside[1])[0] == 'Opd'
    return name in IDLE
