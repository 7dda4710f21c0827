"""The whole program: the functions that the exported calls reach, callees first, in one file."""
import os
import sys

import exports
from c_types import Types
from functions import Function
from instances import Functions
from rules import split

# A function of fewer assignments and calls than this becomes part of its callers.
INLINE_MOST = 250
# So does one that is called at one place alone with more arguments than this,
ARGUMENTS_MOST = 12
# and a leaf that is, whose result has more bytes than this: three numbers and a tag, eight bytes each.
RESULT_MOST = 32
TOOLCHAIN = 'core::'
HERE = os.path.dirname(os.path.abspath(__file__))


def callees(function):
    return [node['Call'][0] for node in function['body'] if isinstance(node, dict) and 'Call' in node]


def is_copy(node):
    return 'Assign' in node and split(node['Assign'][1])[0] == 'Opd'


class Program:
    def __init__(self, header, folders):
        self.functions = Functions(folders)
        self.types = Types()
        self.prototypes = exports.prototypes(header)
        self.order, self.declared_first = [], set()
        self.calls, self.weights = {}, {}

    def visit(self, name, open_):
        """Callees first; one that is still open, a recursion, is declared before."""
        if name in open_:
            self.declared_first.add(name)
        elif name not in self.calls:
            self.calls[name] = 0
            for callee in callees(self.functions[name]):
                self.visit(callee, open_ | {name})
                self.calls[callee] += 1
            self.order.append(name)

    def weigh(self, name):
        """How many assignments and calls a function has, with those of the callees that are small enough to become part
        of it. Not counted are copies in the toolchain's library, which hands values from one small function to the
        next."""
        counted = [node for node in self.functions[name]['body'] if split(node)[0] in ('Assign', 'Call')]
        own = len([node for node in counted if not (name.startswith(TOOLCHAIN) and is_copy(node))])
        within = [self.weights.get(callee, INLINE_MOST) for callee in callees(self.functions[name])]
        weight = own + sum(weight for weight in within if weight < INLINE_MOST)
        apart = name in self.declared_first or Function(name, self).is_big()
        self.weights[name] = INLINE_MOST if apart else weight

    def is_leaf(self, name):
        """Whether no loop and no call is left in it, once the small functions have become part of it."""
        function = self.functions[name]
        return 'Loop' not in function['body'] and all(self.weights[callee] < INLINE_MOST and self.is_leaf(callee)
                                                      for callee in callees(function))

    def is_part(self, function):
        """Whether it becomes part of its only caller though it isn't small, as what they hand each other would go
        through memory at each call. One with many arguments is a turn of a loop over queries, and gcc makes a clone of
        it for each grid. A leaf with a wide result is a check that is asked at once how it went."""
        name = function.name
        if self.calls[name] != 1 or name in self.declared_first:
            return False
        if len(function.parameters()) > ARGUMENTS_MOST:
            return True
        return self.types.size(function.local(0)) > RESULT_MOST and self.is_leaf(name)

    def storage(self, function):
        """Big frames stay apart, so that no call needs more stack than the header says; small functions become part of
        their callers, which gcc does too rarely by itself."""
        if function.is_big():
            return 'APART '
        inline = self.weights[function.name] < INLINE_MOST or self.is_part(function)
        return 'INLINE ' if inline else ''

    def text(self):
        sys.setrecursionlimit(10000)
        for prototype in self.prototypes:
            self.visit(exports.symbol_of(self, prototype.name), frozenset())
        for name in self.order:
            self.types.learn(self.functions[name]['types'])
        for name in self.order:
            self.weigh(name)
        heads = [Function(name, self).head() + ';' for name in sorted(self.declared_first)]
        bodies = [line for name in self.order for line in Function(name, self).text()]
        calls = [line for prototype in self.prototypes for line in exports.definition(self, prototype)]
        with open(os.path.join(HERE, 'prelude.c'), encoding='utf-8') as file:
            prelude, lent = file.read().split('/* types */\n')
        types, functions = '\n'.join(self.types.declarations), '\n'.join(heads + [''] + bodies + calls)
        before, unreachable, after = prelude.split('/* unreachable */\n')
        prelude = before + unreachable * ('UNREACHABLE;' in functions) + after
        return prelude + types + '\n' + lent + '\n' + functions
