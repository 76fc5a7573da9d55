"""Rows that know where they stand: a failed row names its file and line.

In the modules that are imported after `install()`, from below tests/, each tuple that is written out is a `Placed`:
a tuple with the line on which it begins. So a row of a table has the line of the row, and a row that a generator
makes has the line of the tuple in the generator.
"""

import ast
import importlib.abc
import importlib.machinery
import os
import sys

HERE = os.path.dirname(os.path.abspath(__file__))
TESTS = os.path.dirname(HERE)
TOP = os.path.dirname(TESTS)


class Placed(tuple):
    """A tuple with a `place`, which is a file and a line."""


def placed(items, place):
    row = Placed(items)
    row.place = place
    return row


class WithPlaces(ast.NodeTransformer):
    """Makes each tuple of a module a call of `placed`."""

    def __init__(self, file):
        self.file = file

    def visit_Tuple(self, node):
        self.generic_visit(node)
        if not isinstance(node.ctx, ast.Load):
            return node
        place = ast.Constant(f"{self.file}:{node.lineno}")
        function = ast.Name("_placed", ast.Load())
        return ast.copy_location(ast.Call(function, [node, place], []), node)

    def visit_ExceptHandler(self, node):
        """The kinds of errors of a handler stay as they are."""
        for statement in node.body:
            self.visit(statement)
        return node


class Loader(importlib.machinery.SourceFileLoader):
    """Loads a module with the places of its tuples."""

    def get_code(self, fullname):
        source = self.get_data(self.path)
        return self.source_to_code(source, self.path)

    def source_to_code(self, data, path, *, _optimization=-1):
        tree = WithPlaces(os.path.relpath(path, TOP)).visit(ast.parse(data, path))
        return compile(ast.fix_missing_locations(tree), path, "exec", dont_inherit=True)

    def exec_module(self, module):
        module._placed = placed
        super().exec_module(module)


class Finder(importlib.abc.MetaPathFinder):
    """Finds the modules of tests/ and of tests/programs/, and the tables of tests/support/."""

    def find_spec(self, fullname, path, target=None):
        spec = importlib.machinery.PathFinder.find_spec(fullname, path, target)
        if spec is None or spec.origin is None or not spec.origin.startswith(f"{TESTS}/") or not spec.has_location:
            return None
        spec.loader = Loader(fullname, spec.origin)
        return spec


def install():
    """Lets the modules that are imported from now on have places."""
    sys.meta_path.insert(0, Finder())
