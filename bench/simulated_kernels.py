"""Kernels as one simulates them in python: by a program that goes through the text's tree, as python3's own parser gives it,
on a board of `simulated_board`. It takes what the kernels of the bench have: functions, loops, branches, parallel blocks,
integers of 32 and 64 bits."""

import ast
import operator

from simulated_board import Board, Output

OPERATORS = {
    ast.Add: operator.add,
    ast.Sub: operator.sub,
    ast.Mult: operator.mul,
    ast.FloorDiv: operator.floordiv,
    ast.Mod: operator.mod,
    ast.BitAnd: operator.and_,
    ast.BitOr: operator.or_,
    ast.BitXor: operator.xor,
    ast.LShift: operator.lshift,
    ast.RShift: operator.rshift,
    ast.Eq: operator.eq,
    ast.NotEq: operator.ne,
    ast.Lt: operator.lt,
    ast.LtE: operator.le,
    ast.Gt: operator.gt,
    ast.GtE: operator.ge,
}


def wrapped(value):
    """The low 64 bits of a number, signed."""
    return ((value + 2**63) & (2**64 - 1)) - 2**63


class Returned(Exception):
    """A function returns a value."""


class Simulation:
    """A kernel on a board."""

    def __init__(self, text):
        self.functions = {function.name: function for function in ast.parse(text).body}
        self.board = Board()
        self.outputs = {f"ttl{channel}": Output(self.board, channel) for channel in range(16)}
        self.data = {}

    def run(self):
        """The lines of the report of `main`."""
        self.call("main", [])
        lines = self.board.report("ok")
        place = next(place for place, line in enumerate(lines) if line.startswith("lanes"))
        return lines[:place] + [f"data {name} {value}" for name, value in self.data.items()] + lines[place:]

    def call(self, name, arguments):
        function = self.functions[name]
        names = dict(zip((argument.arg for argument in function.args.args), arguments))
        try:
            self.block(function.body, names)
        except Returned as returned:
            return returned.args[0]
        return 0

    def block(self, statements, names):
        for statement in statements:
            self.statement(statement, names)

    def statement(self, statement, names):
        if isinstance(statement, ast.Expr):
            self.value(statement.value, names)
        elif isinstance(statement, ast.Assign):
            names[statement.targets[0].id] = self.value(statement.value, names)
        elif isinstance(statement, ast.AugAssign):
            old = names[statement.target.id]
            names[statement.target.id] = wrapped(OPERATORS[type(statement.op)](old, self.value(statement.value, names)))
        elif isinstance(statement, ast.For):
            for turn in range(*[self.value(bound, names) for bound in statement.iter.args]):
                names[statement.target.id] = turn
                self.block(statement.body, names)
        elif isinstance(statement, ast.If):
            self.block(statement.body if self.value(statement.test, names) else statement.orelse, names)
        elif isinstance(statement, ast.With) and statement.items[0].context_expr.id == "parallel":
            self.parallel(statement.body, names)
        elif isinstance(statement, ast.With):
            self.block(statement.body, names)
        elif isinstance(statement, ast.Return):
            raise Returned(self.value(statement.value, names))
        else:
            raise NotImplementedError(ast.dump(statement))

    def parallel(self, statements, names):
        start = end = self.board.cursor
        for statement in statements:
            self.board.cursor = start
            self.statement(statement, names)
            end = max(end, self.board.cursor)
        self.board.cursor = end

    def value(self, expression, names):
        if isinstance(expression, ast.Constant):
            return expression.value
        if isinstance(expression, ast.Name):
            return names[expression.id]
        if isinstance(expression, ast.BinOp):
            left, right = self.value(expression.left, names), self.value(expression.right, names)
            return wrapped(OPERATORS[type(expression.op)](left, right))
        if isinstance(expression, ast.Compare):
            left, right = self.value(expression.left, names), self.value(expression.comparators[0], names)
            return OPERATORS[type(expression.ops[0])](left, right)
        if isinstance(expression, ast.Call) and isinstance(expression.func, ast.Name):
            return self.named_call(expression.func.id, expression.args, names)
        if isinstance(expression, ast.Call):
            arguments = [self.value(argument, names) for argument in expression.args]
            owner = expression.func.value.id
            return getattr(self.board if owner == "core" else self.outputs[owner], expression.func.attr)(*arguments)
        raise NotImplementedError(ast.dump(expression))

    def named_call(self, name, arguments, names):
        values = [self.value(argument, names) for argument in arguments]
        if name in self.functions:
            return self.call(name, values)
        if name == "set_dataset":
            self.data[values[0]] = values[1]
            return None
        if name == "int64":
            return values[0]
        return getattr(self.board, name)(*values)
