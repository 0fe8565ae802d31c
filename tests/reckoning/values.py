"""What operators make of values. A value is its kind and what it is: ("whole", 3), ("truth", True), ("text", b"a"), ("time", 10**12), .."""
from ned import L, R, T

QUANTITIES = (T, R, L)


class Fault(Exception):
    """A fault of the model or of the run, by its name; of a module, where a path is given."""

    def __init__(self, name, path=None):
        super().__init__(name)
        self.name, self.path = name, path


def bounded(kind, amount):
    if not -(2**63) <= amount < 2**63:
        raise Fault("Overflow")
    return (kind, amount)


def one(operator, value):
    kind, it = value
    if operator == "!" and kind == "truth":
        return ("truth", not it)
    if operator == "~" and kind == "whole":
        return ("whole", ~it)
    if operator == "-" and kind in ("whole", *QUANTITIES):
        return bounded(kind, -it)
    raise Fault("Mismatch")


def remainder(left, right):
    """The remainder with the sign of the left side."""
    if right == 0:
        raise Fault("Inexact")
    return abs(left) % abs(right) * (-1 if left < 0 else 1)


def quotient(left, right):
    if right == 0 or left % right:
        raise Fault("Inexact")
    return left // right


def power(base, exponent):
    if exponent < 0:
        raise Fault("Inexact")
    if abs(base) > 1 and exponent > 64:
        raise Fault("Overflow")
    return base ** (exponent if abs(base) > 1 else min(exponent, 2 + exponent % 2))


def shifted(operator, left, right):
    if not 0 <= right <= 63:
        raise Fault("Overflow")
    return left << right if operator == "<<" else left >> right


def two(operator, left, right):
    """What an operator with two sides, min or max, makes of both values."""
    (kind, a), (other, b) = left, right
    alike = kind == other
    if operator in ("==", "!=") and alike:
        return ("truth", (a == b) == (operator == "=="))
    if operator in ("<", "<=", ">", ">=") and alike and kind != "truth":
        return ("truth", {"<": a < b, "<=": a <= b, ">": a > b, ">=": a >= b}[operator])
    if operator == "##" and alike and kind == "truth":
        return ("truth", a != b)
    if operator in ("min", "max") and alike and kind in ("whole", *QUANTITIES):
        return (kind, min(a, b) if operator == "min" else max(a, b))
    if operator == "+" and alike and kind == "text":
        return ("text", a + b)
    if operator in ("+", "-") and alike and kind in ("whole", *QUANTITIES):
        return bounded(kind, a + b if operator == "+" else a - b)
    if operator == "%" and alike and kind in ("whole", *QUANTITIES):
        return (kind, remainder(a, b))
    if operator == "/" and alike and kind in ("whole", *QUANTITIES):
        return bounded("whole", quotient(a, b))
    if operator == "/" and kind in QUANTITIES and other == "whole":
        return bounded(kind, quotient(a, b))
    if operator == "*" and "whole" in (kind, other) and {kind, other} <= {"whole", *QUANTITIES}:
        return bounded(other if kind == "whole" else kind, a * b)
    if alike and kind == "whole" and operator in ("|", "&", "#"):
        return ("whole", {"|": a | b, "&": a & b, "#": a ^ b}[operator])
    if alike and kind == "whole" and operator in ("<<", ">>"):
        return bounded("whole", shifted(operator, a, b))
    if alike and kind == "whole" and operator == "^":
        return bounded("whole", power(a, b))
    raise Fault("Mismatch")


def truth(value):
    if value[0] != "truth":
        raise Fault("Mismatch")
    return value[1]


def whole(value):
    if value[0] != "whole":
        raise Fault("Mismatch")
    return value[1]


def evaluate(expression, asked):
    """The value of an expression; `asked` gives that of what refers."""
    kind = expression[0]
    if kind == "value":
        return expression[1]
    if kind == "one":
        return one(expression[1], evaluate(expression[2], asked))
    if kind == "choice":
        return evaluate(expression[2 if truth(evaluate(expression[1], asked)) else 3], asked)
    if kind == "two" and expression[1] in ("&&", "||"):
        decides = expression[1] == "||"
        left = truth(evaluate(expression[2], asked))
        return ("truth", left if left == decides else truth(evaluate(expression[3], asked)))
    if kind == "two":
        left = evaluate(expression[2], asked)
        return two(expression[1], left, evaluate(expression[3], asked))
    return asked(expression)
