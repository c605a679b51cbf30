"""Writes Visual Basic source of one size for the measurements.

Usage: source.py lines|module BYTES FILE. `lines` has lines of every kind, in no order; `module` is one module of functions,
which breaks no rule on lines and blocks.
"""
import random
import sys

random.seed(7)
WORDS = (
    "count total index value name text line item first last next order price limit owner buffer state worker result number"
).split()
NAMES = sorted({(random.choice(WORDS) + random.choice(WORDS).capitalize())[: random.randint(5, 15)] for _ in range(2000)})


def n():
    return random.choice(NAMES)


def number(most):
    return random.randint(0, most)


FRONT = [
    lambda: f"    Public Shared Function {n()}(ByVal {n()} As String, ByRef {n()} As Long) As Boolean",
    lambda: f"        Dim {n()} As Integer = {number(100000)}",
    lambda: f"        {n()} = {n()} + {n()} * {number(99)} - &H{number(65535):X}",
    lambda: f'        Console.WriteLine("the {n()} is " & {n()} & " of {number(999)}")',
    lambda: f"        ' the {n()} of each {n()} is kept until the {n()} ends",
]
FOR = lambda: f"        For {n()} As Integer = 0 To {n()}.{n()}({n()}, {n()}) - 1"
CALLS = [
    lambda: f'            {n()}.{n()}({n()}, "{n()}", {n()}({number(9)}), {number(9)}UL) \' done',
    lambda: f"            {n()}({n()} _",
    lambda: f"                , {n()})",
]
BACK = [
    lambda: f"        Next {n()}",
    lambda: f"        Return {n()} AndAlso {n()} < {number(9)}",
    lambda: "    End Function",
    lambda: "",
]
IF = lambda: f"            If {n()} <= {n()}.Length AndAlso Not {n()} Then {n()} += 1"
ASSIGNMENT = lambda: f"            {n()} = New {n()}.{n()}({n()}, If({n()}, CInt({n()}), {number(9)}))"
FORMS = {
    "lines": FRONT + [FOR, IF] + CALLS + BACK,
    "module": FRONT
    + [lambda: f"        While {n()} <= {n()}.Length AndAlso Not {n()}"]
    + CALLS
    + [ASSIGNMENT, IF, lambda: f"            {n()}.{n()}() : {n()} = {n()}", lambda: "        End While", FOR]
    + BACK,
}
FIRST = {"lines": "", "module": "Module M\r\n"}
LAST = {"lines": "", "module": "End Module\r\n"}


def main(kind, size, path):
    parts = [FIRST[kind]]
    left = size - len(FIRST[kind]) - len(LAST[kind])
    while True:
        part = "".join(form() + "\r\n" for form in FORMS[kind])
        if len(part) > left:
            break
        parts.append(part)
        left -= len(part)
    parts += ["\n" * left, LAST[kind]]
    with open(path, "w", newline="") as file:
        file.write("".join(parts))


main(sys.argv[1], int(sys.argv[2]), sys.argv[3])
