"""Runs a command of examples/summary.py on many inputs in one process.

The argument is the command. Standard input has the inputs, and standard output gets for each its status, what was printed and the message: each a
four-byte length, low byte first, and as many bytes.
"""

import io
import pathlib
import sys

sys.dont_write_bytecode = True
sys.path.insert(0, str(pathlib.Path(__file__).resolve().parents[4] / "examples"))
import summary


def parts(joined):
    while joined:
        end = 4 + int.from_bytes(joined[:4], "little")
        yield joined[4:end]
        joined = joined[end:]


def run(command, given):
    """Status, printed bytes and message of a command."""
    sys.stdin, sys.stdout, sys.stderr = io.TextIOWrapper(io.BytesIO(given)), io.TextIOWrapper(io.BytesIO()), io.StringIO()
    status = summary.main([command])
    sys.stdout.flush()
    return [bytes([status]), sys.stdout.buffer.getvalue(), sys.stderr.getvalue().encode()]


if sys.argv[1:] == ["--help"]:
    print(__doc__, end="")
    sys.exit(0)
if len(sys.argv) != 2 or sys.argv[1] not in summary.COMMANDS:
    print("many.py: it takes one word, a command of examples/summary.py; many.py --help says more", file=sys.stderr)
    sys.exit(2)
standard_input, standard_output = sys.stdin.buffer, sys.stdout.buffer
for given in parts(standard_input.read()):
    for part in run(sys.argv[1], given):
        standard_output.write(len(part).to_bytes(4, "little") + part)
standard_output.flush()
