#!/usr/bin/env python3
"""Compare a program with the expected outputs in tools/cases.txt and examples/.

    python3 tools/compare.py                                 the reference program
    python3 tools/compare.py crates/rehearse/out/rehearse    any other program, with arguments

Each input goes to the program's standard input. Output must be equal byte for
byte and the status 0. Ends with status 1 if any comparison fails.
"""
import ast
import pathlib
import subprocess
import sys

TOOLS = pathlib.Path(__file__).resolve().parent


def value(node):
    """Bytes literals joined by + and repeated by a number."""
    if isinstance(node, ast.Constant) and type(node.value) in (bytes, int):
        return node.value
    if isinstance(node, ast.BinOp) and isinstance(node.op, ast.Add):
        return value(node.left) + value(node.right)
    if isinstance(node, ast.BinOp) and isinstance(node.op, ast.Mult):
        return value(node.left) * value(node.right)
    raise ValueError("not an input expression")


def cases():
    """Name, input and output of each block of cases.txt and each example."""
    text = (TOOLS / "cases.txt").read_text()
    kept = [line for line in text.split("\n") if not line.startswith("#")]
    for block in "\n".join(kept).split("\n\n"):
        lines = block.strip("\n").split("\n")
        if lines == [""]:
            continue
        name, given, out = lines[:3]
        if not (name.startswith("name: ") and given.startswith("input: ")
                and out == "output:"):
            raise ValueError(f"a malformed block: {lines[0]}")
        tree = ast.parse(given[len("input: "):], mode="eval")
        yield (name[len("name: "):], value(tree.body),
               "".join(line + "\n" for line in lines[3:]).encode())
    for path in sorted((TOOLS.parent / "examples").glob("*.txt")):
        yield path.name, path.read_bytes(), path.with_suffix(".out").read_bytes()


def main():
    program = sys.argv[1:] or [sys.executable, str(TOOLS / "rehearse.py")]
    count = failed = 0
    for name, given, expected in cases():
        count += 1
        run = subprocess.run(program, input=given, capture_output=True)
        if run.returncode != 0 or run.stdout != expected:
            failed += 1
            print(f"differs: {name} (status {run.returncode})")
            print(f"  expected {expected[:400]!r}")
            print(f"  printed  {run.stdout[:400]!r}")
    print(f"{count} compared, {failed} differ")
    return 1 if failed else 0


if __name__ == "__main__":
    sys.exit(main())
