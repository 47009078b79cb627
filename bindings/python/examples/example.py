"""example.py FILE: judges a journal, makes an operation on the machine after its entries, and looks at the object."""

import sys

import tongsthyme


def main() -> int:
    if len(sys.argv) != 2:
        print("usage: example.py FILE", file=sys.stderr)
        return 2
    with open(sys.argv[1], "rb") as file:
        journal = file.read()
    verdict = tongsthyme.judge(journal)
    if not verdict.is_legal:
        at = f" at line {verdict.line}" if verdict.line else ""
        print(f"{verdict.status}{at}" + (f", kind {verdict.kind}" if verdict.kind else ""))
        return 1
    print(f"legal, {verdict.events} events")
    with tongsthyme.Machine(journal) as machine:
        # Caller 0 posts event control block 0.
        print(machine.step(0, "E0", "POST 7").line, end="")
        block = machine.object("E0")
        if block:
            print(f"the block has had {block.place} events, and its word is {block.state.split(' ')[1]}")
    return 0


if __name__ == "__main__":
    sys.exit(main())
