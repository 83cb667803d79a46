"""Runs a command with the words of ./muni. A store is kept in memory, and ends with the command."""
import sys

from calculator.commands import run


def main() -> int:
    said = run(sys.argv[1:], data=sys.stdin.buffer.read)
    sys.stdout.buffer.write(said.output)
    return said.status


if __name__ == "__main__":
    sys.exit(main())
