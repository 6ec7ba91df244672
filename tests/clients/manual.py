"""Runs the examples of a manual page: each line that starts with '$', and each one after '>>>'. What comes out must be what the page has."""
import doctest
import re
import subprocess
import sys


def examples(page):
    """Command lines with what the page says they print."""
    blocks = re.findall(r"^    \$ (?:.+\n(?:    )?)+", page, flags=re.M)
    for block in blocks:
        for example in re.split(r"^    \$ ", block, flags=re.M)[1:]:
            command, *printed = [line.strip() for line in example.strip().split("\n")]
            yield command, printed


def main():
    page = sys.argv[1]
    with open(page) as text:
        commands = list(examples(text.read()))
    wrong = 0
    for command, printed in commands:
        said = subprocess.run(command.split(), stdout=subprocess.PIPE, universal_newlines=True).stdout.split("\n")[:-1]
        if said != printed:
            wrong += 1
            print("%s\n  prints  %r\n  not     %r" % (command, said, printed))
    tried = doctest.testfile(page, module_relative=False)
    print("%d commands, %d Python lines, %d wrong" % (len(commands), tried.attempted, wrong + tried.failed))
    return 1 if wrong or tried.failed or not commands or not tried.attempted else 0


if __name__ == "__main__":
    sys.exit(main())
