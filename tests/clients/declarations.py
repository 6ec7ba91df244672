"""Compares what the header and the bindings declare with the exports as the archive's source has them: names, types, order. Compares, too, the
words that they have for each refusal, and the numbers of the rules' page with them; and their numbers for editions.

Standard input is the header after the preprocessor. The box's compiler knows nothing of these declarations, and a call with small
numbers may come out right though a type is too wide; so the texts are compared, parameter by parameter.
"""
import ctypes
import glob
import re
import sys

import corkplover

RATTLE = {"u8": "u8", "u16": "u16", "u64": "u64", "usize": "usize", "bool": "bool", "&[u8]": "*u8 usize", "&mut [u8]": "*mut-u8 usize",
          "&[u16]": "*u16 usize", "&mut [u16]": "*mut-u16 usize", "&mut f32": "*f32", "&mut u64": "*u64"}
# the preprocessor may leave a bool as _Bool
C = {"uint8_t": "u8", "uint16_t": "u16", "uint64_t": "u64", "size_t": "usize", "bool": "bool", "_Bool": "bool", "const uint8_t *": "*u8",
     "uint8_t *": "*mut-u8", "const uint16_t *": "*u16", "uint16_t *": "*mut-u16", "float *": "*f32", "uint64_t *": "*u64"}
RUST = {"u8": "u8", "u16": "u16", "u64": "u64", "usize": "usize", "bool": "bool", "*const u8": "*u8", "*mut u8": "*mut-u8",
        "*const u16": "*u16", "*mut u16": "*mut-u16", "*mut f32": "*f32", "*mut u64": "*u64"}
# to Python a size and any other number of 64 bits are one type, and so are pointers to what is read and what is written, bytes or samples
PYTHON = {ctypes.c_uint8: "u8", ctypes.c_uint16: "u16", ctypes.c_uint64: "u64", ctypes.c_bool: "bool", ctypes.c_void_p: "pointer",
          ctypes.POINTER(ctypes.c_float): "*f32", ctypes.POINTER(ctypes.c_uint64): "*u64"}


def parameters(text, split, table):
    """The types of a parameter list as one line of words."""
    pieces = [piece.strip() for piece in text.split(",") if piece.strip()]
    return " ".join(table.get(split(piece), "unknown(%s)" % piece) for piece in pieces)


def after_colon(piece):
    return piece.split(":", 1)[1].strip()


def before_name(piece):
    return re.match(r"(.*?)\w+$", piece).group(1).strip()


def of_source():
    found = {}
    for path in glob.glob("crates/corkplover_c/src/*.rt"):
        with open(path) as source:
            for export in re.finditer(r'pub extern "C" fn (corkplover_\w+)\(([^)]*)\) -> (\w+)', source.read()):
                found[export[1]] = parameters(export[2], after_colon, RATTLE) + " -> " + export[3]
    return found


def of_header(header):
    text = re.sub(r"\s+", " ", re.sub(r"^#.*$", "", header, flags=re.M))
    declared = re.finditer(r"(uint\d+_t) (corkplover_\w+)\(([^)]*)\);", text)
    return {d[2]: parameters(d[3], before_name, C) + " -> " + C[d[1]] for d in declared}


def of_rust():
    with open("bindings/rust/corkplover.rs") as source:
        text = re.sub(r"\s+", " ", source.read())
    declared = re.finditer(r"fn (corkplover_\w+)\(([^)]*)\) -> (\w+);", text)
    return {d[1]: parameters(d[2], after_colon, RUST) + " -> " + d[3] for d in declared}


def of_python():
    functions = [*corkplover._labels.values(), *corkplover._exports.values(), *corkplover._records.values()]
    return {f.__name__: " ".join(PYTHON.get(t, "unknown(%s)" % t) for t in f.argtypes) + " -> " + PYTHON[f.restype] for f in functions}


def read(path):
    with open(path) as file:
        return file.read()


def rule_numbers():
    """The refusals of the rules' page: those of each table whose first column is 'No.'."""
    tables = re.findall(r"^\| No\. \|.*\n(?:\|.*\n)*", read("docs/RULES.md"), flags=re.M)
    return sorted(int(number) for table in tables for number in re.findall(r"^\| (\d+) \|", table, flags=re.M))


def words_differ(header):
    """What is wrong with the words for refusals, a line each."""
    numbered = dict(re.findall(r"(CORK_\w+) = (\d+)", re.search(r"enum cork_refusal \{([^}]*)\}", header)[1]))
    of_c = {int(numbered[name]): words for name, words in re.findall(r'case (\w+): return "([^"]*)";', header)}
    texts = read("bindings/rust/corkplover.rs").split("const TEXTS")[1].split("];")[0]
    of_rust = {int(number): words for number, words in re.findall(r'^    \((\d+), "([^"]*)"\),$', texts, flags=re.M)}
    of_python = corkplover._TEXTS
    if not of_c == of_rust == of_python:
        yield "words for refusals: the header has %s\n  Rust %s\n  Python %s" % (of_c, of_rust, of_python)
    if len(of_c) != len(numbered):
        yield "the header has words for %d of %d refusals" % (len(of_c), len(numbered))
    if rule_numbers() != sorted(of_c)[1:]:
        yield "the rules have refusals %s, and there are words for %s" % (rule_numbers(), sorted(of_c)[1:])


def editions_differ(header):
    """What is wrong with the numbers of editions, a line for all."""
    of_c = re.findall(r"CORK_(EDITION_\w+) = (\d+)", re.search(r"enum cork_edition \{([^}]*)\}", header)[1])
    of_rust = re.findall(r"^pub const (EDITION_\w+): u8 = (\d+);$", read("bindings/rust/corkplover.rs"), flags=re.M)
    of_python = [(name, str(number)) for name, number in vars(corkplover).items() if name.startswith("EDITION_")]
    if not of_c == of_rust == of_python:
        yield "editions: the header has %s\n  Rust %s\n  Python %s" % (of_c, of_rust, of_python)


def main():
    header = sys.stdin.read()
    source = of_source()
    untyped = {name: re.sub(r"\*(mut-)?u(8|16)\b", "pointer", types).replace("usize", "u64") for name, types in source.items()}
    wrong = 0
    for place, declared, wanted in (("header", of_header(header), source), ("Rust", of_rust(), source), ("Python", of_python(), untyped)):
        for name in sorted(set(declared) | set(wanted)):
            if declared.get(name) != wanted.get(name):
                wrong += 1
                print("%s, %s:\n  declared %s\n  exported %s" % (place, name, declared.get(name), wanted.get(name)))
    for line in [*words_differ(header), *editions_differ(header)]:
        wrong += 1
        print(line)
    print("%d exports, %d differences" % (len(source), wrong))
    return 1 if wrong or len(source) < 17 else 0


if __name__ == "__main__":
    sys.exit(main())
