#!/usr/bin/env python3
"""Writes what the test program `vectors` reads (stdin) and must print (stdout), and the same for `transcript`, `verdict` and `evaluate`.

    tests/make_cases.py             writes the files
    tests/make_cases.py --check     says which of them are not what the vectors give; the exit status is then 1

The vectors are in tests/vectors, a case with its answer on each line (`read.py` there reads them): the files rNN.jsonl, each of the state after
a change, come from an implementation that shares nothing with this repository; own.jsonl has what these leave out. No answer is computed here.
A check is a case of the program `verdict` too, and an evaluation one of the program `evaluate`: the arguments are put into bytes, and the answer
is the text that the program prints.

The form of a case stands at the top of crates/vectors/src/main.rt, that of a printed buffer in the crate cases.
"""
import itertools
import pathlib
import sys

ROOT = pathlib.Path(__file__).resolve().parent.parent
VECTORS = ROOT / "tests" / "vectors"
sys.path[:0] = [str(VECTORS), str(ROOT / "tools")]
import read  # noqa: E402
import textform  # noqa: E402

# The last change that has landed, by the number of its vectors.
CHANGE = 3
# The numbers of the operations in crates/vectors/src/main.rt.
OPERATIONS = {"load": 1, "evaluate": 2, "read": 3, "prove": 4, "prove_one": 5, "check": 6, "open": 7, "step": 8, "transcript": 9,
              "verdict": 10, "output": 11, "count_whole": 12, "count_single": 13, "count_rule": 14}
# The bytes of a case there, at most.
MAX_BYTES = 262144
# A buffer of at most so many words is printed whole, a longer one with its checksum (crates/cases).
MOST_PRINTED, MODULUS = 24, 100000000000000003
# The figures of a record, in the order in which they are given and printed.
FIGURES = ("layer", "round", "claim", "open")
# What a program reads: bytes, and words of an array.
MOST_READ, MAX_COUNT = 65536, textform.MAX_COUNT
# The cases of the programs that read standard input whole: operation and note.
RUNS = {"transcript": ("transcript", "worked"), "verdict": ("verdict", "C1"), "evaluate": ("output", "C1")}


def vectors():
    """All cases that hold now, and those that they give of programs."""
    own = ({**case, "file": "own.jsonl"} for case in read.cases(VECTORS / "own.jsonl", CHANGE))
    for case in itertools.chain(read.holding(CHANGE), own):
        yield case
        yield from program_cases(case)


def program_cases(case):
    """The case of the program `verdict` that a check gives, or that of `evaluate` that an evaluation gives, if a program can have it: an
    evaluation that has no room for its values has no counterpart, nor has a check whose outputs `verdict` cannot tell from its messages, nor have
    lists that are too long for the bytes that a program reads."""
    args, (word, *numbers) = case["args"], case["answer"]
    if case["op"] == "check" and is_told_apart(case):
        op, lists = "verdict", [args["circuit"], args["input"], args["coins"], args["outputs"] + args["messages"]]
    elif case["op"] == "evaluate" and case["answer"] != ["refused", 10]:
        op, lists = "output", [args["circuit"], args["input"]]
        word = "output" if word == "value" else word
    else:
        return
    data = b"".join(words([len(numbers)] + numbers) for numbers in lists)
    if len(data) <= MOST_READ and max(map(len, lists)) <= MAX_COUNT:
        yield {**case, "op": op, "args": {"bytes": data}, "answer": text_of([word] + numbers) + "\n", "after": {}}


def is_told_apart(check):
    """Whether `verdict` answers a check alike. It takes as many outputs as the circuit has from the front of one array: that they were not so many
    shows only where all words together are too few, and an array without words is another refusal."""
    args = check["args"]
    count = len(args["outputs"]) + len(args["messages"])
    return count > 0 and (check["answer"] != ["refused", 21] or count < textform.output_count(args["circuit"]))


def words(numbers):
    return b"".join(n.to_bytes(4, "big") for n in numbers)


def text_of(answer):
    """An answer's word and numbers; outputs and coins, which are lists, stand last."""
    lists = [part for part in answer if isinstance(part, list)]
    return " ".join(map(str, itertools.chain([part for part in answer if not isinstance(part, list)], *lists)))


def note_of(case):
    """What is printed first: the note, and where the case stands."""
    call = "" if case["call"] is None else f".{case['call']}"
    return f"{case['note']} ({case['op']}, {case['file'].removesuffix('.jsonl')} {case['line']}{call})"


def list_of(argument):
    if isinstance(argument, dict):
        return [int(argument[name]) for name in FIGURES]
    return argument if isinstance(argument, list) else [argument]


def stdin_of(case):
    """A case's bytes."""
    op, args, note = case["op"], case["args"], note_of(case).encode("ascii")
    names = read.takes(CHANGE, op) if op in read.TAKES else list(args)
    lists = [list_of(args[name]) for name in names if name != "bytes"]
    starts = itertools.accumulate(map(len, lists), initial=1 + len(lists))
    data = args.get("bytes", b"")
    bytes_at = 12 + len(note)
    body = words([OPERATIONS[op], bytes_at, bytes_at + len(data)]) + note + data + words(itertools.chain(starts, *lists))
    assert len(body) <= MAX_BYTES
    return words([len(body)]) + body


def stdout_of(case):
    """What is printed for a case."""
    op, answer, after = case["op"], case["answer"], case["after"]
    if isinstance(answer, str):
        return note_of(case) + (":\n" if op == "transcript" else ": ") + answer
    text = text_of(answer)
    if "buf" in after:
        text += buffer_text(after["buf"])
    # A refused opening makes no record.
    if "record" in after and (op != "open" or answer[0] != "refused"):
        *figures, is_open = [after["record"][name] for name in FIGURES]
        text += " record " + text_of(figures + ["open" if is_open else "ended"])
    return f"{note_of(case)}: {text}\n"


def buffer_text(buf):
    if len(buf) <= MOST_PRINTED:
        return text_of([" buffer"] + buf)
    checksum = 0
    for n in buf:
        checksum = (checksum * 31 + n) % MODULUS
    return f" buffer of {len(buf)} from {buf[0]} to {buf[-1]} checksum {checksum}"


def made():
    """The files and what each holds."""
    cases = list(vectors())
    files = {"vectors": (b"".join(map(stdin_of, cases)), "".join(map(stdout_of, cases)))}
    for name, (op, note) in RUNS.items():
        case = next(case for case in cases if (case["op"], case["note"]) == (op, note))
        files[name] = case["args"]["bytes"], case["answer"]
    for name, (stdin, stdout) in files.items():
        yield ROOT / "crates" / name / "stdin", stdin
        yield ROOT / "crates" / name / "stdout", stdout.encode("ascii")


def main():
    if sys.argv[1:] == ["--check"]:
        others = [file for file, content in made() if not file.exists() or file.read_bytes() != content]
        for file in others:
            print(f"{file.relative_to(ROOT)} is not what the vectors give: run tests/make_cases.py")
        sys.exit(bool(others))
    if sys.argv[1:]:
        sys.exit(__doc__)
    for file, content in made():
        file.write_bytes(content)
        print(f"{file.relative_to(ROOT)}: {len(content)} bytes")


if __name__ == "__main__":
    main()
