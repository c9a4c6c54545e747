"""Weakens the contract of each function that demand 3 counts on, and sees that what stands on it is refused.

    python3 tests/test_weakened.py

The promise is given for legal circuits and inputs alone, by a condition in the `ensures` or by a `requires`, and the proof is fitted to it: the
function's own crate is proved as before. Of an operation the library's function that calls it is refused; of a function of the library `machine`,
which takes the contract for its hypothesis. An edit in must-fail/ cannot show this, since such an edit proves its own crate alone. It works on
copies of crates/, whose checks begin with what those of this folder kept, and first proves an untouched one.

What `kidlothe_c` exports to C is not among the hypotheses, since no crate can stand on an export: there each contract has to be, word for word, that
of the library's function of its name.
"""
import concurrent.futures
import os
import pathlib
import re
import shutil
import subprocess
import sys
import tempfile

TOP = pathlib.Path(__file__).resolve().parent.parent
CONTRACTS = "proofs/Contracts.antt"
# groups that share a copy: the crate, and for each case the function, how it is weakened, and what is refused, a function or a field of `contracts_say`;
# the longest first
GROUPS = [
    ("session", [("open", "ensures", "kidlothe::kidlothe_open"), ("step", "ensures", "kidlothe::kidlothe_step")]),
    ("prover", [("prove", "ensures", "kidlothe::kidlothe_prove"), ("prove_one", "ensures", "kidlothe::kidlothe_prove_one")]),
    ("verifier", [("check", "ensures", "kidlothe::kidlothe_check")]),
    ("kidlothe", [("kidlothe_check", "ensures", "exported_check"), ("kidlothe_open", "ensures", "exported_begin"),
                  ("kidlothe_step", "ensures", "exported_step")]),
    ("kidlothe", [("kidlothe_prove", "ensures", "exported_prove"), ("kidlothe_prove_one", "ensures", "exported_prove_one"),
                  ("kidlothe_check", "requires", "exported_check_asks")]),
]
LEGAL = "lists_cause circuit.now input.now ≡ 0"
MODULE = "ghost use Rattle.circuit.specs.Legal."


def read(path):
    return path.read_text(encoding="utf8")


def replaced(pattern, new, text):
    """The text with the pattern's matches replaced; there is one at least."""
    text, count = re.subn(pattern, new, text, flags=re.M | re.S)
    if not count:
        sys.exit(f"{pattern}: nothing to weaken")
    return text


def head_of(function, text):
    """A function's text up to its body."""
    found = re.search(rf"^(?:pub )?(?:extern \"C\" )?fn {function}\(.*?(?=\n\{{)", text, re.M | re.S)
    return found.group() if found else sys.exit(f"{function}: nothing to weaken")


def importing(text):
    """The source with the name of the legal lists' condition."""
    names = re.search(re.escape(MODULE) + r"\{(.*?)\};", text)
    if names is None:
        return replaced(r"\A(.*?)^ghost use ", rf"\1{MODULE}{{lists_cause}};\nghost use ", text)
    if "lists_cause" in names.group(1).split(", "):
        return text
    return text.replace(names.group(), f"{MODULE}{{{names.group(1)}, lists_cause}};")


def weaken(crate, function, how):
    """The contract under a condition in the crate's source. Where the promise has the condition, an answer of the proof takes it as one argument more;
    what the search finds it finds under a condition too."""
    source = crate / "src" / "lib.rt"
    text = read(source)
    head = head_of(function, text)
    if how == "requires":
        new = replaced(r"\A(.*?)^    ensures ", rf"\1    requires {{ {LEGAL} }}\n    ensures ", head)
    else:
        new = replaced(r"^    ensures ((?:\w+ )?)\{ (.*?) \}(?=\Z|\n    (?:ensures|ghost) )", rf"    ensures \1{{ ({LEGAL}) → (\2) }}", head)
        for proof in (crate / "proofs" / function).glob("*.antt"):
            proof.write_text(re.sub(r"^(returns[\w-]*(?: [^\s:=]+)*) =", r"\1 legal_alone =", read(proof), flags=re.M), encoding="utf8")
    source.write_text(importing(text.replace(head, new)), encoding="utf8")


def place_of(what):
    """What the check says where it refuses a function, or the line of a field of `contracts_say`."""
    if "::" in what:
        return f"fn {what}: "
    lines = read(TOP / "crates" / "machine" / CONTRACTS).splitlines()
    return f"./{CONTRACTS}:{[line.split(' = ')[0].strip() for line in lines].index(what) + 1}:"


def check_machine(copy):
    ran = subprocess.run(["rt", "check"], cwd=copy / "crates" / "machine", capture_output=True, text=True, check=False)
    return ran.returncode, ran.stdout + ran.stderr


def refused_at(said):
    """The first function that is not proved, or the place of the first error in the contracts as `machine` has them."""
    found = re.search(rf"^fn (?!.*: proved$).*|^\./{CONTRACTS}:\d+:.*", said, re.M)
    return found.group() if found else ""


def try_group(group):
    """What was found of each weaker contract of a group: whether it is wrong, and the words."""
    crate, cases = group
    with tempfile.TemporaryDirectory() as place:
        copy = pathlib.Path(place)
        shutil.copytree(TOP / "crates", copy / "crates", ignore=shutil.ignore_patterns("out", "must-fail"))
        for file in ("crates.txt", "HANDLES"):
            if (TOP / file).exists():
                shutil.copy(TOP / file, copy)
        status, said = check_machine(copy)
        if status != 0:
            return [(True, f"machine is not proved as it is\n{said}")]
        found = []
        for function, how, what in cases:
            for part in ("src", "proofs"):
                shutil.copytree(TOP / "crates" / crate / part, copy / "crates" / crate / part, dirs_exist_ok=True)
            weaken(copy / "crates" / crate, function, how)
            status, said = check_machine(copy)
            first = refused_at(said)
            good = status == 1 and f"fn {crate}::{function}: proved" in said and first.startswith(place_of(what))
            found.append((not good, f"{crate}::{function}, weaker by its {how}: " + (f"refused at {what}" if good else f"NOT REFUSED there\n{said}")))
        return found


def other_exports():
    """Where an export for C promises something else than the library's function, or by words that stand for something else."""
    texts = [read(TOP / "crates" / crate / "src" / "lib.rt") for crate in ("kidlothe", "kidlothe_c")]
    names = re.findall(r"^pub extern \"C\" fn (\w+)\(", texts[1], re.M)
    if names != re.findall(r"^pub fn (\w+)\(", texts[0], re.M):
        yield True, "kidlothe_c exports not exactly the library's functions"
    for name in names:
        ours, theirs = (re.sub(r"^.*?fn |\s+|,(?=\s*\))", "", head_of(name, text), flags=re.S) for text in texts)
        if ours != theirs:
            yield True, f"kidlothe_c::{name} has not the library's contract"
    ours, theirs = ({(module, name) for module, group in re.findall(r"^ghost use (\S+)\.\{(.*?)\};", text, re.M) for name in group.split(", ")} for text in texts)
    for module, name in sorted(theirs - ours):
        yield True, f"kidlothe_c takes {name} from {module}, and kidlothe does not"


def main():
    with concurrent.futures.ThreadPoolExecutor(os.cpu_count()) as pool:
        found = [*other_exports(), *(one for answers in pool.map(try_group, GROUPS) for one in answers)]
    for _, words in found:
        print(words)
    sys.exit(any(wrong for wrong, _ in found))


if __name__ == "__main__":
    main()
