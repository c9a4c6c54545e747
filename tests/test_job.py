#!/usr/bin/env python3
"""Tests of ./job on the examples. They run the built programs; build them first, by ./job or `tools/build evaluate transcript verdict`.

What is expected stands in tests/expected; the transcripts there come from a literal reading of the specification, not from a program of
this repository.
"""
import os
import pathlib
import re
import shutil
import subprocess
import tempfile
import unittest

ROOT = pathlib.Path(__file__).resolve().parent.parent
WORKED, INVOICE, SCALE, MARKET = (ROOT / "examples" / name for name in ("worked", "invoice", "scale", "market"))
EXPECTED = ROOT / "tests" / "expected"
LARGE_PRIME = 4294967291

# A circuit, an input and coins, each as text, or None for the worked example's; the number that the job must give, and words of its
# explanation.
REFUSED = [
    ("words 13 1", None, None, 1, "fewer than 3 words"),
    ("prime 12\nexponents 0 1\nlayer 0\nmul 0 1", None, None, 2, "none of 13, 65537, 2147483647 and 4294967291"),
    ("words 13 0 0", None, None, 3, "from 1 to 12"),
    ("words 13 1 0", None, None, 4, "ends before its exponents"),
    ("prime 13\nexponents 5 1\nlayer 0\n" + 32 * "mul 0 1\n", None, None, 4, "k_0 is above 4"),
    ("prime 13\nexponents 0 9\nlayer 0\nmul 0 1", None, None, 4, "another exponent is above 8"),
    ("words 13 1 0 1 2 0", None, None, 5, "as many words as its exponents call for"),
    ("words 13 1 0 1 4 0 1", None, None, 6, "kind"),
    ("prime 13\nexponents 0 1\nlayer 0\nmul 1 0", None, None, 7, "wire"),
    ("prime 13\nexponents 0 1\nlayer 0\nsub 2 0", None, None, 7, "wire"),
    (None, "3 5 7", None, 8, "input has not as many words"),
    (None, "3 13", None, 9, "word of the input is not below the prime"),
    (None, None, "4 6", 11, "coins are not as many"),
    (None, None, "4 6 13", 12, "coin is not below the prime"),
    ("words " + 20000 * "1 ", None, None, 20, "65,536"),
]
# Transcripts of the worked example that are refused (cases C2, C4, C5 and C12, and others), with the number, the claim and words of the
# explanation; and such transcripts of the pair.
REFUSED_TRANSCRIPTS = [
    ("claim 13\nsum 2 8 3\nsum 0 5 12\nline 11 4", 13, "13", "claimed output"),
    ("claim 2\nsum 2 8 3\nsum 0 5 12\nline 11", 14, "2", "exactly the number of words"),
    ("claim 2\nsum 15 8 3\nsum 0 5 12\nline 11 4", 15, "2", "word of a message"),
    ("claim 2\nsum 2 8 4\nsum 0 5 12\nline 11 4", 16, "2", "sum round"),
    ("claim 2\nsum 2 8 3\nsum 0 5 12\nline 12 4", 17, "2", "line message"),
    ("claim 2\nsum 2 8 3\nsum 0 5 12\nline 2 9", 18, "2", "After the last message"),
    ("words", 20, "that is missing", "transcript is empty"),
]
PAIR_REFUSED = [
    ("words", 20, "transcript is empty"),
    ("claim 2", 21, "not as many as the circuit has"),
    ("claim 2 13\nsum 10 11 5\nsum 0 3 1\nline 11 4", 13, "claimed output"),
    ("claim 2 8\nsum 10 11 5\nsum 0 3 1\nline 11", 14, "exactly the number of words"),
    ("claim 2 9\nsum 10 11 5\nsum 0 3 1\nline 11 4", 16, "sum round"),
]
# Two outputs of the worked example's input, the product 2 and the sum 8: a circuit, with names and without, coins, and the honest transcript;
# and coins that let the false outputs 2 9 through with another one.
PAIR = "prime 13\nexponents 1 1\nlayer 0\nmul 0 1\nadd 0 1\n"
NAMED_PAIR = PAIR.replace("layer", "outputs product sum\nlayer")
PAIR_COINS, PAIR_TRANSCRIPT = "10 4 6 9", "claim 2 8\nsum 10 11 5\nsum 0 3 1\nline 11 4\n"
LUCKY_COINS, LUCKY_TRANSCRIPT = "0 4 6 9", "claim 2 9\nsum 2 8 3\nsum 0 5 12\nline 11 4\n"


# A folder with an rt that does nothing, for all runs but the first: the programs are built then.
IDLE = tempfile.TemporaryDirectory()


def setUpModule():
    script(pathlib.Path(IDLE.name) / "rt", "")


def tearDownModule():
    IDLE.cleanup()


def script(file, text):
    file.write_text(f"#!/bin/sh\n{text}\n")
    file.chmod(0o755)


def path_with(folder):
    return {**os.environ, "PATH": f"{folder}:{os.environ['PATH']}"}


def job(*arguments, env=None, **options):
    env = env or path_with(IDLE.name)
    return subprocess.run([ROOT / "job", *arguments], capture_output=True, text=True, env=env, **options)


def numbers_in(file):
    return [int(n) for line in file.read_text().splitlines() for n in line.split("#")[0].split()]


def block(text, title):
    """The indented lines below a title that begins with these words."""
    lines = re.search(rf"^{re.escape(title)}.*\n((?:    .*\n)*)", text, re.MULTILINE)[1].splitlines(keepends=True)
    return "".join(line.removeprefix("    ") for line in lines)


class Job(unittest.TestCase):
    def setUp(self):
        folder = tempfile.TemporaryDirectory()
        self.addCleanup(folder.cleanup)
        self.folder = pathlib.Path(folder.name)

    def file(self, name, text):
        (self.folder / name).write_text(text)
        return self.folder / name

    def refused(self, ran, number, words):
        self.assertEqual((ran.stderr, ran.returncode), ("", 1), ran)
        self.assertRegex(ran.stdout, rf": refused {number}\. .*{words}")
        self.assertNotRegex(ran.stdout, r"output \d+ is released|outputs are released")

    def test_worked_example(self):
        ran = job(cwd=self.folder, env=dict(os.environ))
        self.assertEqual((ran.stderr, ran.returncode), ("", 0))
        self.assertEqual(ran.stdout, (EXPECTED / "job-worked.txt").read_text())

    def with_given_coins(self, example, lucky):
        """What an example's job tells on its own coins; false outputs would be accepted on at most `lucky` of every p coin lists."""
        ran = job(example / "circuit.txt", example / "input.txt", "--coins", example / "coins.txt")
        self.assertEqual((ran.stderr, ran.returncode), ("", 0))
        self.assertEqual(block(ran.stdout, "Transcript"), (EXPECTED / f"{example.name}-transcript.txt").read_text())
        self.assertIn(f"at most {lucky} of every {LARGE_PRIME} coin lists", ran.stdout)
        return ran.stdout

    def with_one_output(self, example, output, lucky):
        told = self.with_given_coins(example, lucky)
        self.assertIn(f"Output, by the program evaluate: {output} (modulo {LARGE_PRIME})\n", told)
        self.assertIn(f"accepted.\nThe output {output} is released.\n", told)

    def test_invoice_with_given_coins(self):
        words = numbers_in(INVOICE / "input.txt")
        self.with_one_output(INVOICE, sum(price * quantity for price, quantity in zip(words[::2], words[1::2])), 50)

    def test_scale_with_given_coins(self):
        words = numbers_in(SCALE / "input.txt")
        self.with_one_output(SCALE, sum((shown - true) ** 2 for true, shown in zip(words[:8], words[8:])), 65)

    def test_market_with_given_coins(self):
        words = numbers_in(MARKET / "input.txt")
        stalls, days = [words[at:at + 4] for at in range(0, 16, 4)], [words[at::4] for at in range(4)]
        names = "bread cheese fruit fish thursday friday saturday sunday".split()
        totals = [f"{name:8}  {sum(takings):6}" for name, takings in zip(names, stalls + days)]
        told = self.with_given_coins(MARKET, 43)
        self.assertEqual(block(told, f"Outputs, by the program evaluate (modulo {LARGE_PRIME}):").splitlines(), totals)
        self.assertEqual(block(told, "The outputs are released:").splitlines(), totals)
        self.assertNotIn("False", told)

    def test_drawn_coins(self):
        for example, count in ((INVOICE, 24), (MARKET, 21)):
            drawn = []
            for _ in range(2):
                ran = job(example / "circuit.txt", example / "input.txt")
                self.assertEqual((ran.stderr, ran.returncode), ("", 0))
                drawn.append([int(n) for n in block(ran.stdout, "Coins (drawn now").split()])
                self.assertEqual(len(drawn[-1]), count)
                self.assertLess(max(drawn[-1]), LARGE_PRIME)
            self.assertNotEqual(*drawn)

    def test_a_prime_too_small_for_the_bound(self):
        for first, exponent, told in ((0, 2, "at most 10 of every 13 coin lists"), (2, 2, "at most 12 of every 13 coin lists"),
                                      (0, 3, "The prime 13 is too small for this circuit"), (3, 2, "The prime 13 is too small for this circuit")):
            gates = 2 ** first * "mul 0 1\n"
            ran = job(self.file("circuit.txt", f"prime 13\nexponents {first} {exponent}\nlayer 0\n{gates}"),
                      self.file("input.txt", 2 ** exponent * "1 "))
            self.assertEqual((ran.stderr, ran.returncode), ("", 0))
            self.assertIn(told, ran.stdout)

    def test_a_long_list_is_shown_in_part(self):
        ran = job(WORKED / "circuit.txt", self.file("input.txt", "7 " * 8 * 50))
        self.refused(ran, 8, "input")
        self.assertEqual(block(ran.stdout, "Input"), 40 * "7 7 7 7 7 7 7 7\n" + "... and 10 lines more\n")

    def test_a_false_total(self):
        ran = job(INVOICE / "circuit.txt", INVOICE / "input.txt", "--coins", INVOICE / "coins.txt")
        lines = block(ran.stdout, "Transcript").splitlines()
        false = self.file("false.txt", "\n".join(["claim 50275"] + lines[1:]))
        ran = job(INVOICE / "circuit.txt", INVOICE / "input.txt", "--coins", INVOICE / "coins.txt", "--transcript", false)
        self.refused(ran, 16, "sum round")
        self.assertIn("The output 50275 is not released.", ran.stdout)

    def pair(self, circuit, coins, transcript=None):
        """The job of two outputs."""
        given = [] if transcript is None else ["--transcript", self.file("transcript.txt", transcript)]
        return job(self.file("circuit.txt", circuit), WORKED / "input.txt", "--coins", self.file("coins.txt", coins), *given)

    def test_several_outputs(self):
        for circuit, named in ((NAMED_PAIR, "product  2\nsum      8\n"), (PAIR, "output 0  2\noutput 1  8\n")):
            ran = self.pair(circuit, PAIR_COINS)
            self.assertEqual((ran.stderr, ran.returncode), ("", 0))
            self.assertEqual(block(ran.stdout, "Circuit"), PAIR)
            self.assertEqual(block(ran.stdout, "Outputs, by the program evaluate (modulo 13):"), named)
            self.assertIn("The first coin belongs to the outputs", ran.stdout)
            self.assertEqual(block(ran.stdout, "Transcript"), PAIR_TRANSCRIPT)
            self.assertEqual(block(ran.stdout, "The outputs are released:"), named)
            self.assertIn("A list with a false output is accepted on at most 6 of every 13 coin lists", ran.stdout)

    def test_false_outputs_that_lucky_coins_let_through(self):
        for circuit, released, false in ((NAMED_PAIR, "product  2\nsum      9\n", "sum      9, where evaluate gives 8\n"),
                                         (PAIR, "output 0  2\noutput 1  9\n", "output 1  9, where evaluate gives 8\n")):
            ran = self.pair(circuit, LUCKY_COINS, LUCKY_TRANSCRIPT)
            self.assertEqual((ran.stderr, ran.returncode), ("", 0))
            self.assertEqual(block(ran.stdout, "The outputs are released:"), released)
            self.assertEqual(block(ran.stdout, "False all the same"), false)

    def test_refused_transcripts_of_several_outputs(self):
        for text, number, words in PAIR_REFUSED:
            with self.subTest(number=number):
                ran = self.pair(NAMED_PAIR, PAIR_COINS, text)
                self.refused(ran, number, words)
                self.assertIn("No output is released.", ran.stdout)

    def test_when_a_prover_may_know_the_coins(self):
        ran = job(MARKET / "circuit.txt", MARKET / "input.txt")
        self.assertIn("The first 3 coins belong to the outputs", ran.stdout)
        ran = job(INVOICE / "circuit.txt", INVOICE / "input.txt")
        self.assertNotIn("belong to the outputs", ran.stdout)

    def test_a_name_that_the_terminal_cannot_show(self):
        ran = job(self.file("circuit.txt", NAMED_PAIR.replace("sum", "\u03a3")), WORKED / "input.txt",
                  env={**path_with(IDLE.name), "PYTHONIOENCODING": "ascii"})
        self.assertEqual((ran.stderr, ran.returncode), ("", 0))
        self.assertIn("\\u03a3", block(ran.stdout, "The outputs are released:"))

    def test_refusals_in_words(self):
        for circuit, inputs, coins, number, words in REFUSED:
            with self.subTest(number=number):
                arguments = [WORKED / "circuit.txt" if circuit is None else self.file("circuit.txt", circuit),
                             WORKED / "input.txt" if inputs is None else self.file("input.txt", inputs),
                             "--coins", WORKED / "coins.txt" if coins is None else self.file("coins.txt", coins)]
                ran = job(*arguments)
                self.refused(ran, number, words)
                self.assertIn("No output is released.", ran.stdout)

    def test_refused_transcripts(self):
        for text, number, claim, words in REFUSED_TRANSCRIPTS:
            with self.subTest(number=number):
                ran = job(WORKED / "circuit.txt", WORKED / "input.txt", "--coins", WORKED / "coins.txt",
                          "--transcript", self.file("transcript.txt", text))
                self.refused(ran, number, words)
                self.assertIn(f"The output {claim} is not released.", ran.stdout)

    def test_malformed_text_is_told_before_anything_is_built(self):
        for position, name in enumerate(("circuit", "input", "coins", "transcript")):
            files = [WORKED / "circuit.txt", WORKED / "input.txt", WORKED / "coins.txt", WORKED / "false-claim.txt"]
            files[position] = self.file(name, "# a comment\nnonsense\n")
            ran = job(*files[:2], "--coins", files[2], "--transcript", files[3])
            self.assertEqual((ran.stdout, ran.returncode), ("", 2))
            self.assertTrue(ran.stderr.startswith(f"{files[position]}:2: found 'nonsense', expected "), ran.stderr)

    def test_usage(self):
        circuit, inputs, transcript = WORKED / "circuit.txt", WORKED / "input.txt", WORKED / "false-claim.txt"
        for arguments in ([circuit], ["--coins", WORKED / "coins.txt"], [circuit, inputs, inputs], [circuit, inputs, "--coin"],
                          [circuit, inputs, "--transcript", transcript], [circuit, self.folder / "none"]):
            ran = job(*arguments)
            self.assertEqual((ran.stdout, ran.returncode), ("", 2), arguments)
            self.assertNotEqual(ran.stderr, "")

    def test_a_build_that_fails(self):
        script(self.folder / "rt", "echo not proved\nexit 1")
        for arguments in ([], [WORKED / "circuit.txt", WORKED / "input.txt"]):
            ran = job(*arguments, env=path_with(self.folder))
            self.assertEqual((ran.stderr, ran.returncode), ("not proved\ntools/build failed with exit status 1\n", 3))
            self.assertNotIn("released", ran.stdout)

    def test_standard_input_of_a_byte_more_than_is_read(self):
        """65,536 bytes that are three arrays are refused for their input, and one byte more makes them too many."""
        counted = ([13, 1, 0, 1, 2, 0, 1], 7863 * [3], 8511 * [4])
        data = b"".join(n.to_bytes(4, "big") for words in counted for n in [len(words)] + words)
        self.assertEqual(len(data), 65536)
        for given, answer in ((data, b"refused 8\n"), (data + bytes(1), b"refused 20\n")):
            ran = subprocess.run([ROOT / "target" / "bin" / "transcript"], input=given, capture_output=True)
            self.assertEqual((ran.stdout, ran.returncode), (answer, 0))

    def test_only_the_whole_answer_releases(self):
        """With stand-ins for the programs, of which verdict answers something else than accepted or a refusal."""
        for name in ("job", "tools/textform.py", "examples/worked/circuit.txt", "examples/worked/input.txt", "examples/worked/coins.txt"):
            (self.folder / name).parent.mkdir(parents=True, exist_ok=True)
            shutil.copy(ROOT / name, self.folder / name)
        (self.folder / "target" / "bin").mkdir(parents=True)
        for name, text in (("tools/build", ""), ("target/bin/evaluate", "echo output 2"), ("target/bin/transcript", "echo claim 2")):
            script(self.folder / name, text)
        for text, status in (("echo accepted", 0), ("echo refused 16", 1), ("", 3), ("printf accepted", 3), ("echo accepted 2", 3),
                             ("echo Accepted", 3), ("echo refused", 3), ("echo refused 22", 3), ("echo accepted; exit 1", 3),
                             ("echo accepted; echo refused 16", 3), ("echo accepted; kill -9 $$", 3)):
            script(self.folder / "target" / "bin" / "verdict", f"cat > /dev/null\n{text}")
            ran = subprocess.run([self.folder / "job", WORKED / "circuit.txt", WORKED / "input.txt", "--coins", WORKED / "coins.txt"],
                                 capture_output=True, text=True)
            self.assertEqual(ran.returncode, status, (text, ran))
            self.assertEqual("output 2 is released" in ran.stdout, status == 0, text)


if __name__ == "__main__":
    unittest.main()
