#!/usr/bin/env python3
"""Tests of tools/words and its text forms (docs/TEXT-FORM.md). They need no built program.

Bytes are compared with those of xdrlib, Python's own encoder for RFC 4506 (in Python up to 3.12).
"""
import pathlib
import random
import signal
import subprocess
import sys
import tempfile
import unittest
import warnings

ROOT = pathlib.Path(__file__).resolve().parent.parent
sys.path.insert(0, str(ROOT / "tools"))
import textform  # noqa: E402

with warnings.catch_warnings():
    warnings.simplefilter("ignore", DeprecationWarning)
    import xdrlib  # noqa: E402

SEED = 4506
EDGES = (0, 1, 255, 256, 65535, 65536, 2 ** 31 - 1, 2 ** 31, 2 ** 32 - 1)
WORKED = {"circuit": [13, 1, 0, 1, 2, 0, 1], "input": [3, 5], "coins": [4, 6, 9]}
FALSE_CLAIM = [3, 2, 8, 3, 0, 5, 12, 11, 4]
GOOD = {"circuit": b"prime 13\nexponents 0 1\nlayer 0\nmul 0 1\n", "input": b"3 5\n", "coins": b"4 6 9\n",
        "transcript": b"claim 2\nsum 2 8 3\nsum 0 5 12\nline 11 4\n"}
HEADER = b"prime 13\nexponents 0 1 2\n"
PAIR = b"prime 13\nexponents 1 1\n"
GATES = b"layer 0\nmul 0 1\nadd 0 1\n"

# A kind of text, a malformed text of it, the line that the message must name, and what it must say was found.
MALFORMED = [
    ("circuit", b"", 1, "the end of the text"),
    ("circuit", b"# nothing\n\n# here\n", 3, "the end of the text"),
    ("circuit", b"exponents 0 1\nprime 13\nlayer 0\nmul 0 1\n", 1, "'exponents'"),
    ("circuit", b"prime 13\nlayer 0\nmul 0 1\n", 2, "'layer'"),
    ("circuit", b"prime 13\n", 1, "the end of the text"),
    ("circuit", b"prime\nexponents 0 1\nlayer 0\nmul 0 1\n", 1, "'prime' with numbers after it: 0"),
    ("circuit", b"prime 13 13\nexponents 0 1\nlayer 0\nmul 0 1\n", 1, "'prime' with numbers after it: 2"),
    ("circuit", b"prime 13\nexponents\nlayer 0\nmul 0 1\n", 2, "'exponents' with numbers after it: 0"),
    ("circuit", b"prime 13\nexponents 0\nlayer 0\nmul 0 1\n", 2, "'exponents' with numbers after it: 1"),
    ("circuit", b"Prime 13\nexponents 0 1\nlayer 0\nmul 0 1\n", 1, "'Prime'"),
    ("circuit", b"prime thirteen\nexponents 0 1\nlayer 0\nmul 0 1\n", 1, "'thirteen'"),
    ("circuit", b"prime 13\nexponents 0 1\n", 2, "the end of the text"),
    ("circuit", b"prime 13\nexponents 0 1\nmul 0 1\n", 3, "'mul'"),
    ("circuit", b"prime 13\nexponents 0 1\nlayer 1\nmul 0 1\n", 3, "layer 1"),
    ("circuit", b"prime 13\nexponents 0 1\nlayer\nmul 0 1\n", 3, "'layer' with numbers after it: 0"),
    ("circuit", b"prime 13\nexponents 0 1\nlayer 0 0\nmul 0 1\n", 3, "'layer' with numbers after it: 2"),
    ("circuit", b"prime 13\nexponents 0 1\nlayer 0\n", 3, "layer 0 with gates: 0"),
    ("circuit", b"prime 13\nexponents 0 1\nlayer 0\nmul 0 1\nmul 0 1\n", 3, "layer 0 with gates: 2"),
    ("circuit", PAIR + b"layer 0\nmul 0 1\n", 3, "layer 0 with gates: 1"),
    ("circuit", PAIR + GATES + b"add 0 1\n", 3, "layer 0 with gates: 3"),
    ("circuit", b"prime 13\nexponents 5 1\nlayer 0\n" + 16 * b"mul 0 1\n", 3, "layer 0 with gates: 16"),
    ("circuit", b"prime 13\nexponents 0 1\nlayer 0\nmul 0\n", 4, "'mul' with numbers after it: 1"),
    ("circuit", b"prime 13\nexponents 0 1\nlayer 0\nadd 0 1 1\n", 4, "'add' with numbers after it: 3"),
    ("circuit", b"prime 13\nexponents 0 1\nlayer 0\nempty 0 0\n", 4, "'empty' with numbers after it: 2"),
    ("circuit", b"prime 13\nexponents 0 1\nlayer 0\nsub 0\n", 4, "'sub' with numbers after it: 1"),
    ("circuit", b"prime 13\nexponents 0 1\nlayer 0\ndiv 0 1\n", 4, "'div'"),
    ("circuit", b"prime 13\nexponents 0 1\nlayer 0\nmul 0 -1\n", 4, "'-1'"),
    ("circuit", b"prime 13\nexponents 0 1\nlayer 0\nmul 0 1\nlayer 1\n", 5, "'layer'"),
    ("circuit", b"prime 13\nexponents 0 1\nlayer 0\nmul 0 1\nprime 13\n", 5, "'prime'"),
    ("circuit", PAIR + b"outputs product\n" + GATES, 3, "'outputs' with names after it: 1"),
    ("circuit", PAIR + b"outputs product sum rest\n" + GATES, 3, "'outputs' with names after it: 3"),
    ("circuit", PAIR + b"outputs\n" + GATES, 3, "'outputs' with names after it: 0"),
    ("circuit", b"prime 13\nexponents 0 1\noutputs product sum\nlayer 0\nmul 0 1\n", 3, "'outputs' with names after it: 2"),
    ("circuit", PAIR + b"outputs sum sum\n" + GATES, 3, "'sum' more than once"),
    ("circuit", b"prime 13\nexponents 9 1\noutputs a b a\nlayer 0\n", 3, "'a' more than once"),
    ("circuit", PAIR + b"outputs product 8\n" + GATES, 3, "'8'"),
    ("circuit", PAIR + b"outputs product -8\n" + GATES, 3, "'-8'"),
    ("circuit", PAIR + b"outputs product 0x8\n" + GATES, 3, "'0x8'"),
    ("circuit", PAIR + "outputs product \u0668\n".encode() + GATES, 3, "'\\u0668'"),
    # Characters that a terminal may obey, or turn a line round by, and one that is not seen.
    ("circuit", PAIR + "outputs product sum\u009b2J\n".encode() + GATES, 3, "'sum\\x9b2J'"),
    ("circuit", PAIR + "outputs product sum\u202e\n".encode() + GATES, 3, "'sum\\u202e'"),
    ("circuit", PAIR + "outputs sum sum\u200b\n".encode() + GATES, 3, "'sum\\u200b'"),
    ("circuit", PAIR + b"outputs product sum\x1b\n" + GATES, 3, "a control character (code 27)"),
    ("circuit", b"prime 13\noutputs product sum\nexponents 1 1\n" + GATES, 2, "'outputs'"),
    ("circuit", PAIR + b"outputs product sum\noutputs product sum\n" + GATES, 4, "'outputs'"),
    ("circuit", PAIR + GATES + b"outputs product sum\n", 6, "'outputs'"),
    ("circuit", b"words 13 1 1 1 2 0 1 1 0 1\noutputs product sum\n", 2, "'outputs'"),
    # As many gates as are called for, but the wrong number in each layer: without layers the words would be a legal circuit.
    ("circuit", HEADER + b"layer 0\nadd 0 1\nadd 0 1\nlayer 1\nadd 2 3\n", 3, "layer 0 with gates: 2"),
    ("circuit", HEADER + b"layer 0\nadd 0 1\nlayer 0\nadd 0 1\nadd 2 3\n", 5, "layer 0"),
    ("circuit", HEADER + b"layer 0\nadd 0 1\n", 4, "the end of the text"),
    ("circuit", b"words 13 1 0 1\nprime 13\n", 2, "'prime'"),
    ("circuit", b"words 13 x\n", 1, "'x'"),
    ("circuit", b"prime 13\nwords 1 0 1 2 0 1\n", 2, "'words'"),
    ("input", b"3 5\n\n# five\n4294967296\n", 4, "'4294967296'"),
    ("input", b"3\n" + b"9" * 5000 + b"\n", 2, "'9999999999"),
    ("input", b"3 +5", 1, "'+5'"),
    ("input", b"3 05", 1, "'05'"),
    ("input", b"3 0x5", 1, "'0x5'"),
    ("input", b"3 5.0", 1, "'5.0'"),
    ("input", b"3 1_0", 1, "'1_0'"),
    ("input", b"3,5", 1, "'3,5'"),
    ("input", "3 \u0665".encode(), 1, "'\\u0665'"),
    ("input", "3\u00a05".encode(), 1, "'3\\xa05'"),
    ("input", b"words 3 5", 1, "'words'"),
    ("input", b"3 5\n# \xff\n", 2, "bytes that are not UTF-8"),
    ("input", "3 5\n".encode("utf-16"), 1, "bytes that are not UTF-8"),
    ("input", b"3\n5\0\n", 2, "a control character (code 0)"),
    ("input", b"3 5\n# a comment\0\n", 2, "a control character (code 0)"),
    ("input", b"3\r5\n", 1, "a control character (code 13)"),
    ("input", b"3\x0b5\n", 1, "a control character (code 11)"),
    ("input", b"3 \x1b[2J\n", 1, "a control character (code 27)"),
    ("coins", b"4 6\nnine\n", 2, "'nine'"),
    ("transcript", b"", 1, "the end of the text"),
    ("transcript", b"refused 7\n", 1, "'refused'"),
    ("transcript", b"sum 2 8 3\n", 1, "'sum'"),
    ("transcript", b"claim\n", 1, "'claim' with numbers after it: 0"),
    ("transcript", b"claim 2 x\nsum 2 8 3\n", 1, "'x'"),
    ("transcript", b"claim 2\nsum 2 8\n", 2, "'sum' with numbers after it: 2"),
    ("transcript", b"claim 2\nsum 2 8 3 0\n", 2, "'sum' with numbers after it: 4"),
    ("transcript", b"claim 2\nline\n", 2, "'line' with numbers after it: 0"),
    ("transcript", b"claim 2\nsum 2 8 3\nclaim 2\n", 3, "'claim'"),
    ("transcript", b"claim 2\nword 2 8 3\n", 2, "'word'"),
    ("transcript", b"words 2\nsum 2 8 3\n", 2, "'sum'"),
]

# Texts whose faults are the programs' business, and their words.
PASSED_ON = [
    ("circuit", b"prime 12\nexponents 0 1\nlayer 0\nmul 0 1\n", [12, 1, 0, 1, 2, 0, 1]),
    ("circuit", b"prime 13\nexponents 0 9\nlayer 0\nmul 0 1\n", [13, 1, 0, 9, 2, 0, 1]),
    ("circuit", b"prime 13\nexponents 0 9 1\nlayer 0\nmul 0 1\nlayer 1\nadd 0 0\n", [13, 2, 0, 9, 1, 2, 0, 1, 1, 0, 0]),
    ("circuit", b"prime 13\nexponents 0 4294967295 1\nlayer 0\nempty\nlayer 1\n", [13, 2, 0, 2 ** 32 - 1, 1, 0, 0, 0]),
    ("circuit", b"prime 13\nexponents 5 1\nlayer 0\n" + 32 * b"mul 0 1\n", [13, 1, 5, 1] + 32 * [2, 0, 1]),
    ("circuit", b"prime 13\nexponents 9 1\nlayer 0\nmul 0 1\n", [13, 1, 9, 1, 2, 0, 1]),
    ("circuit", b"prime 13\nexponents 4294967295 1\noutputs a b c\nlayer 0\nempty\n", [13, 1, 2 ** 32 - 1, 1, 0, 0, 0]),
    ("circuit", b"prime 13\nexponents 0 1\nlayer 0\nmul 1 0\n", [13, 1, 0, 1, 2, 1, 0]),
    ("circuit", b"prime 13\nexponents 0 1\nlayer 0\nadd 7 4294967295\n", [13, 1, 0, 1, 1, 7, 2 ** 32 - 1]),
    ("circuit", b"prime 13\nexponents 0 1\nlayer 0\nsub 1 0\n", [13, 1, 0, 1, 3, 1, 0]),
    ("circuit", b"prime 13\nexponents" + 14 * b" 0" + b"\n" + b"".join(b"layer %d\nempty\n" % i for i in range(13)),
     [13, 13] + 14 * [0] + 39 * [0]),
    ("circuit", b"words", []),
    ("circuit", b"words 13\n", [13]),
    ("circuit", b"words 13 1 0\n", [13, 1, 0]),
    ("circuit", b"words 13 1\n# more\nwords\nwords 0 1 4 0 1", [13, 1, 0, 1, 4, 0, 1]),
    ("circuit", b"\n\t prime\t13 # p\r\nexponents 0 1#k\r\nlayer 0\r\nmul 0 1", [13, 1, 0, 1, 2, 0, 1]),
    ("circuit", PAIR + b"outputs product sum\n" + GATES, [13, 1, 1, 1, 2, 0, 1, 1, 0, 1]),
    ("input", b"", []),
    ("input", b"# \xc3\xa9\n", []),
    ("input", b"4294967295 0\n", [2 ** 32 - 1, 0]),
    ("transcript", b"words\n", []),
    ("transcript", b"claim 15\nline 2 8 3 0 5 12\nsum 1 2 3\n", [15, 2, 8, 3, 0, 5, 12, 1, 2, 3]),
    ("transcript", b"claim 2 8 15\nsum 1 2 3\n", [2, 8, 15, 1, 2, 3]),
]

# What the text of a circuit calls its outputs.
CALLED = [
    (PAIR + b"outputs product sum\n" + GATES, ["product", "sum"]),
    (PAIR + b"# which\n outputs\tproduct sum # both\r\n" + GATES, ["product", "sum"]),
    (PAIR + "outputs \u00dcbertrag n-1\n".encode() + GATES, ["\u00dcbertrag", "n-1"]),
    (PAIR + b"outputs outputs layer\n" + GATES, ["outputs", "layer"]),
    (PAIR + GATES, []),
    (b"prime 13\nexponents 0 1\noutputs product\nlayer 0\nmul 0 1\n", ["product"]),
    (b"prime 13\nexponents 9 1\noutputs product\nlayer 0\nmul 0 1\n", ["product"]),
    (b"words 13 1 1 1 2 0 1 1 0 1\n", []),
]


def packed(*lists):
    """The bytes of these lists by xdrlib."""
    packer = xdrlib.Packer()
    for words in lists:
        packer.pack_array(words, packer.pack_uint)
    return packer.get_buffer()


def unpacked(data, number):
    unpacker = xdrlib.Unpacker(data)
    lists = [unpacker.unpack_array(unpacker.unpack_uint) for _ in range(number)]
    unpacker.done()
    return lists


def tool(*arguments, stdin=b""):
    return subprocess.run([ROOT / "tools" / "words", *arguments], input=stdin, capture_output=True)


def random_word(draw):
    return draw.choice(EDGES) if draw.random() < 0.3 else draw.randrange(2 ** draw.randrange(1, 33))


def random_list(draw, longest=40):
    return [random_word(draw) for _ in range(draw.randrange(longest))]


def loose_text(draw, words):
    """A list as text, with blanks, line ends and comments in all the ways that the form allows."""
    text = ""
    for word in words:
        text += draw.choice(["", " ", "\t", "\n\n", "# 12 \u00e9\n", "\r\n"]) + str(word) + draw.choice([" ", "\n", "\r\n", "\t", "# 7\n"])
    return text.encode()


def random_circuit(draw):
    """The words of a circuit that the structured form can say, its wires, prime and last exponent legal or not."""
    exponents = [draw.randrange(4) for _ in range(draw.randrange(1, 6))] + [random_word(draw)]
    words = [random_word(draw), len(exponents) - 1, *exponents]
    for k in exponents[:-1]:
        for _ in range(2 ** k):
            kind = draw.randrange(len(textform.KINDS))
            words += [kind, random_word(draw), random_word(draw)] if kind else [0, 0, 0]
    return words


class Bytes(unittest.TestCase):
    def setUp(self):
        self.draw = random.Random(SEED)

    def test_random_lists_are_packed_as_xdrlib_packs_them(self):
        for _ in range(2000):
            lists = [random_list(self.draw) for _ in range(self.draw.randrange(1, 5))]
            data = textform.encoded(lists)
            self.assertEqual(data, packed(*lists))
            self.assertEqual(textform.decoded("bytes", data), unpacked(data, len(lists)))

    def test_random_texts_are_packed_as_xdrlib_packs_their_numbers(self):
        for _ in range(1000):
            words = random_list(self.draw)
            text = loose_text(self.draw, words)
            self.assertEqual(textform.encoded([textform.words_of("input", "text", text)]), packed(words), text)

    def test_examples(self):
        folder = ROOT / "examples" / "worked"
        arguments = [part for kind in WORKED for part in (kind, folder / f"{kind}.txt")]
        ran = tool(*arguments)
        self.assertEqual((ran.stdout, ran.stderr, ran.returncode), (packed(*WORKED.values()), b"", 0))
        self.assertEqual(ran.stdout, (ROOT / "crates" / "transcript" / "stdin").read_bytes())
        ran = tool(*arguments, "transcript", folder / "false-claim.txt")
        self.assertEqual(ran.stdout, packed(*WORKED.values(), FALSE_CLAIM))

    def test_no_list_is_too_long(self):
        words = list(range(20000))
        with tempfile.TemporaryDirectory() as folder:
            circuit = pathlib.Path(folder, "circuit")
            circuit.write_text(textform.raw_text(words))
            self.assertEqual(tool("circuit", circuit).stdout, packed(words))

    def test_bytes_that_are_no_arrays(self):
        for data, place in ((b"", 0), (b"\0\0\0", 0), (packed([1, 2])[:-1], 0), (packed([1], [2, 3])[:-4], 8), (packed([1]) + b"\0", 8),
                            (b"\xff\xff\xff\xff", 0), (packed([], [], [], [], []), 16)):
            ran = tool("show", stdin=data)
            self.assertEqual((ran.stdout, ran.returncode), (b"", 2), data)
            self.assertTrue(ran.stderr.startswith(f"standard input, byte {place}: found ".encode()), ran.stderr)

    def test_an_array_that_is_not_there(self):
        ran = tool("show", "coins", stdin=packed([1], [2]))
        self.assertEqual((ran.stdout, ran.stderr, ran.returncode), (b"", b"standard input: found 2 arrays, expected one for coins\n", 2))

    def test_a_reader_that_stops_early(self):
        with tempfile.TemporaryDirectory() as folder:
            circuit = pathlib.Path(folder, "circuit")
            circuit.write_text(textform.raw_text([0] * 100000))
            ran = subprocess.Popen([ROOT / "tools" / "words", "circuit", circuit], stdout=subprocess.PIPE, stderr=subprocess.PIPE)
            ran.stdout.close()
            self.assertEqual((ran.stderr.read(), ran.wait()), (b"", -signal.SIGPIPE))
            ran.stderr.close()


class RoundTrips(unittest.TestCase):
    def setUp(self):
        self.draw = random.Random(SEED)

    def again(self, kind, words, circuit):
        """A list's text; it must give the list again."""
        text = textform.text_of(kind, words, circuit)
        self.assertEqual(textform.words_of(kind, kind, text.encode()), words, text)
        return text

    def test_circuits_are_shown_layer_by_layer(self):
        for _ in range(500):
            words = random_circuit(self.draw)
            self.assertTrue(self.again("circuit", words, []).startswith("prime "), words)

    def test_words_that_are_no_circuit_are_shown_raw(self):
        for words in ([], [13], [13, 0], [13, 0, 1], [13, 1, 0], [13, 2, 0, 1], [13, 1, 0, 1], [13, 1, 0, 1, 2, 0], [13, 1, 0, 1, 2, 0, 1, 0],
                      [13, 1, 0, 1, 4, 0, 1], [13, 1, 0, 1, 0, 0, 1], [13, 2, 0, 9, 1, 2, 0, 1], [13, 1, 9, 1, 2, 0, 1], [13, 1, 1, 1, 2, 0, 1],
                      [13, 1, 0, 1, 2, 0, 1, 2, 0, 1], [13, 2 ** 32 - 1, 1]):
            self.assertTrue(self.again("circuit", words, []).startswith("words"), words)

    def test_spoilt_circuits(self):
        for _ in range(2000):
            words = random_circuit(self.draw)
            words[self.draw.randrange(len(words))] = random_word(self.draw)
            self.again("circuit", words[:self.draw.choice([len(words), self.draw.randrange(len(words))])], [])

    def test_lists(self):
        for _ in range(500):
            self.again("input", random_list(self.draw), [])

    def test_transcripts_are_told_apart_by_the_exponents(self):
        for _ in range(500):
            first, *exponents = [self.draw.randrange(textform.MAX_EXPONENT + 1) for _ in range(self.draw.randrange(2, textform.MAX_DEPTH + 2))]
            words = [random_word(self.draw) for _ in range(2 ** first + sum(7 * k + 1 for k in exponents))]
            lines = self.again("transcript", words, [13, len(exponents), first, *exponents]).splitlines()
            self.assertEqual([line.split()[0] for line in lines], ["claim"] + [w for k in exponents for w in 2 * k * ["sum"] + ["line"]])
            self.assertEqual(len(lines[0].split()), 1 + 2 ** first)

    def test_transcripts_of_another_length_are_shown_raw(self):
        worked = WORKED["circuit"]
        for circuit, words in ((worked, FALSE_CLAIM[:-1]), (worked, []), ([], FALSE_CLAIM), ([13, 2, 0, 1], FALSE_CLAIM), ([13, 0, 0], [2]),
                               ([13, 1, 1, 1], FALSE_CLAIM), ([13, 1, 9, 0], 513 * [2]), ([13, 1, 2 ** 32 - 1, 0], FALSE_CLAIM)):
            self.assertTrue(self.again("transcript", words, circuit).startswith("words"))

    def test_text_to_bytes_to_text(self):
        data = textform.encoded([textform.words_of(kind, kind, text) for kind, text in GOOD.items()])
        for kind, text in GOOD.items():
            self.assertEqual(tool("show", kind, stdin=data).stdout, text)
        whole = b"\n".join(f"# {kind}\n".encode() + text for kind, text in GOOD.items())
        self.assertEqual(tool("show", stdin=data).stdout, whole)


class Texts(unittest.TestCase):
    def setUp(self):
        folder = tempfile.TemporaryDirectory()
        self.addCleanup(folder.cleanup)
        self.folder = pathlib.Path(folder.name)

    def files(self, changed, text):
        """Arguments for four files, the text of one kind changed."""
        for kind, good in GOOD.items():
            (self.folder / kind).write_bytes(text if kind == changed else good)
        return [part for kind in GOOD for part in (kind, self.folder / kind)]

    def test_malformed_texts_are_named_by_line_and_nothing_is_written(self):
        kept, new = self.folder / "kept", self.folder / "new"
        kept.write_bytes(b"as before")
        for number, (kind, text, line, what) in enumerate(MALFORMED):
            arguments = self.files(kind, text)
            for target in ([], ["-o", (kept, new)[number % 2]]):
                ran = tool(*arguments, *target)
                with self.subTest(kind=kind, text=text):
                    self.assertEqual((ran.stdout, ran.returncode), (b"", 2))
                    message = ran.stderr.decode("ascii")
                    self.assertTrue(message.startswith(f"{self.folder / kind}:{line}: found {what}"), message)
                    self.assertIn(", expected ", message)
                    self.assertEqual((kept.read_bytes(), new.exists()), (b"as before", False))

    def test_what_the_programs_judge_is_passed_on(self):
        for kind, text, words in PASSED_ON:
            with self.subTest(kind=kind, text=text):
                self.assertEqual(textform.words_of(kind, kind, text), words)

    def test_names_of_outputs(self):
        for text, names in CALLED:
            with self.subTest(text=text):
                self.assertEqual(textform.output_names("circuit", text), names)
                self.assertNotIn(b"outputs", tool("show", stdin=textform.encoded([textform.words_of("circuit", "circuit", text)])).stdout)

    def test_output_file(self):
        target, arguments = self.folder / "bytes", self.files(None, b"")
        target.write_bytes(b"x" * 1000)
        ran = tool(*arguments, "-o", target)
        self.assertEqual((ran.stdout, ran.stderr, ran.returncode), (b"", b"", 0))
        self.assertEqual(target.read_bytes(), tool(*arguments).stdout)
        self.assertEqual(target.read_bytes(), packed(*WORKED.values(), [2] + FALSE_CLAIM[1:]))

    def test_usage(self):
        files = self.files(None, b"")
        for arguments in ([], files[:3], files[2:4], files[2:4] + files[:2], files[:2] + files[4:6], files + files[:2], ["-o", "x"],
                          files[:2] + ["-o"], ["show", "gates"], ["show", "circuit", "input"]):
            ran = tool(*arguments)
            self.assertEqual((ran.stdout, ran.returncode), (b"", 2), arguments)
            self.assertIn(b"tools/words circuit FILE", ran.stderr)

    def test_a_missing_file(self):
        ran = tool("circuit", self.folder / "none")
        self.assertEqual((ran.stdout, ran.returncode), (b"", 2))
        self.assertIn(b"none", ran.stderr)


if __name__ == "__main__":
    print(f"seed {SEED}", file=sys.stderr)
    unittest.main()
