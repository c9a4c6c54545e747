"""The text forms of docs/TEXT-FORM.md and the RFC 4506 arrays that the programs read: text to words, words to bytes, and both ways back.

Only the form is judged here. Whether a circuit, an input, coins or a transcript is legal is for the proved programs to say, so a wrong
prime, exponent, wire or count of words is passed on to them.
"""
import collections
import re
import struct

# The arrays of a program's input, in their order.
NAMES = ("circuit", "input", "coins", "transcript")
# The kinds of gates by their numbers.
KINDS = ("empty", "add", "mul", "sub")
MAX_WORD = 2 ** 32 - 1
# The most layers of a legal circuit, its largest k_0 and its largest other exponent, and the words of the longest list, which are also the most of
# an array. After an exponent above the largest no gates are counted; the others are for what `./job` says of 3, 4 and 20, and for the test cases.
MAX_DEPTH, MAX_OUTPUT_EXPONENT, MAX_EXPONENT = 12, 4, 8
MAX_COUNT = 3 + MAX_DEPTH + 3 * (2 ** MAX_OUTPUT_EXPONENT + (MAX_DEPTH - 1) * 2 ** MAX_EXPONENT)
NUMBERS_A_LINE = 8

Line = collections.namedtuple("Line", "place parts")


class Malformed(Exception):
    """A text that has not its form, or bytes that are not arrays."""

    def __init__(self, place, found, expected):
        super().__init__(f"{place}: found {found}, expected {expected}")


def quoted(word):
    """A word of the text as a message shows it: short, and with nothing in it that a terminal would obey."""
    return ascii(word if len(word) <= 40 else word[:40] + "...")


def found(line):
    return quoted(line.parts[0]) if line.parts else "the end of the text"


# Text to words.

def parts_of(place, raw):
    """The words of a line, without its comment."""
    try:
        text = raw.removesuffix(b"\r").decode("utf-8")
    except UnicodeDecodeError:
        raise Malformed(place, "bytes that are not UTF-8", "text") from None
    control = re.search(r"[\x00-\x08\x0a-\x1f\x7f]", text)
    if control:
        raise Malformed(place, f"a control character (code {ord(control[0])})", "text")
    # Only blanks and tabs part words: what merely looks like a blank is no part of the form.
    return re.findall(r"[^ \t]+", text.split("#", 1)[0])


def lines_of(name, data):
    """The lines that say something, then one without words, the end, which has the place of the last line."""
    lines = collections.deque()
    for number, raw in enumerate(data.removesuffix(b"\n").split(b"\n"), 1):
        place = f"{name}:{number}"
        parts = parts_of(place, raw)
        if parts:
            lines.append(Line(place, parts))
    lines.append(Line(place, []))
    return lines


def number_of(place, part):
    # The length is looked at first, since int would work long on a long text. No leading zero: elsewhere it means octal.
    if not re.fullmatch(r"0|[1-9][0-9]{0,9}", part, re.ASCII) or int(part) > MAX_WORD:
        raise Malformed(place, quoted(part), f"a decimal number from 0 to {MAX_WORD}")
    return int(part)


def numbers_of(line, word, least, most=None):
    """The numbers of a line that begins with a word: as many as least, up to most where that is given."""
    if line.parts[:1] != [word]:
        raise Malformed(line.place, found(line), f"'{word}'")
    numbers = [number_of(line.place, part) for part in line.parts[1:]]
    if len(numbers) < least or (most is not None and len(numbers) > most):
        raise Malformed(line.place, f"'{word}' with numbers after it: {len(numbers)}", f"{least}" if least == most else f"{least} or more")
    return numbers


def gate_words(line):
    if line.parts[0] not in KINDS:
        raise Malformed(line.place, found(line), "a gate ('empty', 'add L R', 'mul L R' or 'sub L R') or a layer ('layer N')")
    kind = KINDS.index(line.parts[0])
    wires = numbers_of(line, KINDS[kind], 2, 2) if kind else numbers_of(line, KINDS[kind], 0, 0) + [0, 0]
    return [kind] + wires


def layer_words(lines, layer, exponent):
    """The gates of one layer. Their number is form, not legality: the words have no marks between layers, so a gate too many here and one
    too few in the next layer would be a different circuit, and perhaps a legal one."""
    header = lines.popleft()
    number, = numbers_of(header, "layer", 1, 1)
    if number != layer:
        raise Malformed(header.place, f"layer {number}", f"layer {layer}")
    words = []
    while lines[0].parts[:1] not in ([], ["layer"]):
        words += gate_words(lines.popleft())
    if exponent <= MAX_EXPONENT and len(words) != 3 * 2 ** exponent:
        raise Malformed(header.place, f"layer {layer} with gates: {len(words) // 3}", f"{2 ** exponent}, by its exponent {exponent}")
    return words


def raw_words(lines):
    words = []
    while lines[0].parts:
        words += numbers_of(lines.popleft(), "words", 0)
    return words


def name_of(place, part):
    # A name is shown on a terminal, beside numbers.
    if not part[0].isalpha() or not part.isprintable():
        raise Malformed(place, quoted(part), "a name that begins with a letter and can be printed")
    return part


def named_outputs(lines, exponent):
    """What the outputs are called, if a line says it: a name for each gate of layer 0."""
    if lines[0].parts[:1] != ["outputs"]:
        return []
    line = lines.popleft()
    names = [name_of(line.place, part) for part in line.parts[1:]]
    if exponent <= MAX_EXPONENT and len(names) != 2 ** exponent:
        raise Malformed(line.place, f"'outputs' with names after it: {len(names)}", f"{2 ** exponent}, by the exponent {exponent} of layer 0")
    repeated = [name for name, times in collections.Counter(names).items() if times > 1]
    if repeated:
        raise Malformed(line.place, f"{quoted(repeated[0])} more than once", "a name of its own for each output")
    return names


def circuit_of(lines):
    """A circuit's words, and what the text calls its outputs."""
    if lines[0].parts[:1] == ["words"]:
        return raw_words(lines), []
    prime = numbers_of(lines.popleft(), "prime", 1, 1)
    exponents = numbers_of(lines.popleft(), "exponents", 2)
    names = named_outputs(lines, exponents[0])
    depth = len(exponents) - 1
    words = prime + [depth] + exponents
    for layer, exponent in enumerate(exponents[:-1]):
        words += layer_words(lines, layer, exponent)
    if lines[0].parts:
        raise Malformed(lines[0].place, found(lines[0]), f"the end of the text, after {depth} layers")
    return words, names


def circuit_words(lines):
    return circuit_of(lines)[0]


def list_words(lines):
    return [number_of(line.place, part) for line in lines for part in line.parts]


def message_words(line):
    if line.parts[0] not in ("sum", "line"):
        raise Malformed(line.place, found(line), "'sum A B C' or 'line A ...'")
    return numbers_of(line, "sum", 3, 3) if line.parts[0] == "sum" else numbers_of(line, "line", 1)


def transcript_words(lines):
    if lines[0].parts[:1] == ["words"]:
        return raw_words(lines)
    words = numbers_of(lines.popleft(), "claim", 1)
    while lines[0].parts:
        words += message_words(lines.popleft())
    return words


def words_of(kind, name, data):
    """The words of a text of a kind (one of NAMES); messages call the text by its name."""
    read = {"circuit": circuit_words, "input": list_words, "coins": list_words, "transcript": transcript_words}[kind]
    return read(lines_of(name, data))


def output_names(name, data):
    """What a circuit's text calls its outputs, in their order; none if it does not say. Names are for people: the words have none."""
    return circuit_of(lines_of(name, data))[1]


# Words to bytes and back.

def encoded(arrays):
    return b"".join(struct.pack(f">{len(words) + 1}I", len(words), *words) for words in arrays)


def decoded(name, data):
    """The arrays that some bytes hold, one to four."""
    arrays, at = [], 0
    while at < len(data) or not arrays:
        place = f"{name}, byte {at}"
        if len(arrays) == len(NAMES):
            raise Malformed(place, f"{len(data) - at} bytes more", f"the end, after {len(NAMES)} arrays")
        left = len(data) - at - 4
        if left < 0:
            raise Malformed(place, f"{left + 4} bytes", "a count of 4 bytes")
        count = int.from_bytes(data[at:at + 4], "big")
        if left < 4 * count:
            raise Malformed(place, f"the count {count} and {left} bytes after it", f"{4 * count} bytes or more")
        arrays.append(list(struct.unpack_from(f">{count}I", data, at + 4)))
        at += 4 + 4 * count
    return arrays


# Words to text.

def text_line(*parts):
    return " ".join(str(part) for part in parts) + "\n"


def list_text(words, *first):
    """A list over several lines, each with the given first word."""
    return "".join(text_line(*first, *words[at:at + NUMBERS_A_LINE]) for at in range(0, len(words), NUMBERS_A_LINE))


def raw_text(words):
    return list_text(words, "words") or text_line("words")


def exponents_of(circuit):
    """A circuit's exponents, k_0 first; none where the list ends before them or D is 0."""
    depth = circuit[1] if len(circuit) > 1 else 0
    exponents = circuit[2:3 + depth]
    return exponents if 0 < depth == len(exponents) - 1 else []


def output_count(circuit):
    """How many outputs a circuit has; 0 where the list ends before its exponents, or k_0 is so great that they are not counted."""
    exponents = exponents_of(circuit)
    return 2 ** exponents[0] if exponents and exponents[0] <= MAX_EXPONENT else 0


def gate_text(kind, *wires):
    return text_line(KINDS[kind], *wires) if kind else text_line(KINDS[kind])


def circuit_text(words):
    """Layer by layer where that form says exactly these words, raw elsewhere."""
    exponents = exponents_of(words)
    gates = [tuple(words[at:at + 3]) for at in range(2 + len(exponents), len(words), 3)]
    sayable = all(len(gate) == 3 and gate[0] < len(KINDS) and (gate[0] or gate == (0, 0, 0)) for gate in gates)
    # After too great an exponent the words do not say where a layer ends: its width is set to more gates than there are.
    widths = [2 ** k if k <= MAX_EXPONENT else len(words) for k in exponents[:-1]]
    if not exponents or not sayable or len(gates) != sum(widths):
        return raw_text(words)
    text, at = text_line("prime", words[0]) + text_line("exponents", *exponents), 0
    for layer, width in enumerate(widths):
        text += text_line("layer", layer) + "".join(gate_text(*gate) for gate in gates[at:at + width])
        at += width
    return text


def transcript_text(words, circuit):
    """Message by message where the words are as many as the circuit's exponents call for, raw elsewhere."""
    exponents, at = exponents_of(circuit)[1:], output_count(circuit)
    if not at or len(words) != at + sum(7 * k + 1 for k in exponents):
        return raw_text(words)
    text = text_line("claim", *words[:at])
    for k in exponents:
        for _ in range(2 * k):
            text += text_line("sum", *words[at:at + 3])
            at += 3
        text += text_line("line", *words[at:at + k + 1])
        at += k + 1
    return text


def text_of(kind, words, circuit):
    if kind == "circuit":
        return circuit_text(words)
    return transcript_text(words, circuit) if kind == "transcript" else list_text(words)
