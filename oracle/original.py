"""The oracle as a Python object, and what the original's answers are in the rules' numbers."""
import os
import subprocess

HERE = os.path.dirname(os.path.abspath(__file__))
ROOT = os.path.dirname(HERE)

# What the original says, by operation, and the rules' number for it. The texts are the original's own.
# Where it says anything else, `number` stops.
NUMBERS = {
    "seal": {
        "err Protocol secure command payload exceeds maximum frame length": 12,
    },
    "frame": {
        "none": 12,
    },
    "open": {
        # DES
        "err Protocol authentication2 response length must be multiple of 8 bytes": 10,
        "err Protocol secure response shorter than minimum encrypted payload": 11,
        "err SecureSession secure response MAC verification failed": 13,
        "err SecureSession secure response transaction ID mismatch": 14,
        # AES
        "err Protocol secure response too short for AES v2 framing": 11,
        "err Protocol secure response exceeds maximum frame length": 12,
        "err Protocol secure response MAC verification failed for AES v2": 13,
    },
    "auth2seal": {
        "none": 12,
    },
    "auth2open_des": {
        "err SecureSession authentication2 response length must be multiple of 8 bytes": 10,
        "err SecureSession authentication2 response MAC verification failed": 13,
    },
    "auth2open_aes": {
        "err SecureSession secure response too short for AES v2 framing": 11,
        "err SecureSession secure response exceeds maximum frame length": 12,
        "err SecureSession secure response MAC verification failed for AES v2": 13,
    },
    "package": {
        "err InvalidParameter registration package must be multiple of 8 bytes": 10,
    },
    "derive": {
        "err EmptyChain": 3,
        "err MissingKey": 4,
        "err MixedAlgorithm": 5,
        "err IndividualKeyNotApplicable": 6,
        "err DesRequiresArea": 7,
        "err DesRequiresService": 8,
    },
    "check": {
        "ok 0": 13,
    },
    "step": {
        "err SecureSession transaction number overflow during secure session": 9,
    },
    "apply": {
        "err Protocol authentication2 response length must be multiple of 8 bytes": 10,
        "err Protocol secure response shorter than minimum encrypted payload": 11,
        "err SecureSession secure response MAC verification failed": 13,
        "err SecureSession secure response transaction ID mismatch": 14,
        "err SecureSession secure response transaction number did not advance": 15,
    },
}

# What an answer has after its number; a refusal has zeros and no bytes there. n is a number, b are bytes.
AFTER = {
    "open": "nb",
    "auth2open_aes": "nb",
    "derive": "nnb",
    "check": "",
    "session": "nnbb",
    "set": "n",
    "step": "n",
    "index": "n",
    "apply": "nb",
}


def text(value):
    """A field: a byte string in hex, with `-` for the empty one, or a number in decimal."""
    if isinstance(value, (bytes, bytearray)):
        return value.hex() or "-"
    return str(value)


def refusal(operation, number, *values):
    """The answer's fields where the operation turns the call down: the number, and the node with 4."""
    after = AFTER.get(operation, "b")[len(values) :]
    return (number, *values, *(0 if kind == "n" else b"" for kind in after))


def data(word):
    return b"" if word == "-" else bytes.fromhex(word)


def answer(original, operation, inputs):
    """The original's answer as fields: the number, then what AFTER names. None where it has no such call, or where
    its types have no such input."""
    said = original.ask(operation, *inputs)
    if said.startswith(("absent", "malformed")):
        return None
    # A session's number after the call: a refusal leaves it.
    said, _, left = said.partition(" (")
    assert not left or left == f"{inputs[0]})"
    words = said.split()
    if said.startswith("err MissingKey"):
        return refusal(operation, 4, int(words[2]))
    if said in NUMBERS.get(operation, {}):
        return refusal(operation, NUMBERS[operation][said])
    if operation == "index":
        return (0, 64 if said == "none" else int(words[1]))
    assert words[0] == "ok", said
    if operation == "keyfree":
        return (int(words[1]),)
    if operation == "derive":
        return (0, 0, int(words[1]), data(words[2]))
    if operation == "step":
        assert words[1] == words[2]
        return (0, int(words[1]))
    if operation == "apply":
        # The payload is that of the opening.
        _, number, payload = answer(original, "open", (1, inputs[3], inputs[1], inputs[2], inputs[4]))
        assert number == int(words[1])
        return (0, number, payload)
    if operation == "check":
        return (0,)
    fields = AFTER.get(operation, "b")
    return (0, *(int(w) if kind == "n" else data(w) for kind, w in zip(fields, words[1:])))


class Program:
    """A program that answers each line with a line. `builder` is the script of oracle/ that builds it and prints its
    path."""

    def __init__(self, builder, *arguments):
        path = subprocess.run([os.path.join(HERE, builder)], check=True, stdout=subprocess.PIPE, text=True).stdout
        self.command = [path.strip(), *arguments]
        self.start()

    def start(self):
        self.process = subprocess.Popen(
            self.command, stdin=subprocess.PIPE, stdout=subprocess.PIPE, text=True, bufsize=1
        )

    def say(self, line):
        self.process.stdin.write(line + "\n")
        return self.process.stdout.readline().rstrip("\n")


class Original(Program):
    """The original, running: one command, one answer."""

    def __init__(self):
        super().__init__("build")

    def ask(self, *fields):
        """What the original says, as it stands."""
        command = " ".join(text(f) for f in fields)
        said = self.say(command)
        if not said or said.startswith("panic"):
            raise SystemExit(f"{command}\n    {said}")
        return said

    def raw(self, *fields):
        """A cipher by itself: the bytes."""
        word, data = self.ask("raw", *fields).split()
        assert word == "ok"
        return b"" if data == "-" else bytes.fromhex(data)

    def des_encrypt(self, key, block):
        return self.raw("des_encrypt", key, block)

    def cbc(self, key, data):
        """DES, CBC, zero IV."""
        return self.raw("cbc0_encrypt", key, data)

    def ofb(self, key, iv, data):
        return self.raw("ofb", key, iv, data, 16)

    def cmac(self, key, data):
        return self.raw("cmac", key, data, 16)
