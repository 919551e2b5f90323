"""The files of scenarios, tests/scenarios/data: their lines, with the text of each constant in its place, and the bytes that words make."""
import glob
import os

import journal_format

FOLDER = os.path.join(os.path.dirname(os.path.dirname(os.path.abspath(__file__))), "scenarios/data")


def subjects():
    """The names of the files, without their endings."""
    return sorted(os.path.basename(path).removesuffix(".scenario") for path in glob.glob(os.path.join(FOLDER, "*.scenario")))


def read(subject, end):
    with open(os.path.join(FOLDER, f"{subject}.{end}"), "rb") as file:
        return file.read()


def steps(subject):
    """The steps of each scenario of a file, each a list of words."""
    constants, found = {}, []
    for line in read(subject, "scenario").decode().split("\n"):
        words = [constants[word[1:]] if word.startswith("$") else word for word in line.split(" ")]
        if line.startswith("let "):
            constants[words[1]] = " ".join(words[2:])
        elif line.startswith("scenario "):
            found.append([])
        elif line and not line.startswith("#"):
            found[-1].append(" ".join(words).split(" "))
    return found


def bytes_of(words):
    """The bytes that words make, at most as many as a part holds: HEX and N*HEX append bytes, - appends none, cut N keeps the first N
    bytes so far, and change AT HEX overwrites bytes."""
    text, left = b"", iter(words)
    for word in left:
        if word == "cut":
            text = text[:int(next(left))]
        elif word == "change":
            at, new = int(next(left)), bytes.fromhex(next(left))
            text = text[:at] + new + text[at + len(new):]
        else:
            times, found, digits = word.rpartition("*")
            text += b"" if digits == "-" else bytes.fromhex(digits) * (int(times) if found else 1)
    return text[:journal_format.PART]
