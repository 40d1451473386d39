"""Prints what the case program must print: `python3 reference/expected.py > crates/ny_cases/stdout`.

It reads the lists in `crates/ny_cases/data/`, whose form `crates/ny_cases/CASES.md` describes, and answers each
case by `nyq.py`. With the word `later` it takes the commands that `nyq` doesn't have yet; with a list's file
as a further word it answers the cases of that list alone."""

import os
import re
import sys
import zlib

import nyq

ROOT = os.path.dirname(os.path.dirname(os.path.abspath(__file__)))
DATA = os.path.join(ROOT, "crates", "ny_cases", "data")
EXAMPLES = os.path.join(ROOT, "examples")
STEPS = (1, 7, 1000000)
CALLS = ("open", "read", "create", "write", "print")


def cases(path):
    """The lines of a list that are cases: the line, its words, and its text or None."""
    with open(path, "rb") as file:
        lines = file.read().split(b"\n")
    for line in lines:
        if line not in (b"", b"#") and not line.startswith(b"# "):
            words, mark, text = line.partition(b" << ")
            yield line, words.decode().split(" "), text if mark else None


def shown(data):
    """A count of bytes, and the bytes in hex where they are few, else their checksum."""
    if len(data) > 128:
        return "%d crc32 %08x" % (len(data), zlib.crc32(data))
    return ("%d %s" % (len(data), data.hex())).rstrip()


def file_shown(host):
    return "no file" if host.created is None else "file " + shown(host.created[1])


class Folder(nyq.Host):
    """The folder of the data, in which the text of a case stands as `in.sal`; folders in it are not there."""

    def __init__(self, text):
        files = {} if text is None else {"in.sal": text}
        super().__init__(files)

    def open(self, name):
        path = os.path.join(DATA, name)
        if name not in self.files and os.path.isfile(path):
            with open(path, "rb") as file:
                self.files[name] = file.read()
        super().open(name)

    def create(self, name):
        if "/" in name:
            raise nyq.Failed()
        super().create(name)


def on_file(words, text, later, out):
    host = Folder(text)
    status = nyq.run(words, host, later)
    out(host.printed)
    out(("status %d\n%s\n" % (status, file_shown(host))).encode())


def on_files(path, later, out):
    for line, words, text in cases(path):
        out(b"> " + line + b"\n")
        on_file(words, text, later, out)


def on_failing_hosts(path, later, out):
    for line, words, text in cases(path):
        out(b"> " + line + b"\n")
        for step in STEPS:
            for fault in [None] + [(call, number) for call in CALLS for number in (1, 2)]:
                host = nyq.Host({"in.sal": text}, step, [fault] if fault else [])
                status = nyq.run(words, host, later)
                printed = "printed " + shown(host.printed) if host.printed else "nothing printed"
                what = "%s %d" % fault if fault else "none"
                out(("step %d %s: status %d, %s, %s\n" % (step, what, status, file_shown(host), printed)).encode())
        out(b"never failing: status %d\n" % nyq.run(words, Unfailing({"in.sal": text}), later))
        out(b"short calls\n")
        on_file(words, text, later, out)


class Unfailing(nyq.Host):
    """A host of which no call fails: a name that is not there is an empty file."""

    def open(self, name):
        self.files.setdefault(name, b"")
        super().open(name)


def copies_are_the_examples():
    for name in os.listdir(EXAMPLES):
        with open(os.path.join(EXAMPLES, name), "rb") as one, open(os.path.join(DATA, name), "rb") as other:
            assert one.read() == other.read(), name + " differs from its copy"


def lessons_are_cases():
    """Each text of the course in `docs/LANGUAGE.md` is a case, with its lines joined."""
    with open(os.path.join(ROOT, "docs", "LANGUAGE.md"), encoding="utf-8") as file:
        course = file.read().partition("\n## A course")[2].partition("\n## ")[0]
    fenced = re.findall(r"^```(\w*)\n(.*?)^```$", course, re.DOTALL | re.MULTILINE)
    texts = [text for language, text in fenced if not language]
    lines = [line for line, _, _ in cases(os.path.join(DATA, "cases.txt"))]
    assert len(texts) == 10
    for text in texts:
        joined = " ".join(line.strip() for line in text.strip().split("\n"))
        assert ("render in.sal out.wav << " + joined).encode() in lines, joined + " is no case"


def main():
    later = "later" in sys.argv[1:]
    lists = [word for word in sys.argv[1:] if word != "later"]
    out = sys.stdout.buffer.write
    if lists:
        for path in lists:
            on_files(path, later, out)
    else:
        copies_are_the_examples()
        lessons_are_cases()
        on_files(os.path.join(DATA, "cases.txt"), later, out)
        on_failing_hosts(os.path.join(DATA, "hosts.txt"), later, out)


if __name__ == "__main__":
    nyq.with_room(lambda: [main()])
