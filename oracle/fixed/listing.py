"""What the makers of fixed lists share: lines with titles, answers, and what they hold."""

import subprocess
from collections import Counter
from pathlib import Path

FOLDER = Path(__file__).resolve().parent
RELEASE = FOLDER.parent / "target" / "release"

# Programs of the gate read each list and are held to its answers: what is written here is written there, too.
CRATES = FOLDER.parent.parent / "crates"
COPIES = {
    "replay.in": CRATES / "replay" / "stdin",
    "replay.out": CRATES / "replay" / "stdout",
    "texts.in": CRATES / "replay_texts" / "stdin",
    "texts.out": CRATES / "replay_texts" / "stdout",
}

# The lists of numbers stand one after another in replay.in, their answers in replay.out, each behind its name.
NAMES = ["problems", "calls", "bodies", "outcomes"]


def text_of(groups):
    lines = []
    for title, problems in groups:
        lines.append(f"# {title}")
        lines += [made.line() for made in problems]
    return "".join(line + "\n" for line in lines)


def answers_to(program, text):
    run = subprocess.run([RELEASE / program], input=text.encode(), stdout=subprocess.PIPE, check=True)
    return run.stdout.decode()


def parts_of(file):
    """What stands in a file behind each name."""
    parts = dict.fromkeys(NAMES, "")
    for line in (FOLDER / file).read_text().splitlines(keepends=True):
        if line.strip() in NAMES:
            name = line.strip()
        else:
            parts[name] += line
    return parts


def write_file(file, data):
    for path in (FOLDER / file, COPIES[file]):
        path.write_bytes(data)


def write_list(name, text, answers, most_bytes):
    """Puts a list and its answers in place of those that stand behind the name."""
    for file, data in (("replay.in", text), ("replay.out", answers)):
        assert len(data) <= most_bytes, f"{name} of {file}: {len(data)} bytes"
        parts = parts_of(file) | {name: data}
        write_file(file, "".join(f"{name}\n{parts[name]}" for name in NAMES).encode())
        print(f"{name} of {file}: {len(data)} bytes")


def check_refusals(groups, answers):
    """A group whose title begins with `refusal N:` has that answer throughout."""
    answers = iter(answers)
    for title, problems in groups:
        numbers = {next(answers).split(" ")[0] for _ in problems}
        words = title.split(" ")
        assert words[0] != "refusal" or numbers == {words[1].rstrip(":")}, f"{title}: {numbers}"


def report(title, answers, numbers):
    counts = Counter(int(answer.split(" ")[0]) for answer in answers)
    given = ", ".join(f"{number}: {counts[number]}" for number in numbers)
    print(f"{title}: {len(answers)}; {given}")
    return counts
