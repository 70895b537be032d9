"""What guides in Markdown tell their reader to write: guide_blocks.py block FILES TEXT: the one block (indented or fenced) that has this text.
guide_blocks.py line FILES TEXT: the one line of the section Commands that begins with this text, without the comment behind it.
guide_blocks.py span FILES TEXT: the inline code that is this text, or else the one that begins with it.
guide_blocks.py printed FILES TEXT: the inline code that this text, as it says, prints.
guide_blocks.py section FILES HEADING: all blocks under a heading.
guide_blocks.py left FILES: the blocks that nothing was taken from, by their lines' numbers and first lines. Run by follow_guide.sh.
FILES is a guide, or several with a colon between each two. Where the environment has FOLLOWED, a file, it keeps there from which blocks
something was taken."""
import os, re, sys

COMMANDS = "Commands"    # the section that lists commands, apart from the guides' way
what, files = sys.argv[1], sys.argv[2].split(":")
lines_of = {file: open(file).read().split("\n") for file in files}


def blocks_of(file):
    """Each block of a guide: its key, the number of its first line, its heading, and its lines."""
    lines = lines_of[file]
    number, heading, before_is_blank = 0, "", True

    def found(first, block):
        return f"{os.path.basename(file)}:{first + 1}", heading, block

    while number < len(lines):
        line = lines[number]
        if line.startswith("```"):
            end = lines.index("```", number + 1)
            yield found(number + 1, lines[number + 1:end])
            number = end
        elif line.startswith("    ") and before_is_blank:
            end = number
            while end < len(lines) and (not lines[end].strip() or lines[end].startswith("    ")):
                end += 1
            while not lines[end - 1].strip():
                end -= 1
            indent = min(len(one) - len(one.lstrip()) for one in lines[number:end] if one.strip())
            yield found(number, [one[indent:] for one in lines[number:end]])
            number = end - 1
        elif line.startswith("#"):
            heading = line.lstrip("#").strip()
        before_is_blank = not lines[number].strip()
        number += 1


def blocks():
    """Each block of all guides: its key, its heading, and its lines."""
    for file in files:
        yield from blocks_of(file)


def fail(*words):
    sys.exit(f"{', '.join(map(os.path.basename, files))}: " + " ".join(map(str, words)))


def one(found, text):
    if len(found) != 1:
        fail("found", len(found), "times, and not once:", text)
    key, answer = found[0]
    if "FOLLOWED" in os.environ:
        with open(os.environ["FOLLOWED"], "a") as followed:
            print(key, file=followed)
    print(answer)


if what == "block":
    texts = [(key, "\n".join(block)) for key, heading, block in blocks() if heading != COMMANDS]
    one([(key, text) for key, text in texts if sys.argv[3] in text], sys.argv[3])
elif what == "line":
    starts = sys.argv[3]
    found = {}
    for key, heading, block in blocks():
        for line in block:
            if heading == COMMANDS and line.startswith(starts):
                found.setdefault(re.sub(r"\s+# .*", "", line), key)
    one([(key, line) for line, key in found.items()], starts)
elif what == "span":
    found = {span for lines in lines_of.values() for text in lines if not text.startswith("    ") for span in re.findall(r"`([^`]+)`", text)}
    whole = [span for span in found if span == sys.argv[3]] or [span for span in found if span.startswith(sys.argv[3])]
    if len(whole) != 1:
        fail("found", len(whole), "times as inline code, and not once:", sys.argv[3])
    print(whole[0])
elif what == "printed":
    found = [it for lines in lines_of.values() for it in re.findall(f"`{re.escape(sys.argv[3])}` prints `([^`]+)`", "\n".join(lines))]
    if len(found) != 1:
        fail("it is said", len(found), "times, and not once, what this prints:", sys.argv[3])
    print(found[0])
elif what == "section":
    found = [(key, block) for key, heading, block in blocks() if heading == sys.argv[3]]
    if not found:
        fail("no block under", sys.argv[3])
    for key, block in found:
        one([(key, "\n".join(block))], sys.argv[3])
else:
    with open(os.environ["FOLLOWED"]) as followed:
        taken = set(followed.read().split())
    for key, heading, block in blocks():
        if key not in taken:
            print(f"{key}, under {heading}: {block[0]}")
