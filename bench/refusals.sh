#!/usr/bin/env bash
# Runs the samples of docs/ERRORS.md, as the page says: a file of the page with one text replaced by another. Each has to end in the line
# that the page has, and with --explain in what bench/explained.txt has for that line; its excerpts are computed again from the samples. It
# tells how many do, and each that doesn't. It wants python3, and `bridge` on the path.
set -euo pipefail
here=$(cd "$(dirname "$0")/.." && pwd)

python3 - "$here/docs/ERRORS.md" "$here/bench/explained.txt" <<'PY'
import os, re, subprocess, sys, tempfile

with open(sys.argv[1]) as it:
    page = it.read()
with open(sys.argv[2]) as it:
    EXPECTED = {block.split("\n", 1)[0]: block.rstrip("\n") + "\n" for block in it.read().split("\n\n")}
FILES = dict(re.findall(r"^```(\S+\.\w+)\n(.*?)^```", page, re.M | re.S))
PLAYLISTS = {"line": "m.m3u8", "master": "m.m3u8", "job": "m.m3u8", "media": "v.m3u8", "hls": "v.m3u8"}
CHANGE = r"(?:all|`[^`]*`) → (?:nothing|`[^`]*`)"

def text(words):
    return "" if words == "nothing" else words.strip("`").replace("⏎", "\n")

def changed(content, sample):
    for old, new in re.findall(CHANGE.replace("?:", ""), sample):
        if old != "all" and text(old) not in content:
            sys.exit(f"no {old} for {sample}")
        content = text(new) if old == "all" else content.replace(text(old), text(new), 1)
    return content

def excerpt(content, at):
    """The lines that show a byte of the file, at most 40 bytes before it and 100 in all. The samples are ASCII."""
    begin = content.rfind("\n", 0, at) + 1
    end = content.find("\n", at) if "\n" in content[at:] else len(content)
    head = f"  line {content.count(chr(10), 0, at) + 1}, column {at - begin + 1}"
    if at == len(content):
        return head + ", the end of the file\n"
    first = max(begin, at - 40)
    last = min(end, first + 100)
    before = head + ": " + (".." if begin < first else "") + content[first:at]
    return before + content[at:last] + (".." if last < end else "") + "\n" + " " * len(before) + "^\n"

def printed(command, content):
    with tempfile.TemporaryDirectory() as folder:
        for file, other in FILES.items():
            with open(os.path.join(folder, file), "w") as it:
                it.write(content if file == name else other)
        return subprocess.run(["bridge", *command, "--base=https://h.example/"], cwd=folder, stdout=subprocess.PIPE, text=True).stdout

def expected(line, content):
    """What is printed with --explain, or another excerpt than there is."""
    block = EXPECTED.get(line, f"nothing for {line}\n")
    place = re.search(r" at (\d+) line \d+$", line)
    if place and excerpt(content, int(place[1])) not in block:
        return f"another excerpt:\n{excerpt(content, int(place[1]))}"
    return block

right = wrong = 0
def judge(sample, told, wanted):
    global right, wrong
    if told == wanted:
        right += 1
    else:
        wrong += 1
        print(f"{sample}: expected\n{wanted}and it is\n{told}", end="")

for line, layer, sample in re.findall(rf"^\| `((\w+) \d+ [^`]*)` \| ({CHANGE}(?:, {CHANGE})*) \|", page, re.M):
    name = PLAYLISTS.get(layer, "m.mpd")
    command = ["hls", "m.mpd"] if name == "m.mpd" else ["dash", "m.m3u8"]
    content = changed(FILES[name], sample)
    line = f"refused {'m.m3u8' if layer == 'hls' else name} {line}"
    judge(sample, printed(command, content), f"{line}\n")
    judge(sample, printed([*command, "--explain"], content), expected(line, content))
print(f"{right} runs of samples end as the page says, {wrong} don't")
sys.exit(wrong != 0)
PY
