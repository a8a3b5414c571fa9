#!/usr/bin/env bash
# Runs `bridge` over 20,000 random inputs: the rows of run_table's table, of which one file or the stream is cut, has two of its parts in
# each other's place, a line twice, some bytes gone or a byte changed, up to four times. Each run has to end within 5 s and 600 MiB with a
# status of docs/COMMANDS.md and a last line in that status's form, without a byte on standard error, with every file as before but playlists,
# masters and MPDs in its folder. Runs that don't are told and kept. It tells how many ended in each way.
#
# It wants `rt` and python3, and proves the program first where that isn't kept.
#
#     bench/random.sh [COUNT [SEED]]
set -euo pipefail
source "$(dirname "$0")/program.sh"

cat > "$work/random.py" <<'PY'
import collections, multiprocessing, os, random, re, shutil, sys, tempfile, time

bridge, table, kept = sys.argv[1:4]
count, seed = int(sys.argv[4]), int(sys.argv[5])
MARKS = {"n": b"\n", "r": b"\r", "t": b"\t", "0": b"\0", "\\": b"\\"}
LAST = {
    0: rb"(done|mpd|hls|track|made|same|lawful|agree) ?.*",
    1: rb"refused \S+ [a-z]+ \d+ [A-Za-z0-9]+( at \d+( line \d+)?| section \d+ track \d+ segment \d+)?",
    2: rb"words", 3: rb"read fault", 4: rb"write fault", 5: rb"out of memory", 6: rb"(differ|unlawful|disagree) .*",
}
WRITTEN = re.compile(r"(t\d+|master)\.m3u8|(manifest|source|live)\.mpd")

def plain(text):
    return re.sub(r"\\(.)", lambda mark: MARKS[mark[1]].decode(), text).encode()

def jobs(text, told):
    """The words, the files and the input of each row of fewer than 100,000 bytes, and whether it is done."""
    rows, ends = (re.split(r"^row .*\n", table, flags=re.M)[1:] for table in (text, told))
    for row, end in zip(rows, ends, strict=True):
        words, files, next_file, given = [], {}, b"", None
        for line in row.splitlines() if len(row) < 100_000 and not re.search(r"^times \d{4}", row, re.M) else ():
            word, _, rest = line.partition(" ")
            if word == "word":
                words.append(rest)
            elif word == "text":
                next_file += plain(rest)
            elif word == "line":
                next_file += plain(rest) + b"\n"
            elif word == "hex":
                next_file += bytes.fromhex(rest)
            elif word == "times":
                number, _, rest = rest.partition(" ")
                next_file += plain(rest) * int(number)
            elif word in ("file", "input"):
                if word == "file":
                    files[rest] = next_file
                else:
                    given = (given or b"") + next_file + plain(rest)
                next_file = b""
        if words:
            yield words, files, given, end.startswith("status 0\n")

def changed(bytes_, chance):
    """The bytes with one thing changed."""
    a, b = sorted(chance.randrange(len(bytes_) + 1) for _ in range(2))
    kind = chance.randrange(6)
    if kind == 0:
        return bytes_[:a]
    if kind == 1:
        b = min(b, a + 64)
        return bytes_[:a] + bytes_[b:2 * b - a] + bytes_[a:b] + bytes_[2 * b - a:]
    if kind == 2:
        lines = re.split(rb"(?<=[>\n])", bytes_)
        place = chance.randrange(len(lines))
        return b"".join(lines[:place] + [lines[place]] * 2 + lines[place + 1:])
    if kind == 3:
        return bytes_[:a] + bytes_[min(b, a + 16):]
    if kind == 4:
        return bytes_[:a] + bytes([chance.choice(b"0123456789-.\"<>/ $&\n\0\xff")]) + bytes_[a + 1:]
    digits = [found.span() for found in re.finditer(rb"\d+", bytes_)]
    if not digits:
        return bytes_
    a, b = chance.choice(digits)
    return bytes_[:a] + str(chance.choice((0, 1, 2**31, 2**32, 2**63 - 1, 2**63, 2**64, 10**19))).encode() + bytes_[b:]

def run(words, folder, given):
    """The status, the seconds, the MiB, and what was told."""
    with open(f"{folder}.in", "wb") as it:
        it.write(given or b"")
    streams = [(os.POSIX_SPAWN_OPEN, 0, f"{folder}.in", os.O_RDONLY, 0),
               *((os.POSIX_SPAWN_OPEN, fd, f"{folder}.{fd}", os.O_WRONLY | os.O_CREAT | os.O_TRUNC, 0o600) for fd in (1, 2))]
    os.chdir(folder)
    begun = time.perf_counter()
    _, status, usage = os.wait4(os.posix_spawn(bridge, [bridge, *words], os.environ, file_actions=streams), 0)
    return os.waitstatus_to_exitcode(status), time.perf_counter() - begun, usage.ru_maxrss / 1024

def fault_of(status, seconds, mib, told, error, before, after, out):
    """What a run did that it may not do."""
    lines = [line for line in told.split(b"\n") if not line.startswith(b"  ")]  # but for what `--explain` appends
    if status not in LAST or error or lines.pop() or not lines or not re.fullmatch(LAST[status], lines[-1]):
        return f"ends as {status}"
    if seconds > 5 or mib > 600:
        return f"takes {seconds:.1f} s and {mib:.0f} MiB"
    for name in {*before, *after}:
        folder, _, file = name.rpartition("/")
        if before.get(name) != after.get(name) and not (folder == out and WRITTEN.fullmatch(file)):
            return f"changes {name}"
    return None

def content(folder):
    return {os.path.relpath(os.path.join(at, name), folder): open(os.path.join(at, name), "rb").read()
            for at, _, names in os.walk(folder) for name in names}

def tried(number):
    chance = random.Random(seed * 1_000_003 + number)
    words, files, given, _ = chance.choice(chance.choice((JOBS, DONE)))
    files = dict(files)
    for _ in range(chance.choice((1, 1, 1, 2, 4))):
        names = [*files, *([None] if given else [])]
        if not names:
            break
        name = chance.choice(names)
        if name is None:
            given = changed(given, chance) or b"\n"
        elif files[name]:
            files[name] = changed(files[name], chance)
    folder = tempfile.mkdtemp(dir=kept)
    for name, bytes_ in files.items():
        os.makedirs(os.path.join(folder, os.path.dirname(name)), exist_ok=True)
        with open(os.path.join(folder, name), "wb") as it:
            it.write(bytes_)
    out = next((word[6:] or following for word, following in zip(words, words[1:] + [""]) if re.fullmatch(r"--out(=.*)?", word)), "out")
    status, seconds, mib = run(words, folder, given)
    told, error = (open(f"{folder}.{fd}", "rb").read() for fd in (1, 2))
    fault = fault_of(status, seconds, mib, told, error, files, content(folder), out)
    if fault is None:
        os.chdir(kept)
        shutil.rmtree(folder)
        for end in ("in", "1", "2"):
            os.remove(f"{folder}.{end}")
    return status, seconds, mib, fault and f"{fault}: {' '.join(words)} in {folder}"

JOBS = list(jobs(open(f"{table}/stdin").read(), open(f"{table}/stdout").read()))
DONE = [job for job in JOBS if job[3]]
with multiprocessing.Pool() as pool:
    ended, slowest, largest, wrong = collections.Counter(), 0, 0, 0
    for status, seconds, mib, fault in pool.imap_unordered(tried, range(count), 64):
        ended[status] += 1
        slowest, largest = max(slowest, seconds), max(largest, mib)
        if fault:
            wrong += 1
            print(fault)
print(f"{len(JOBS)} rows, {count} runs:", ", ".join(f"{number} ended as {status}" for status, number in sorted(ended.items())))
print(f"at most {slowest:.2f} s and {largest:.0f} MiB; {wrong} did what they may not do")
sys.exit(wrong != 0)
PY
kept=$(mktemp -d)
python3 "$work/random.py" "$bridge" "$here/crates/run_table" "$kept" "${1:-20000}" "${2:-1}" && rm -rf "$kept"
