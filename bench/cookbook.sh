#!/usr/bin/env bash
# Runs each recipe of docs/COOKBOOK.md, docs/SERVING.md and docs/OPERATING.md as it is written, in a new directory, and compares what each
# block of commands prints with the block after it: where that says `for example`, without the numbers. It names each recipe that prints what
# the page shows, and shows each difference. Arguments are the titles of recipes to run; without any it runs all.
#
# It needs what the pages name, and `bridge`, `bridge_publish` and `bridge_serve` on the path.
set -euo pipefail
here=$(cd "$(dirname "$0")/.." && pwd)
export examples=$here/examples

python3 - "$here/docs" "$@" <<'PY'
import difflib, re, subprocess, sys, tempfile

docs, *wanted = sys.argv[1:]
recipes = []
for page in ["COOKBOOK.md", "SERVING.md", "OPERATING.md"]:
    with open(f"{docs}/{page}") as it:
        recipes += re.split(r"^## ", it.read(), flags=re.M)[1:]
BLOCK = re.compile(r"^```sh\n(.*?)^```\n(?:\n```text( for example)?\n(.*?)^```\n)?", re.M | re.S)

def told(text, masked):
    return (re.sub(r"\d+", "#", text) if masked else text).splitlines()

wrong = 0
for recipe in recipes:
    title, blocks = recipe.split("\n", 1)[0], BLOCK.findall(recipe)
    if not blocks or wanted and title not in wanted:
        continue
    with tempfile.TemporaryDirectory() as folder, tempfile.TemporaryDirectory() as prints:
        script = "".join(f"{{\n{commands}}} > {prints}/{n} 2>&1\n" for n, (commands, _, _) in enumerate(blocks))
        subprocess.run(["bash", "-c", f"chmod 755 .\n{script}"], cwd=folder, stdin=subprocess.DEVNULL, timeout=300)
        differing = []
        for n, (_, masked, shown) in enumerate(blocks):
            with open(f"{prints}/{n}") as it:
                differing += difflib.unified_diff(told(shown, masked), told(it.read(), masked), "page", "printed", lineterm="")
    print(f"{title}: {'differs' if differing else f'{len(blocks)} blocks print what the page shows'}", *differing, sep="\n", flush=True)
    wrong += bool(differing)
sys.exit(wrong != 0)
PY
