#!/usr/bin/env bash
# words.sh [PAGE..]: lists the words that the documents don't use, each with the field's word, and fails if there are any. It also lists
# lines of more than 140 characters and pages of more than 400 lines. Without arguments it reads README.md, docs/*.md and the manual pages.
# What the programs print is exempt: code spans, code blocks, and bold or example text of manual pages. Of scripts and configurations it
# reads the comments. It needs python3.
set -euo pipefail
cd "$(dirname "$0")/.."
[ $# -gt 0 ] || set -- README.md docs/*.md docs/*.1

python3 - "$@" <<'PY'
import re, sys

# A pattern of words, and what to write instead. Lookarounds keep the words' other senses: `set` as a verb, a frame rate, an IP address.
WORDS = [
    (r"(memory is|memory was) wanting|want of memory|wants? (no |more )?memory", "out of memory"),
    (r"words (that )?(are|is) no \w+|are no job|is no job", "usage error, invalid arguments"),
    (r"(?<!CI )(?<!GitLab )(?<!indexed )(?<!array )\bjobs?\b(?! arrays?)", "command"),
    (r"\b(told|tells?|telling)\b", "is reported, prints, says"),
    (r"(?<!in )\bfronts?\b(?![- ]ends?\b)", "prefix; a truncated file"),
    (r"\brefus(e|es|ed|ing|als?)\b", "rejected, an error"),
    (r"\bspots?\b", "position, byte offset"),
    (r"(?<!in )(?<!in-)(?<!take )(?<!takes )(?<!took )(?<!decimal )\bplaces?\b", "position, byte offset"),
    (r"\bbehind\b(?! (the live edge|live|nginx|a proxy|a CDN|the packager))", "after, follows"),
    (r"folders? whose URL", "the directory served at the base URL"),
    (r"(?<!CDATA )\bsections?\b(?! \d)", "Period; discontinuity"),
    (r"\b(an?|the|its|each|one|every|this|that|these|those|both|two|all|other|same|whose|audio|video|text) sets?\b"
     r"(?! (of|is complete|to|by|up)\b)", "AdaptationSet; rendition"),
    (r"\bsets and (Representations|tracks)", "AdaptationSet; rendition"),
    (r"\b(left|leaves?|leaving) (it |them )?out\b|\bpass(ed|es|ing)? over\b", "dropped (and counted), ignored"),
    (r"\bslides?\b|\bslid\b|\bsliding\b(?!-window| window)", "live (sliding-window) playlists"),
    (r"\b(un)?lawful(ly)?\b", "valid, invalid playlist update"),
    (r"\brounds?\b(?! (to|up|down|half|trips?)\b)", "snapshot of the playlists"),
    (r"(?<!video )(?<!key )(?<!update )(?<!audio )\b(?-i:[Ff]rames?)\b(?! (rates?|of video)\b)", "update; video frame"),
    (r"\binstants?\b", "timestamp, time"),
    (r"initiali[sz]ation (parts?|address)", "init segment"),
    (r"\bindex(es)? inside\b", "`sidx`, the file's segment index"),
    (r"\bown times\b", "decode times (`tfdt`)"),
    (r"\bfinished\b|\b(is|are|was|were|an|all|every|once) ended\b|\bended (playlists?|MPDs?|ones?|lists?)\b", "VOD, static"),
    (r"(?<!IP )(?<!contact )(?<!memory )\baddress(es)?\b", "URL"),
    (r"(?<!error )(?<!status )(?<!exit )(?<!language )\bcodes\b", "codecs"),
    (r"\bthe (store|outside)\b|\b(store|outside)'s\b|\ba store\b|\bstores\b(?= that)", "file system, I/O"),
    (r"\bstrangers?\b", "untrusted input"),
    (r"\b(the|a|whole) gates?\b|\bgate's\b|\bgated\b", "CI, `rt ci`"),
    (r"\bmend(s|ed|ing)?\b", "fix"),
    (r"\breckon\w*", "estimated"),
    (r"\bwrong bod(y|ies)\b", "mutation (must-fail edit)"),
    (r"\brows?\b(?! of (the|this|that) table)", "test case"),
]
WORDS = [(re.compile(pattern, re.I), instead) for pattern, instead in WORDS]

def lines_of(page):
    """The lines of a page in which words count, with their numbers, each without its code."""
    fenced = example = False
    with open(page) as it:
        for number, line in enumerate(it.read().split("\n"), 1):
            if page.endswith(".1"):
                if line.startswith((".EX", ".EE")):
                    example = line.startswith(".EX")
                elif not example and not line.startswith((".B", ".RB", ".I", ".\\\"", ".TH", ".SY")):
                    yield number, re.sub(r"\\fB.*?\\fR|^\.[A-Z]+ ", "", line)
                continue
            if page.endswith((".sh", ".conf", ".yml", ".service", ".socket")):
                if line.lstrip().startswith("#"):
                    yield number, re.sub(r"`[^`]*`", "", line)
                continue
            if line.startswith("```"):
                fenced = not fenced
            elif not fenced and not line.startswith("    "):
                yield number, re.sub(r"`[^`]*`|\]\([^)]*\)", "", line)

found = 0
for page in sys.argv[1:]:
    with open(page) as it:
        text = it.read().rstrip("\n").split("\n")
    named = any("multivariant playlist" in line for line in text)
    said = []
    for number, line in lines_of(page):
        said += [(number, it[0], instead) for pattern, instead in WORDS for it in pattern.finditer(line)]
        if not named and re.search(r"\bmasters?\b", line):
            said.append((number, "master", "multivariant playlist (master), at the first mention"))
            named = True
    said += [(number, f"{len(line)} characters", "at most 140") for number, line in enumerate(text, 1) if len(line) > 140]
    if len(text) > 400:
        said.append((401, f"{len(text)} lines", "at most 400"))
    for number, word, instead in sorted(said):
        print(f"{page}:{number}: {word}: {instead}")
    found += len(said)
print(f"{found} words and lines to change")
sys.exit(found != 0)
PY
