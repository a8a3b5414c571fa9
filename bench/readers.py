"""Other readers of MPDs, each as a command that lists all segments of an MPD: those of yt-dlp and streamlink where they are installed.

    python3 readers.py yt-dlp|streamlink FILE

lists the segments of a file's Representations, and fails unless there are 100,000 or more.
"""
import shutil
import subprocess
import sys

BASE = "https://h.example/"


def interpreters():
    """The interpreters that an installed module may belong to."""
    return [sys.executable, *filter(None, [shutil.which("python3", path="/usr/bin")])]


def reader(name, module):
    """The command of a reader but for the file's name, or None where it isn't installed."""
    for interpreter in interpreters():
        if subprocess.run([interpreter, "-c", f"import {module}"], capture_output=True).returncode == 0:
            return [interpreter, __file__, name]
    return None


def with_yt_dlp(file):
    import xml.etree.ElementTree as trees

    from yt_dlp import YoutubeDL
    from yt_dlp.extractor.common import InfoExtractor

    with YoutubeDL({"quiet": True}) as downloader:
        formats = InfoExtractor(downloader)._parse_mpd_formats(trees.parse(file).getroot(), mpd_base_url=BASE)
    return sum(len(found["fragments"]) for found in formats)


def with_streamlink(file):
    from streamlink.stream.dash_manifest import MPD
    from streamlink.utils.parse import parse_xml

    with open(file) as it:
        mpd = MPD(parse_xml(it.read(), ignore_ns=True), base_url=BASE, url=BASE + file)
    return sum(1 for period in mpd.periods for tracks in period.adaptationSets for track in tracks.representations for _ in track.segments())


READERS = {"yt-dlp": ("yt_dlp", with_yt_dlp), "streamlink": ("streamlink", with_streamlink)}


def installed():
    """The readers that are installed, by their names."""
    found = {name: reader(name, module) for name, (module, _) in READERS.items()}
    return {name: command for name, command in found.items() if command}


if __name__ == "__main__":
    sys.exit(READERS[sys.argv[1]][1](sys.argv[2]) < 100_000)
