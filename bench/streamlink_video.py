"""Writes what streamlink downloads of a manifest's video: python3 streamlink_video.py URL FILE."""
import sys

from streamlink import Streamlink


def main(url, file):
    stream = Streamlink().streams(url)["best"]
    # with both, streamlink starts ffmpeg, which may come too late for a short presentation
    stream.audio_representation = None
    source = getattr(stream, "substreams", [stream])[0].open()
    with open(file, "wb", buffering=0) as it:
        while part := source.read(65536):
            it.write(part)


if __name__ == "__main__":
    main(*sys.argv[1:])
