"""python -m hpr WORD..: makes a call of the program in process, over the files that its words name.
python -m hpr --data WORD..: prints the same call's answer as data.
"""
import contextlib
import json
import pathlib
import sys
from typing import Dict, List

from . import call, data


def files_of(words: List[str]) -> Dict[str, bytes]:
    """The files that can be read of those that words may name."""
    files = {}
    for word in words:
        with contextlib.suppress(OSError, ValueError):
            files[word] = pathlib.Path(word).read_bytes()
    return files


def main() -> int:
    is_data = sys.argv[1:2] == ["--data"]
    words = sys.argv[1 + is_data :]
    files = files_of(words[1:])
    if is_data:
        told = data(words, files)
        sys.stdout.buffer.write(json.dumps(told.json, sort_keys=True, separators=(",", ":"), ensure_ascii=False).encode() + b"\n")
        return int(told.status)
    answer = call(words, files)
    sys.stdout.buffer.write(answer.out)
    sys.stderr.buffer.write(answer.err)
    return int(answer.status)


if __name__ == "__main__":
    sys.exit(main())
