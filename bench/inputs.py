"""Writes a text of 67,108,864 bytes, the most that is read, or of one more: bench/inputs.py spaces|more|string|array

They are spaces, one space more, one JSON string, and an array of small numbers.
"""

import sys

MOST = 67_108_864

texts = {
    "spaces": lambda: b" " * MOST,
    "more": lambda: b" " * (MOST + 1),
    "string": lambda: b'"' + b"a" * (MOST - 2) + b'"',
    "array": lambda: b"[1" + b",1" * (MOST // 2 - 2) + b"1]",
}
sys.stdout.buffer.write(texts[sys.argv[1]]())
