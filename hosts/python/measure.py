"""measure.py FILE: how long a text of policies takes, in CPU time: the call alone, and with all that
it tells as Python's objects."""

import sys
import time
from ctypes import byref

import cedar
from cedar import _library

with open(sys.argv[1], encoding="utf-8", newline="") as file:
    text = file.read()
raw = text.encode()
for _ in range(3):
    begun = time.process_time()
    answer = _library.Answer()
    _library.LIBRARY.cedar_parse_policies(raw, len(raw), byref(answer))
    parsed = time.process_time()
    _library.LIBRARY.cedar_answer_free(byref(answer))
    freed = time.process_time()
    policies = cedar.parse_policies(text)
    told = time.process_time()
    print(
        f"{len(raw)} bytes, {len(policies)} policies: parsed in {parsed - begun:.4f} s,"
        f" freed in {freed - parsed:.4f}, parsed and read in {told - freed:.4f}"
    )
