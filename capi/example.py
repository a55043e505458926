#!/usr/bin/env python3
# The safety code of the byte 01 under the word 0, and the rehearsal of examples/first. `make -C capi` makes the library.
from ctypes import CDLL, c_int64, c_size_t, c_uint64, create_string_buffer
from pathlib import Path

top = Path(__file__).resolve().parent.parent
falldate = CDLL(str(top / "target/libfalldate.so"))
falldate.falldate_safety_code.restype, falldate.falldate_rehearse.restype = c_uint64, c_int64
code = falldate.falldate_safety_code(c_uint64(0), b"\x01", c_size_t(1))
print(f"{code >> 32:08X} {code & 0xFFFFFFFF:08X}")
sheet, script = ((top / "examples/first" / name).read_bytes() for name in ("sheet", "script"))
out = create_string_buffer(65536)
n = falldate.falldate_rehearse(sheet, c_size_t(len(sheet)), script, c_size_t(len(script)), out, c_size_t(len(out)))
print(out.raw[:n].decode() if n >= 0 else f"no listing: {n}\n", end="")
