# recut.py LIBFMP4.SO SAMPLES [INPUT [DURATION [FLAGS]]]: recuts standard input by ctypes
import ctypes, sys
from ctypes import byref, c_size_t, c_uint32, c_uint64, c_void_p, create_string_buffer as buffer
class Stream(ctypes.Structure): _fields_ = [("state", c_void_p), ("closed", c_uint32), ("reserved", c_uint64 * 2)]
class Report(ctypes.Structure):
    _fields_ = [(it, c_uint64) for it in ("fragments", "samples", "media_bytes", "peak", "offset")] + [("rule", c_uint32), ("box_type", c_uint32), ("has_box_type", c_uint64), ("reserved", c_uint64 * 3)]
class Cut(ctypes.Structure): _fields_ = [("samples", c_uint32), ("duration_ms", c_uint32), ("bytes", c_uint64), ("flags", c_uint32), ("reserved", c_uint32 * 5)]
lib, stream, report, n, out = ctypes.CDLL(sys.argv[1]), Stream(), Report(), c_size_t(), buffer(65536)
def drain():
    while lib.fmp4_take(byref(stream), out, c_size_t(65536), byref(n)) == 0 and n.value: sys.stdout.buffer.write(out.raw[:n.value])
layout = 88 << 24 | ctypes.sizeof(Stream) << 16 | ctypes.sizeof(Report)
samples, size, duration, flags = (int(it) for it in sys.argv[2:] + ["65536", "0", "0"][len(sys.argv) - 3:])
cut, answer = Cut(samples=samples, duration_ms=duration, flags=flags), 0
if lib.fmp4_cut_open_as(byref(stream), c_uint32(layout), byref(cut), c_uint64(1 << 20), c_size_t(1 << 18)): sys.exit(64)
while answer < 2 and (input := sys.stdin.buffer.read(size)):
    while answer < 2 and input:
        answer = lib.fmp4_feed(byref(stream), input, c_size_t(len(input)), byref(n))
        input = input[n.value:]
        drain()
answer = lib.fmp4_finish(byref(stream), byref(report))
drain()
lib.fmp4_close(byref(stream))
sys.exit(answer)
