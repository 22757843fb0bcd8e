"""The calls of include/skarvolm.h, in the shared library that bindings/python/build makes."""

import ctypes
import os
import pathlib

U32, U64, F64 = ctypes.c_uint32, ctypes.c_uint64, ctypes.c_double
RESULT64 = ctypes.POINTER(U64)
SLICE = (ctypes.c_void_p, ctypes.c_size_t)

# what each call takes; each returns a number of refusal, but for `deposit`
CALLS = {
    "deposit": (U64, U64),
    "encode_2d": (U64, U64, U32, RESULT64),
    "encode_3d": (U64, U64, U64, U32, RESULT64),
    "decode_2d": (U64, U32, RESULT64, RESULT64),
    "decode_3d": (U64, U32, RESULT64, RESULT64, RESULT64),
    "cell": (F64, F64, U32, F64, RESULT64),
    "index_2d": (*SLICE, *SLICE, U32, *SLICE),
    "index_3d": (*SLICE, *SLICE, *SLICE, U32, *SLICE),
    "index_2d_in": (F64, F64, F64, F64, *SLICE, *SLICE, U32, *SLICE),
    "index_3d_in": (F64, F64, F64, F64, F64, F64, *SLICE, *SLICE, *SLICE, U32, *SLICE),
    "halve_2d": (U32, U32, U32, U32, U32, *SLICE, *SLICE, *SLICE),
    "halve_3d": (U32, U32, U32, U32, U32, U32, *SLICE, *SLICE, *SLICE),
    "parts": (U32, *SLICE, *SLICE, *SLICE, *SLICE),
    "replay_2d": (U32, U32, U32, U32, *SLICE, *SLICE, *SLICE, *SLICE, *SLICE, *SLICE),
    "replay_3d": (U32, U32, U32, U32, U32, *SLICE, *SLICE, *SLICE, *SLICE, *SLICE, *SLICE),
}


def path():
    """Where the shared library stands: in the folder that SKARVOLM_LIB names, else where bindings/python/build puts it."""
    folder = os.environ.get("SKARVOLM_LIB") or pathlib.Path(__file__).resolve().parents[3] / "target" / "python"
    return pathlib.Path(folder) / "libskarvolm.so"


def load():
    """The calls by their names without the prefix."""
    try:
        library = ctypes.CDLL(str(path()))
    except OSError as error:
        raise ImportError(f"{error}; bindings/python/build makes {path()}, for x86-64 Linux") from None
    calls = {}
    for name, taken in CALLS.items():
        call = getattr(library, "skarvolm_" + name)
        call.argtypes = taken
        call.restype = U64 if name == "deposit" else U32
        calls[name] = call
    return calls
