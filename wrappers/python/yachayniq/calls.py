"""The library, loaded, with the calls of include/yachayniq.h."""

import ctypes
import os
import pathlib
from typing import Any

_loaded: ctypes.CDLL | None = None


def library() -> Any:
    """The library, loaded when it is first asked for."""
    global _loaded
    if _loaded is None:
        _loaded = _declared(_load())
    return _loaded


def _load() -> ctypes.CDLL:
    named = os.environ.get("YQ_SO")
    root = pathlib.Path(__file__).resolve().parents[3]
    file = named or str(root / "target" / "libyachayniq.so")
    try:
        return ctypes.CDLL(file)
    except OSError as error:
        tried = f"YQ_SO names {named}" if named else f"YQ_SO is not set, so {file} was tried"
        raise OSError(f"Yachayniq's library can't be loaded: {tried} ({error}). {_HOW}") from None


_HOW = (
    "Set YQ_SO to the path of libyachayniq.so, or to its bare name where the dynamic loader "
    "finds it (LD_LIBRARY_PATH, system folders). It is made of the proved archive by "
    "gcc -shared -o libyachayniq.so -Wl,--whole-archive libcalculator.a "
    "-Wl,--no-whole-archive; in the repository examples/run does that"
)


def _declared(loaded: ctypes.CDLL) -> ctypes.CDLL:
    """The library with the calls' types, as include/yachayniq.h has them."""
    for name, types in _types().items():
        try:
            call = getattr(loaded, name)
        except AttributeError:
            raise OSError(
                f"{loaded._name} has no {name}, so it is not the library that this package "
                f"is for. {_HOW}"
            ) from None
        call.argtypes = types
        call.restype = ctypes.c_uint32
    return loaded


def _types() -> dict[str, list[Any]]:
    size, u8, u16, u32 = ctypes.c_size_t, ctypes.c_uint8, ctypes.c_uint16, ctypes.c_uint32
    flag = ctypes.c_bool
    numbers = ctypes.POINTER(u32)
    data = [ctypes.c_char_p, size]
    words = [ctypes.POINTER(u32), size]
    octets = [ctypes.POINTER(u8), size]
    marks = [ctypes.POINTER(flag), size]  # each 0 or 1
    indices = [ctypes.POINTER(u16), size]
    sequence = [*indices, *marks, *words, *words]
    request = [*data, u16, u32, u32, *data, *data, u32, flag, u32]
    carried = [*data, u16, *data]
    tree = [*words, *words, *marks, *words, numbers]
    metrics = [*octets, *octets, *words]
    return {
        "yq_check_profile": [*data, numbers],
        "yq_read_include": [*data, u16, *data, *sequence, *octets, numbers],
        "yq_write_list": [*data, *sequence, *data, *octets, numbers],
        "yq_tree": [*request, *tree],
        "yq_first": [*request, *words, numbers],
        "yq_next": [*request, *words, *words, numbers],
        "yq_series": [*request, *octets, *words, *words, *words],
        "yq_read_pcreq": [*data, *metrics, numbers],
        "yq_pcreq_tree": [*carried, *tree],
        "yq_pcreq_first": [*carried, *words, numbers],
        "yq_pcreq_next": [*carried, *words, *words, numbers],
        "yq_write_pcrep": [u32, u32, flag, *words, u8, flag, *metrics, *octets, numbers],
        "yq_read_pcrep": [*data, *words, *metrics, numbers],
    }
