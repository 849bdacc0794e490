"""The shared library, and where it lies. `STM_LIB_DIR` names its folder. Where that is not set it lies beside this
package, as both are installed; or where `pkg-config` or the system's loader finds it."""

from __future__ import annotations

import ctypes
import ctypes.util
import os
import subprocess

from ._declared import CALLS

NAMES = ("libstm.so", "libstm.so.0")


def _asked() -> str:
    """Where `pkg-config` says that the library lies."""
    try:
        told = subprocess.run(["pkg-config", "--variable=libdir", "stm"], capture_output=True, text=True, check=False)
    except OSError:
        return ""
    return told.stdout.strip().replace("\\ ", " ")


def _where() -> str:
    if "STM_LIB_DIR" in os.environ:
        folders = [os.environ["STM_LIB_DIR"]]
    else:
        # As ./stm --install puts it: PREFIX/share/stm/python/stm beside PREFIX/lib.
        here = os.path.dirname(os.path.abspath(__file__))
        folders = [os.path.join(here, *[os.pardir] * 4, "lib"), _asked()]
    for path in (os.path.join(folder, name) for folder in folders for name in NAMES if folder):
        if os.path.exists(path):
            return path
    found = None if "STM_LIB_DIR" in os.environ else ctypes.util.find_library("stm")
    if found is None:
        raise ImportError("set STM_LIB_DIR to the folder of libstm.so, or PKG_CONFIG_PATH to that of stm.pc")
    return found


def _loaded() -> ctypes.CDLL:
    # A call of it lets the interpreter's lock go, so that other threads go on while one waits.
    found = ctypes.CDLL(_where())
    for name, (answer, taken) in CALLS.items():
        call = getattr(found, name)
        call.restype, call.argtypes = answer, taken
    return found


library = _loaded()


def word(code: int) -> str:
    """The word of a code."""
    told: bytes = library.stm_word(code)
    return told.decode("ascii")
