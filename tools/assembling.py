"""How the libraries for hosts are made of the exports and of what is in C."""

import os
import shutil
import subprocess
import tempfile

from sources import HEADERS, LIBRARY_FILES, PARTS, SONAME, Failed

SYMBOLS = "{ global: stm_*; local: *; };\n"
VERSION_HEADER = """/* The version of the library: STM_VERSION is that of this header, and stm_version() that of the
 * library that is linked, with " (nothing proved)" behind it where it was built so. The text ends in a 0 and stays. */
#ifndef STM_VERSION_H
#define STM_VERSION_H

#define STM_VERSION "{version}"

#ifdef __cplusplus
extern "C"
#endif
const char *stm_version(void);

#endif
"""
VERSION_CODE = """#include "stm_version.h"

const char *stm_version(void) {{ return STM_VERSION "{more}"; }}
"""


def call(*words):
    """Runs a tool of the compiler's, and says what it said where it refuses."""
    try:
        ran = subprocess.run(words, capture_output=True, text=True, errors="replace")
    except OSError:
        raise Failed(f"a C compiler is missing: its command `{words[0]}` is not on PATH", 69) from None
    if ran.returncode != 0:
        raise Failed(
            "\n".join([f"`{words[0]}` cannot build the library", *(ran.stdout + ran.stderr).splitlines()[-40:]])
        )


def assemble(place, in_c, number, archive=None, object_file=None, more_c=(), more=""):
    """Makes of the exports, which are an archive or an object file, and of the parts in C the libraries and headers in
    the folder. All is made beside it first, so that what was there before stays until then."""
    with tempfile.TemporaryDirectory(prefix="stm-") as work:

        def at(name):
            return os.path.join(work, name)

        for name, folder in HEADERS.items():
            shutil.copy(os.path.join(in_c, os.pardir, folder, name), at(name))
        for name, text in (("stm_version.h", VERSION_HEADER), ("version.c", VERSION_CODE), ("symbols", SYMBOLS)):
            with open(at(name), "w") as file:
                file.write(text if name == "symbols" else text.format(version=number, more=more))
        objects = [object_file] if object_file else []
        for source in [*(os.path.join(in_c, name) for name in PARTS), at("version.c"), *more_c]:
            objects.append(at(os.path.basename(source)[:-2] + ".o"))
            call("cc", "-std=c99", "-O2", "-fPIC", "-pthread", "-I", work, "-c", source, "-o", objects[-1])
        if archive:
            shutil.copy(archive, at("libstm.a"))
            os.chmod(at("libstm.a"), 0o644)
        call("ar", "rcs", at("libstm.a"), *objects)
        whole = ["-Wl,--whole-archive", at("libstm.a"), "-Wl,--no-whole-archive"]
        flags = [
            f"-Wl,-soname,{SONAME}",
            f"-Wl,--version-script={at('symbols')}",
            "-Wl,-z,defs",
            "-Wl,--gc-sections",
            "-Wl,-s",
        ]
        call("cc", "-shared", "-pthread", *flags, *whole, "-o", at(SONAME))
        os.makedirs(place, exist_ok=True)
        for name in LIBRARY_FILES:
            shutil.copy(at(name), os.path.join(place, name + ".new"))
            os.replace(os.path.join(place, name + ".new"), os.path.join(place, name))
        if not os.path.lexists(os.path.join(place, "libstm.so")):
            os.symlink(SONAME, os.path.join(place, "libstm.so"))
