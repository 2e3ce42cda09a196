"""Builds the module in C over the library of bin/build-c, which lies in the folder that
FASTBLOOM_LIB names, or else in out/c of the repository.
"""

import os
import shutil
import sysconfig
from pathlib import Path

from setuptools import Extension, setup

LIBRARY = Path(
    os.environ.get("FASTBLOOM_LIB") or Path(__file__).resolve().parent.parent / "out" / "c"
)
# The licence, and what is owed to others, go into what is built.
for name in ("LICENSE", "NOTICE"):
    if not Path(name).exists():
        shutil.copy(Path("..") / name, name)
if not (LIBRARY / "libfastbloom_c.a").is_file():
    raise SystemExit(
        f"there is no {LIBRARY}/libfastbloom_c.a: run bin/build-c, or name its folder "
        "in FASTBLOOM_LIB"
    )
if sysconfig.get_config_var("Py_GIL_DISABLED"):
    raise SystemExit("fastbloom needs a Python with the global interpreter lock")

setup(
    ext_modules=[
        Extension(
            "fastbloom._core",
            ["src/core.c"],
            # (in a folder of bin/build-c, or beside that of an installation)
            include_dirs=[str(LIBRARY / "include"), str(LIBRARY.parent / "include")],
            depends=[str(LIBRARY / "libfastbloom_c.a")],
            extra_objects=[str(LIBRARY / "libfastbloom_c.a")],
            extra_compile_args=["-std=c11", "-O2", "-g0", "-fvisibility=hidden"],
            extra_link_args=["-Wl,--exclude-libs,ALL,--gc-sections,-z,relro,-z,now"],
            py_limited_api=True,
        )
    ],
    options={"bdist_wheel": {"py_limited_api": "cp311"}},
)
