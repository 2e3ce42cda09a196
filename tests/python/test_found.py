"""How programs find the library: by pkg-config, CMake, pip and cargo."""

import os
import re
import shutil
import sys
import venv

import pytest
from conftest import LIBRARY, TOP, run

FIRST = "crab: new\nlobster: new\ncrab: seen before\n"
CC = os.environ.get("CC", "cc").split()
EXAMPLE = TOP / "examples/rust/Cargo.toml"


def needs(tool):
    if not shutil.which(tool):
        pytest.skip(f"there is no {tool}")


def environment(**variables):
    """What a command sees, with these variables, and where nothing else names the library."""
    names = ("FASTBLOOM_LIB", "PKG_CONFIG_PATH", "LD_LIBRARY_PATH", "PYTHONPATH")
    kept = {name: value for name, value in os.environ.items() if name not in names}
    return {**kept, **{name: str(value) for name, value in variables.items()}}


@pytest.fixture(scope="session")
def moved(tmp_path_factory):
    """A copy of the folder of the library in another place."""
    return shutil.copytree(LIBRARY, tmp_path_factory.mktemp("moved") / "lib", symlinks=True)


@pytest.fixture(params=["where it was built", "moved"])
def library(request):
    return request.getfixturevalue("moved") if request.param == "moved" else LIBRARY


def test_pkg_config(library, tmp_path):
    needs("pkg-config")
    flags = run(
        "pkg-config",
        "--cflags",
        "--libs",
        "fastbloom >= 0.17",
        env=environment(PKG_CONFIG_PATH=library / "pkgconfig"),
    )[1].split()
    program = tmp_path / "first"
    assert run(*CC, "-std=c11", TOP / "examples/c/first.c", *flags, "-o", program)[0] == 0
    assert run(program, env=environment(LD_LIBRARY_PATH=library)) == (0, FIRST, "")


def configure(folder, library, version):
    needs("cmake")
    return run(
        "cmake",
        "-S",
        TOP / "tests/found",
        "-B",
        folder,
        f"-DWANTED={version}",
        f"-Dfastbloom_DIR={library}/cmake/fastbloom",
    )


def test_cmake(library, tmp_path):
    status, _, errors = configure(tmp_path, library, "0.17")
    assert status == 0, errors
    assert run("cmake", "--build", tmp_path)[0] == 0
    for name in ("first_fastbloom", "first_shared", "first_static"):
        assert run(tmp_path / name) == (0, FIRST, "")
    told = run(tmp_path / "first_cpp", tmp_path / "first.bloom")
    assert told == (0, f"{FIRST}read back\n", "")


@pytest.mark.parametrize("version, status", [("0.16", 0), ("0.17.1", 1), ("0.18", 1), ("1", 1)])
def test_a_version_for_cmake(moved, tmp_path, version, status):
    assert configure(tmp_path, moved, version)[0] == status


def install(python, *words, **variables):
    return run(
        python,
        "-m",
        "pip",
        "install",
        "--no-index",
        "--no-build-isolation",
        *words,
        env=environment(PIP_CONFIG_FILE=os.devnull, **variables),
    )


def test_no_package_without_the_library(tmp_path):
    copied = shutil.copytree(TOP / "python", tmp_path / "python")
    shutil.copy(TOP / "LICENSE", tmp_path)
    shutil.copy(TOP / "NOTICE", tmp_path)
    words = sys.executable, "--target", tmp_path / "package", copied
    status, _, errors = install(*words, FASTBLOOM_LIB=tmp_path / "none")
    assert status == 1 and f"there is no {tmp_path}/none/libfastbloom_c.a: run" in errors


def test_a_python_without_the_global_lock_is_refused():
    """No such Python is there, so that this one says that it has no such lock."""
    code = """import runpy, sysconfig
told = sysconfig.get_config_var
sysconfig.get_config_var = lambda name: 1 if name == "Py_GIL_DISABLED" else told(name)
runpy.run_path("setup.py")"""
    variables = environment(FASTBLOOM_LIB=LIBRARY)
    status, _, errors = run(sys.executable, "-c", code, cwd=TOP / "python", env=variables)
    assert (status, errors) == (1, "fastbloom needs a Python with the global interpreter lock\n")


def test_an_editable_installation(tmp_path):
    venv.create(tmp_path, with_pip=True, system_site_packages=True)
    python = tmp_path / "bin/python"
    assert install(python, "-e", TOP / "python", FASTBLOOM_LIB=LIBRARY)[0] == 0
    code = "import fastbloom; print(fastbloom.__file__)"
    told = run(python, "-c", code, cwd="/", env=environment())
    assert told == (0, f"{TOP}/python/src/fastbloom/__init__.py\n", "")


@pytest.fixture
def linked(tmp_path):
    """Builds and runs the first use in Rust, and returns how it found the library."""
    needs("cargo")

    def link(**variables):
        target = tmp_path / "target"
        told = run(
            "cargo",
            "run",
            "--offline",
            "--locked",
            "--quiet",
            "--manifest-path",
            EXAMPLE,
            "--example",
            "first",
            "--",
            tmp_path / "first.bloom",
            env=environment(CARGO_TARGET_DIR=target, **variables),
        )
        assert told == (0, f"{FIRST}read back\n", "")
        (script,) = target.glob("debug/build/fastbloom_c-sys-*/output")
        return re.findall("^cargo:rustc-link-(.*)$", script.read_text(), re.M)

    return link


def test_cargo_by_pkg_config(linked, moved):
    needs("pkg-config")
    found = linked(PKG_CONFIG_PATH=moved / "pkgconfig")
    assert found == [f"search=native={moved}", "lib=static=fastbloom_c"]


def test_cargo_finds_the_shared_library(linked, moved):
    needs("pkg-config")
    found = linked(PKG_CONFIG_PATH=moved / "pkgconfig", FASTBLOOM_SHARED=1, LD_LIBRARY_PATH=moved)
    assert found == [f"search=native={moved}", "lib=dylib=fastbloom_c"]


def test_cargo_passes_an_older_library_over(linked, moved, tmp_path):
    text = (moved / "pkgconfig/fastbloom.pc").read_text()
    older = re.sub("^Version: .*$", "Version: 0.16.9", text, flags=re.M)
    (tmp_path / "fastbloom.pc").write_text(older)
    found = linked(PKG_CONFIG_PATH=tmp_path)
    assert found == [f"search=native={LIBRARY}", "lib=static=fastbloom_c"]


@pytest.mark.parametrize(
    "folder, why",
    [
        (
            "{}/none",
            "the folder FASTBLOOM_LIB={}/none has no libfastbloom_c.a or libfastbloom_c.so",
        ),
        ("out/c", "FASTBLOOM_LIB=out/c isn't an absolute path"),
    ],
)
def test_cargo_tells_where_there_is_no_library(tmp_path, folder, why):
    needs("cargo")
    status, _, errors = run(
        "cargo",
        "build",
        "--offline",
        "--locked",
        "--manifest-path",
        TOP / "rust/Cargo.toml",
        env=environment(CARGO_TARGET_DIR=tmp_path, FASTBLOOM_LIB=folder.format(tmp_path)),
    )
    assert status != 0 and f"fastbloom_c-sys: {why.format(tmp_path)}\n" in errors
