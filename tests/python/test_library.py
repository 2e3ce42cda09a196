"""What bin/build-c builds, and what headers and sources tell of it."""

import os
import re
import subprocess

import pytest
from conftest import LIBRARY, TOP, run

BUILD = TOP / "bin/build-c"
SHARED = LIBRARY / "libfastbloom_c.so"
HEADER = (TOP / "include/fastbloom.h").read_text()
SYMBOLS = (TOP / "include/fastbloom.symbols").read_text().split()
VERSION = re.search(r'^#define FASTBLOOM_VERSION "(.*)"$', HEADER, re.M)[1]
MAJOR = VERSION.split(".")[0]


def found(pattern, path):
    """What a pattern finds in a file."""
    return re.findall(pattern, path.read_text(), re.M)


def test_the_header_declares_the_calls():
    declarations = HEADER.partition("#ifndef FASTBLOOM_NO_WRAPPERS")[0]
    declarations = re.sub(r"/\*.*?\*/", "", declarations, flags=re.S)
    assert sorted(re.findall(r"\b(fastbloom_[a-z_]*)\(", declarations)) == sorted(SYMBOLS)


def test_the_numbers_of_refusals_are_those_of_the_sources():
    rows = [
        row
        for file in ("bloom_parts/src/error.rt", "bloom_files/src/error.rt")
        for row in found(
            r"^ *(?:Filter|File)Error::(\w+)(?:\(_\))? => (\d+),$", TOP / "crates" / file
        )
    ]
    numbers = {
        int(number): re.sub("(?<=[a-z])(?=[A-Z])|(?<=[A-Z])(?=[A-Z][a-z])", "_", name).upper()
        for name, number in rows
    }
    numbers.update({0: "OK", 10: "UNKNOWN_VERSION"})
    listed = re.search(r"^enum fastbloom_status \{(.*?)^\};", HEADER, re.M | re.S)[1]
    told = re.findall(r"^    FASTBLOOM_(\w+) = (\d+)", listed, re.M)
    assert {int(number): name for name, number in told} == numbers


def test_all_tell_one_version():
    release = (TOP / "dev/VERSION").read_text().strip()
    assert release.split("+")[0] == VERSION
    assert found('^__version__ = "(.*)"$', TOP / "python/src/fastbloom/__init__.py") == [release]
    assert found('^version = "(.*)"$', TOP / "rust/Cargo.toml") == [release]
    assert found('^version = "(.*)"$', TOP / "rust/Cargo.lock") == [release] * 2
    parts = re.findall(r"^#define FASTBLOOM_VERSION_[A-Z]* (\d+)", HEADER, re.M)
    assert ".".join(parts) == VERSION
    assert SHARED.samefile(LIBRARY / f"libfastbloom_c.so.{VERSION}")
    assert found("^Version: (.*)$", LIBRARY / "pkgconfig/fastbloom.pc") == [VERSION]
    config = LIBRARY / "cmake/fastbloom/fastbloom-config-version.cmake"
    assert found(r'^set\(PACKAGE_VERSION "(.*)"\)$', config) == [VERSION]


def test_the_symbols_of_the_shared_library():
    lines = run("nm", "-D", "--defined-only", SHARED)[1].splitlines()
    assert sorted(line.split()[-1] for line in lines) == sorted(
        [f"FASTBLOOM_{MAJOR}", *(f"{name}@@FASTBLOOM_{MAJOR}" for name in SYMBOLS)]
    )


def test_the_name_and_the_stack_of_the_shared_library():
    told = run("readelf", "-dlW", SHARED)[1]
    assert re.findall(r"\(SONAME\).*\[(.*)\]", told) == [f"libfastbloom_c.so.{MAJOR}"]
    assert re.findall(r"^ *GNU_STACK .* (R\S*) +0x\d+$", told, re.M) == ["RW"]


@pytest.mark.parametrize(
    "member, calls",
    [
        ("c", "The proved calls"),
        ("lines", "Those that tell what is to be expected of a blocked filter"),
    ],
)
def test_the_page_names_what_the_library_needs(member, calls):
    told = run("nm", "-A", "-u", LIBRARY / "libfastbloom_c.a")[1]
    needed = set(re.findall(rf":fastbloom_{member}\.o: +U (\w+)", told)) - set(SYMBOLS)
    page = " ".join((TOP / "docs/C.md").read_text().split())
    assert needed == set(re.findall(r"`(\w+)`", re.search(rf"{calls} need ([^.]*)\.", page)[1]))


def test_each_call_that_takes_an_item_is_tried():
    """The classes of C++ and their bases have just the calls that tests/cpp/items.cpp lists."""
    names = ("", "_shared", "_blocked", "_blocked_shared")
    headers = "".join((TOP / f"include/fastbloom{name}.hpp").read_text() for name in names)
    calls, bases = {}, set()
    for text in re.split(r"^(?:template <.*>\s)?class ", headers, flags=re.M)[1:]:
        head = re.match(r"(?:\[.*\] )?(\w+)(?:\s+: public (?:detail::)?(\w+))?", text)
        name, base = head.groups()
        calls[name] = calls.get(base, set()) | set(re.findall(r"(\w+)\(std::string_view ", text))
        bases.add(base)
    listed = found(r"^TAKES_ITEMS\((\w+), (\w+)\);$", TOP / "tests/cpp/items.cpp")
    declared = [(name, call) for name in set(calls) - bases for call in calls[name]]
    assert sorted(listed) == sorted(declared)


def test_no_function_of_the_headers_is_static(tmp_path):
    """What an inline function of a class calls has to be the same in all objects."""
    text = """#include "fastbloom_blocked_shared.hpp"
        #include "fastbloom_shared.hpp"
        bool f(fastbloom::hasher &hasher, fastbloom::filter &filter) {
            return hasher.update("cr").finish() == filter.hash("crab") && filter.insert("crab");
        }"""
    names = tmp_path / "names.o"
    compiler = os.environ.get("CXX", "c++").split()
    assert (
        run(
            *compiler,
            "-std=c++17",
            "-O0",
            f"-I{LIBRARY}/include",
            "-x",
            "c++",
            "-c",
            "-",
            "-o",
            names,
            input=text,
        )[0]
        == 0
    )
    told = run("nm", "-C", names)[1]
    assert re.search(r"fastbloom::.*filter.*::insert\(", told)
    assert re.findall("^[0-9a-f]* [bdrt] (fastbloom.*)$", told, re.M) == []


@pytest.mark.parametrize(
    "words", [["--none"], ["a", "b"], ["--", "a", "b"], ["--", ""], [""], [__file__]]
)
def test_a_call_is_refused(words, tmp_path):
    assert run(BUILD, *words, cwd=tmp_path)[0] == 2
    assert not list(tmp_path.iterdir())


def test_flags_of_the_linker_and_a_folder_like_an_option(tmp_path):
    flags = "-Wl,--enable-new-dtags -Wl,-rpath,/nowhere"
    status, output, _ = run(
        BUILD, "--", "-flags", cwd=tmp_path, env={**os.environ, "LDFLAGS": flags}
    )
    assert (status, output) == (0, "./-flags\n")
    told = run("readelf", "-d", tmp_path / "-flags/libfastbloom_c.so")[1]
    assert re.findall(r"\(RUNPATH\).*\[(.*)\]", told) == ["/nowhere"]


def test_two_builds_into_one_folder(tmp_path):
    """They run at once, since the compiler begins only when both call it, and each writes files of
    its own. Without a compiler, no shared library stays from an earlier build."""
    made, compiler, folder = tmp_path / "made", tmp_path / "compiler", tmp_path / "folder"
    compiler.write_text(
        f"""#!/bin/sh
        for word; do
            [ "$before" != -o ] || echo "$word" >> '{made}'
            before=$word
        done
        until [ "$(wc -l < '{made}')" -ge 2 ]; do sleep 0.1; done
        exec {os.environ.get("CC", "cc")} "$@"
        """
    )
    compiler.chmod(0o755)
    builds = [
        subprocess.Popen(
            [BUILD, folder], env={**os.environ, "CC": str(compiler)}, stdout=subprocess.DEVNULL
        )
        for _ in range(2)
    ]
    assert [build.wait(1200) for build in builds] == [0, 0]
    assert len(set(made.read_text().split())) == 2 * len([*(TOP / "c").glob("*.c"), SHARED])
    assert not list(folder.glob("**/.*"))
    assert run(BUILD, folder, env={**os.environ, "CC": str(tmp_path / "none")})[0] == 0
    assert [path.name for path in folder.glob("libfastbloom_c*")] == ["libfastbloom_c.a"]
