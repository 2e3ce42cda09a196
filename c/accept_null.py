#!/usr/bin/env python3
"""Has the calls of C accept a null pointer whose length is 0:

    c/accept_null.py HEADER            prints the header with a function for each call that takes a
                                       pointer and then its length, in place of the line #error
    c/accept_null.py --refuse HEADER   prints all calls for a test: each ends the program where a
                                       pointer is null, and else returns 1
"""

import re
import sys
import textwrap

# What hands over a pointer of each type.
BY_TYPE = {
    "uint64_t *": "fastbloom_words_",
    "const uint64_t *": "fastbloom_read_words_",
    "const uint8_t *": "fastbloom_bytes_",
}


def calls_of(header):
    """The calls that a header declares: mark, result, name and parameters of each."""
    text = header.partition("#ifndef FASTBLOOM_NO_WRAPPERS")[0]
    text = re.sub(r"/\*.*?\*/|^#.*?$", " ", text, flags=re.M | re.S)
    for declaration in re.split("[;{}]", " ".join(text.split())):
        if "(" in declaration:
            pattern = r"(FASTBLOOM_MUST_USE )?([\w ]+[ *])(fastbloom_\w+)\((.*)\)"
            found = re.fullmatch(pattern, declaration.strip())
            mark, result, name, parameters = found.groups(default="")
            parameters = re.findall(r"([\w ]+[ *])(\w+)((?:\[\d+\])?)(?:, |$)", parameters)
            yield mark, result, name, parameters


def in_lines(before, parts, after):
    """A list in brackets, in lines of at most 100 columns, none of which ends within a part."""
    text = f"{before}({', '.join(part.replace(' ', chr(0)) for part in parts)}){after}"
    lines = textwrap.wrap(text, 100, subsequent_indent=" " * 8, break_long_words=False)
    return "\n".join(lines).replace("\0", " ")


def write_function(head, parameters, lines):
    parts = ["".join(parameter) for parameter in parameters] or ["void"]
    return "\n".join(["", in_lines(head, parts, "\0{"), *lines, "}", ""])


def accepts_null(mark, result, name, parameters):
    """The function that stands for a call, or nothing where the call takes no length."""
    behind = [*parameters[1:], ("", "", "")]
    passed = [
        f"{BY_TYPE[kind]}({word}, {length})" if kind in BY_TYPE and of == "size_t " else word
        for (kind, word, _), (of, length, _) in zip(parameters, behind)
    ]
    if passed == [word for _, word, _ in parameters]:
        return ""
    answer = "" if result == "void " else "return "
    line = in_lines(f"    {answer}{name}", passed, ";")
    text = write_function(f"{mark}FASTBLOOM_INLINE {result}{name}_", parameters, [line])
    return f"{text}#define {name} {name}_\n"


def refuses_null(_mark, result, name, parameters):
    lines = [
        f'    refuse_null("{name}", "{word}", {word});'
        for kind, word, array in parameters
        if kind.endswith("*") or array
    ]
    lines += [] if result == "void " else [f"    return ({result.strip()})1;"]
    return write_function(f"{result}{name}", parameters, lines)


REFUSAL = """#define FASTBLOOM_NO_WRAPPERS
#include "fastbloom.h"

#include <stdio.h>
#include <stdlib.h>

static void refuse_null(const char *call, const char *name, const void *pointer) {
    if (pointer != NULL) return;
    fprintf(stderr, "%s: %s is null\\n", call, name);
    exit(2);
}
"""

refuse = sys.argv[1] == "--refuse"
with open(sys.argv[-1]) as file:
    header = file.read()
write = refuses_null if refuse else accepts_null
functions = "".join(write(*call) for call in calls_of(header))
if refuse:
    print(REFUSAL + functions, end="")
else:
    before, _, after = re.split("^(#error .*)\n", header, flags=re.M)
    print(before.rstrip("\n") + "\n" + functions + after, end="")
