"""The sessions of docs/SQLITE.md print what stands behind their arrows."""

import re
import subprocess

import pytest
from conftest import EXTENSION, TOP

PAGE = (TOP / "docs/SQLITE.md").read_text()
# Each section is a database; its blocks run one after the other.
SECTIONS = {
    part.split("\n")[0]: re.findall(r"^```sql\n(.*?)^```", part, re.M | re.S)
    for part in PAGE.split("\n## ")[1:]
    if "```sql" in part
}


@pytest.mark.parametrize("section", SECTIONS)
def test_sessions_print_what_they_say(section, tmp_path):
    for block in SECTIONS[section]:
        wanted = " ".join(re.findall(r"--> (.*)", block))
        loading = [] if "-- without the extension" in block else ["-cmd", f".load {EXTENSION}"]
        done = subprocess.run(
            ["sqlite3", "-batch", *loading, str(tmp_path / "db")],
            input=re.sub(r"--> .*", "", block),
            text=True,
            stdout=subprocess.PIPE,
            stderr=subprocess.STDOUT,
            check=False,
        )
        lines = [line for line in done.stdout.splitlines() if not line.startswith("  ")]
        found = [re.sub(r"^\w+ error near line \d+: ", "error: ", line) for line in lines]
        assert " ".join(found) == wanted


def test_the_page_has_three_recipes():
    assert len(SECTIONS) == 3
