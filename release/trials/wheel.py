"""Installs the wheel in a fresh environment, and uses it."""
import os
import sys
import zipfile

from trials.given import FAULTY, FIRST, SHORT, first_program

QUIET = {"PIP_NO_INDEX": 1, "PIP_DISABLE_PIP_VERSION_CHECK": 1, "PIP_NO_CACHE_DIR": 1}


def page_of(count, file):
    """The page that a wheel carries; its RECORD has to name each of its files, once."""
    with zipfile.ZipFile(file) as it:
        names = it.namelist()
        record = next(name for name in names if name.endswith("/RECORD"))
        lines = it.read(record).decode().splitlines()
        page = it.read(record.replace("RECORD", "METADATA")).decode()
    told = {line.rsplit(",", 2)[0] for line in lines}
    is_well = len(lines) == len(told) == len(names) and told == set(names)
    count.holds("Python: RECORD names each file once", is_well, str(told ^ set(names)))
    return page


def try_wheel(count, file, room):
    place = room / "python"
    place.mkdir()
    page = page_of(count, file)
    (place / "first.py").write_text(first_program(page, "python"))
    path = {"PATH": f"{os.path.dirname(os.path.realpath(sys.executable))}:/usr/bin:/bin"}
    words = [sys.executable, "-m", "venv", "venv"]
    if not count.run("Python: a fresh venv", words, place, **path):
        return
    python = place / "venv/bin/python"
    words = [python, "-m", "pip", "install", file]
    wanted = {"shown": "Successfully installed cedar-proved", **QUIET}
    if not count.run("Python: pip install", words, place, **wanted):
        return
    count.run("Python: pip check", [python, "-m", "pip", "check"], place, **QUIET)
    count.run("Python: the page's program", [python, "-I", "first.py"], place, shown=FIRST)
    wanted = {"status": 1, "given": FAULTY, "shown": f"-:{SHORT}"}
    count.run("Python: -m cedar", [python, "-m", "cedar"], place, **wanted)
    gone = f"{python} -m pip uninstall -y -q cedar-proved && ! find venv -path '*cedar*' | grep ."
    count.run("Python: pip uninstall leaves nothing", ["sh", "-c", gone], place, **QUIET)
