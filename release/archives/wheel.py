"""The wheel for Python."""
import re

import packing
from archives.notices import add_notices
from packing import Tree
from pages import first_call, needs, part
from release import HOSTS

# No installer knows an older name of this kind than 2.17 that has another one beside it.
OLDEST, OTHER_NAME = (2, 17), "manylinux2014_x86_64"
METADATA = """\
Metadata-Version: 2.1
Name: {name}
Version: {version}
Summary: {description}
License: Apache-2.0
Home-page: {home}
Requires-Python: {python}
Classifier: License :: OSI Approved :: Apache Software License
Classifier: Operating System :: POSIX :: Linux
Description-Content-Type: text/markdown

{page}"""
WHEEL = """\
Wheel-Version: 1.0
Generator: release/make ({version})
Root-Is-Purelib: false
"""


def platforms(release):
    """The names of the systems that the library runs on, by the glibc that it needs."""
    glibc = max(release.glibc("libcedar.so")[:2], OLDEST)
    names = [f"manylinux_{glibc[0]}_{glibc[1]}_x86_64"]
    return [*names, OTHER_NAME] if glibc == OLDEST else names


def metadata(release, version, wheel):
    """What the wheel says of itself, with its page."""
    project = (HOSTS / "python/pyproject.toml").read_text()
    told = dict(re.findall(r'(?m)^([\w-]+) = "(.*)"$', project))
    shown = {"WHEEL": wheel, "NEEDS": needs(release, "libcedar.so")}
    page = part(release, "README-python.md", FIRST=first_call(release, "python"), **shown)
    return METADATA.format(
        name=told["name"],
        version=version,
        description=told["description"],
        home=release.settings["HOMEPAGE"],
        python=told["requires-python"],
        page=page,
    )


def pack(release):
    version = release.version.replace("-", "+")
    names = platforms(release)
    wheel = f"cedar_proved-{version}-py3-none-{'.'.join(names)}.whl"
    info = f"cedar_proved-{version}.dist-info"
    tree = Tree()
    for it in sorted((HOSTS / "python/cedar").iterdir()):
        if it.suffix in (".py", ".typed"):
            tree.add(f"cedar/{it.name}", it.read_bytes())
    tree.add("cedar/libcedar.so", release.kept.read("libcedar.so"), True)
    tree.add(f"{info}/METADATA", metadata(release, version, wheel))
    tags = "".join(f"Tag: py3-none-{it}\n" for it in names)
    tree.add(f"{info}/WHEEL", WHEEL.format(version=release.plain) + tags)
    add_notices(release, tree, f"{info}/licenses/")
    tree.add(f"{info}/RECORD", packing.record(tree, f"{info}/RECORD"))
    release.write(wheel, packing.zipped(tree, release.epoch))
