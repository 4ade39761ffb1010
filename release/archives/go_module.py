"""The module for Go, as a folder that GOPROXY can name. Library and header stand beside its files,
since `go mod vendor` drops folders without Go."""
import json
import re

import packing
from archives.notices import add_notices
from packing import Tree
from pages import first_call, needs, part
from release import HOSTS

BY_VARIABLES = "CGO_CFLAGS names the folder of cedar.h, CGO_LDFLAGS that of\n// libcedar.a."
CARRIED = """\
package cedar

// The header and the library stand beside this file.

// #cgo CFLAGS: -I${SRCDIR}
// #cgo LDFLAGS: -L${SRCDIR}
import "C"
"""


def module_tree(release, go_mod):
    folder = HOSTS / "go"
    source = (folder / "cedar.go").read_text()
    tree = Tree().add("go.mod", go_mod)
    source = source.replace(f"by cgo: {BY_VARIABLES}", "by cgo; the module carries it.")
    tree.add("cedar.go", source)
    tree.add("cedar_test.go", (folder / "cedar_test.go").read_bytes())
    tree.add("carried_linux_amd64.go", CARRIED)
    tree.add("cedar.h", (HOSTS / "c/cedar.h").read_bytes())
    tree.add("libcedar.a", release.kept.read("libcedar.a"))
    told = {"NEEDS": needs(release, "libcedar.so"), "FIRST": first_call(release, "go")}
    tree.add("README.md", part(release, "README-go.md", **told))
    return add_notices(release, tree)


def pack(release):
    module, version = release.settings["GO_MODULE"], f"v{release.version}"
    go_mod = (HOSTS / "go/go.mod").read_text().replace("module cedar\n", f"module {module}\n")
    tree = module_tree(release, go_mod).below(f"{module}@{version}")
    # A proxy writes a capital letter as a small one behind an exclamation mark.
    place = f"go/{re.sub('[A-Z]', lambda it: '!' + it[0].lower(), module)}/@v"
    about = {"Version": version, "Time": release.day.strftime("%Y-%m-%dT%H:%M:%SZ")}
    release.write(f"{place}/list", f"{version}\n")
    release.write(f"{place}/{version}.info", json.dumps(about) + "\n")
    release.write(f"{place}/{version}.mod", go_mod)
    release.write(f"{place}/{version}.zip", packing.zipped(tree, release.epoch))
