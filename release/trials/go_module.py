"""Builds a program over the module for Go, by a proxy that is a folder, here or in a root."""
import shutil
import zipfile

from trials.given import FIRST, first_program
from trials.roots import inside

STEPS = {"go get": "go get {module}@{version}", "go build": "go build -o first ."}
STEPS |= {"go vet": "go vet .", "go mod verify": "go mod verify"}
# With the folder of `chroot`, too.
PATH = "/usr/local/go/bin:/usr/bin:/bin:/usr/sbin:/sbin"
VENDORED = "go mod vendor && GOFLAGS=-mod=vendor go build -o second . && ./second"


def lay_program(folder, home):
    """Lays the proxy and the page's program; returns the module and its version."""
    shutil.copytree(folder / "go", home / "proxy")
    module = str(next((home / "proxy").rglob("@v")).parent.relative_to(home / "proxy"))
    version = next((home / "proxy").rglob("list")).read_text().strip()
    with zipfile.ZipFile(next((home / "proxy").rglob("*.zip"))) as it:
        page = it.read(f"{module}@{version}/README.md").decode()
    (home / "first").mkdir()
    (home / "first/main.go").write_text(first_program(page, "go"))
    (home / "first/go.mod").write_text("module first\n\ngo 1.19\n")
    return module, version


def try_go(count, folder, room, root=None):
    """A program of Go, here or in a root that has go and a C compiler."""
    home = (root.place if root else room) / "tmp/go-try"
    home.mkdir(parents=True)
    module, version = lay_program(folder, home)
    at = "/tmp/go-try" if root else str(home)
    flags = {"GOPROXY": f"file://{at}/proxy", "GONOSUMDB": module, "GOTOOLCHAIN": "local"}
    flags |= {"GOFLAGS": "-mod=mod -modcacherw", "GOPATH": f"{at}/path", "GOCACHE": f"{at}/cache"}
    flags |= {"HOME": at, "CGO_ENABLED": 1, "PATH": PATH}
    if not root:
        flags["PATH"] = f"{shutil.which('go').rpartition('/')[0]}:{flags['PATH']}"

    def run(name, line, **wanted):
        words = ["/bin/sh", "-c", f"cd {at}/first && {line}"]
        given = inside(root.place, *words) if root else words
        return count.run(f"Go: {name}", given, "/", **flags, **wanted)

    given = {"module": module, "version": version}
    if all(run(name, line.format(**given)) for name, line in STEPS.items()):
        run("the page's program", "./first", status=1, shown=FIRST)
        run("vendored, with its archive", VENDORED, status=1, shown=FIRST)
