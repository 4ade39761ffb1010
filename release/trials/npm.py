"""Installs the tarball for npm into an empty folder, and imports it."""
import shutil

PACKAGE = '{"name":"first","version":"0.0.0","private":true,"type":"module"}'
FIRST = """\
import * as cedar from "cedar-proved";
console.log(Object.keys(cedar).length > 0 ? "loaded" : "");
"""


def try_npm(count, file, room):
    if not file:
        return count.leave_out("npm", "the release has no tarball for it")
    if not shutil.which("npm"):
        return count.leave_out("npm", "there is no npm")
    place = room / "npm"
    place.mkdir()
    (place / "package.json").write_text(PACKAGE)
    words = ["npm", "install", "--offline", "--no-audit", "--no-fund", file]
    if count.run("npm install", words, place, npm_config_cache=room / "npm_cache"):
        (place / "first.mjs").write_text(FIRST)
        count.run("node imports it", ["node", "first.mjs"], place, shown="loaded")
    return None
