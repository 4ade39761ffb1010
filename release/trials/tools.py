"""Uses the programs in a root, as a person does: the commands, the manual, bash's completions."""
import re
import shutil

from trials.given import FAULTY, GOOD, PLAIN, unpacked

PAGES = {"cedar": "CEDAR(1)", "cedar-check-parse": "--error-format"}
PAGES |= {"cedar-format": "--line-width", "cedar-list": "--no-extensions"}
COMPLETED = {
    "cedar ": "check-parse format list help",
    "cedar format --l": "--line-width",
    "cedar list -f ": "human plain json",
    "cedar check-parse -p /tmp/a.c": "/tmp/a.cedar",
}
IN_PLACE = "cd /tmp && printf 'permit(principal,action,resource) ;' > a.cedar"
IN_PLACE += " && {cedar} format -w -p a.cedar && cat a.cedar"
# How the page says that the archive is unpacked over a prefix.
INSTALLED = r"    sudo (tar (?:.*\\\n)*.*)\n"
BUILDERS = "/opt/rattle /usr/bin/cc /usr/bin/python3"


def try_programs(root, prefix, version):
    """Each command once, by what it prints and how it ends."""
    cedar, run = f"{prefix}/bin/cedar", root.run
    run("cedar --version", f"{cedar} --version", shown=f"cedar {version}")
    refused = {"status": 1, "given": FAULTY, "shown": PLAIN}
    run("cedar check-parse refuses", f"{cedar} check-parse -f plain", **refused)
    run("cedar check-parse takes", f"{cedar} check-parse", given=GOOD)
    given = "permit(principal,action,resource)when{true};"
    run("cedar format", f"{cedar} format", given=given, shown="when { true };")
    run("cedar list", f"{cedar} list", given=GOOD, shown='"id":"policy0"')
    in_place = IN_PLACE.format(cedar=cedar)
    run("cedar format --write", in_place, shown="permit (principal, action, resource);")
    run("cedar-parse", f"{cedar}-parse policies", given=GOOD, shown="ok 1")


def try_manual(root, share):
    for page, word in PAGES.items():
        line = f"f={share}/man/man1/{page}.1; [ -e $f ] || f=$f.gz; "
        line += "MANWIDTH=80 man --warnings=w -l $f < /dev/null | cat"
        root.run(f"man -l {page}.1", line, shown=word)


def try_completions(root, share):
    for line, wanted in COMPLETED.items():
        words = line.split(" ")
        asked = f"source {share}/bash-completion/completions/cedar; "
        asked += f"COMP_WORDS=({' '.join(map(repr, words))}); COMP_CWORD={len(words) - 1}; "
        asked += '_cedar; echo "${COMPREPLY[@]}"'
        root.run(f"bash completes `{line}`", asked, shown=wanted)


def try_tools(root, prefix, share, version, has_man):
    try_programs(root, prefix, version)
    if has_man:
        try_manual(root, share)
    try_completions(root, share)


def try_archive(root, file, room, version, has_man):
    """The archive in a bare root: unpacked anywhere, and over a prefix as its page says."""
    top = unpacked(file, room / "tools")
    shutil.copytree(top, root.place / "opt/cedar", symlinks=True)
    root.run("has no compiler, no Python, no kit", f"! ls -d {BUILDERS} 2> /dev/null | grep .")
    try_tools(root, "/opt/cedar", "/opt/cedar/share", version, has_man)
    line = re.search(INSTALLED, (top / "README.md").read_text())[1]
    shutil.copy(file, root.place / "tmp")
    install = f"mkdir -p /usr/local; cd /tmp && {line} && ls /usr/local"
    root.run("the page's way of installing", install, shown="bin\nshare\n")
    if has_man:
        named = "MANWIDTH=80 man cedar-format < /dev/null | cat"
        root.run("man finds it by name", named, shown="CEDAR-FORMAT(1)")
    root.run("removed again", "rm -rf /opt/cedar /usr/local")


def try_shells(root, file, room):
    """The completions of zsh and fish, in a root that has these shells."""
    place = root.place / "opt/cedar"
    if not place.exists():
        shutil.copytree(unpacked(file, room / f"shells-{root.place.name}"), place, symlinks=True)
    share = "/opt/cedar/share"
    if root.has("zsh"):
        ask = f"fpath=({share}/zsh/site-functions $fpath); autoload -U compinit; compinit -D -u; "
        ask += "whence -v _cedar; print ${_comps[cedar]}"
        root.run("zsh finds the completion", f"zsh -f -c '{ask}'", shown="_cedar")
        root.run("zsh reads it", f"zsh -n {share}/zsh/site-functions/_cedar")
    if root.has("fish"):
        ask = f"source {share}/fish/vendor_completions.d/cedar.fish; "
        ask += 'complete -C \\"cedar list --e\\"; complete -C \\"cedar \\"'
        wanted = ["--error-format", "--extension-method", "check-parse"]
        root.run("fish completes", f'PATH=/opt/cedar/bin:$PATH fish -c "{ask}"', shown=wanted)
