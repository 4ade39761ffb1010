"""What goes along with every archive: licences, whose work is in it, and what is proved."""
from kept import TOP
from licences import third_party
from proved import proved


def add_notices(release, tree, folder=""):
    for name in ("LICENSE", "NOTICE"):
        tree.add(folder + name, (TOP / name).read_bytes())
    tree.add(folder + "THIRD-PARTY.txt", third_party(release.kept))
    return tree.add(folder + "PROVED.txt", proved(release))
