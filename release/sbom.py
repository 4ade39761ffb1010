"""The list of a release's parts, as SPDX 2.3."""
import hashlib
import json
import re

from licences import expression_of
from packing import digest

DOCUMENT, CEDAR, KIT = "SPDXRef-DOCUMENT", "SPDXRef-cedar", "SPDXRef-kit"
UNSAID = "NOASSERTION"


def package(identity, name, version, licence, **more):
    return {
        "SPDXID": identity,
        "name": name,
        "versionInfo": version,
        "licenseDeclared": licence,
        "licenseConcluded": UNSAID,
        "copyrightText": UNSAID,
        "downloadLocation": UNSAID,
        "filesAnalyzed": False,
        **more,
    }


def libraries(kept):
    """The kit's libraries that are linked in, as packages."""
    for name, told in kept.facts["libraries"].items():
        identity = f"SPDXRef-{name.replace('_', '-')}"
        ported = " ".join(told["ported"] or [])
        more = {"comment": f"a port to Rattle of the Rust crate {ported}"} if ported else {}
        yield package(identity, name, kept.facts["kit"], expression_of(kept, name), **more)


def files(kept):
    for name, known in kept.facts["files"].items():
        if name == "gate.log":
            continue
        sums = {"SHA256": known, "SHA1": hashlib.sha1(kept.read(name)).hexdigest()}
        yield {
            "SPDXID": f"SPDXRef-file-{re.sub('[^A-Za-z0-9.]', '-', name)}",
            "fileName": f"./{name}",
            "checksums": [{"algorithm": kind, "checksumValue": it} for kind, it in sums.items()],
            "licenseConcluded": UNSAID,
            "copyrightText": UNSAID,
        }


def relations(linked, held):
    """What each part is to the others."""
    links = [(DOCUMENT, "DESCRIBES", CEDAR), (KIT, "BUILD_TOOL_OF", CEDAR)]
    links += [(CEDAR, "STATIC_LINK", it["SPDXID"]) for it in linked]
    links += [(CEDAR, "CONTAINS", it["SPDXID"]) for it in held]
    names = ("spdxElementId", "relationshipType", "relatedSpdxElement")
    return [dict(zip(names, it)) for it in links]


def sbom(release):
    kept, name = release.kept, f"cedar-{release.version}"
    purpose = {"primaryPackagePurpose": "APPLICATION"}
    cedar = package(CEDAR, "cedar", release.version, "Apache-2.0", **purpose)
    kit = package(KIT, "rattle-kit", kept.facts["kit"], UNSAID)
    linked, held = [*libraries(kept)], [*files(kept)]
    mark = digest(json.dumps(kept.facts, sort_keys=True).encode())[:16]
    whole = {
        "spdxVersion": "SPDX-2.3",
        "dataLicense": "CC0-1.0",
        "SPDXID": DOCUMENT,
        "name": name,
        "documentNamespace": f"{release.settings['HOMEPAGE']}/spdx/{name}-{mark}",
        "creationInfo": {
            "created": release.day.strftime("%Y-%m-%dT%H:%M:%SZ"),
            "creators": ["Tool: release/make"],
        },
        "packages": [cedar, kit, *linked],
        "files": held,
        "relationships": relations(linked, held),
    }
    return json.dumps(whole, indent=1, sort_keys=True) + "\n"
