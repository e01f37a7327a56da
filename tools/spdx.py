#!/usr/bin/env python3
"""Prints an SPDX 2.3 document of a release: its artifacts, and what is in them.

    tools/spdx.py VERSION COMMIT ARTIFACT..

Everything is made from the archive of the sources. The programs for Linux contain musl. SOURCE_DATE_EPOCH is the time.
"""
import datetime
import hashlib
import json
import os
import pathlib
import sys

NONE = "NOASSERTION"


def spdx_package(name, version, license_, **more):
    return {"SPDXID": f"SPDXRef-{''.join(it if it.isalnum() else '-' for it in name)}", "name": name,
            "versionInfo": version, "downloadLocation": NONE, "filesAnalyzed": False, "licenseConcluded": license_,
            "licenseDeclared": license_, "copyrightText": NONE, **more}


def spdx_document(version, commit, paths):
    """The document, whose first artifact that is an archive of the sources is what all others are made from."""
    artifacts = [spdx_package(os.path.basename(path), version, "NONE", checksums=[
        {"algorithm": "SHA256", "checksumValue": hashlib.sha256(pathlib.Path(path).read_bytes()).hexdigest()}])
        for path in paths]
    musl = spdx_package("musl", NONE, "MIT")
    source = next(it for it in artifacts if it["name"] == f"vulfsjor-{version}.tar.xz")
    source["sourceInfo"] = f"git commit {commit}"
    links = [("SPDXRef-DOCUMENT", "DESCRIBES", it) for it in artifacts]
    links += [(it["SPDXID"], "GENERATED_FROM", source) for it in artifacts if it is not source]
    links += [(it["SPDXID"], "CONTAINS", musl) for it in artifacts if "-linux-" in it["name"]]
    time = datetime.datetime.fromtimestamp(int(os.environ["SOURCE_DATE_EPOCH"]), datetime.timezone.utc)
    return {"spdxVersion": "SPDX-2.3", "dataLicense": "CC0-1.0", "SPDXID": "SPDXRef-DOCUMENT",
            "name": f"vulfsjor-{version}", "documentNamespace": f"urn:vulfsjor:{version}:{commit}",
            "creationInfo": {"created": f"{time:%Y-%m-%dT%H:%M:%SZ}", "creators": ["Tool: tools/spdx.py"]},
            "packages": [*artifacts, musl],
            "relationships": [{"spdxElementId": one, "relationshipType": kind, "relatedSpdxElement": other["SPDXID"]}
                              for one, kind, other in links]}


if len(sys.argv) < 4:
    sys.exit("usage: tools/spdx.py VERSION COMMIT ARTIFACT..")
print(json.dumps(spdx_document(sys.argv[1], sys.argv[2], sys.argv[3:]), indent=1))
