#!/usr/bin/env python3
"""bill.py CRATES.json: print the bill of materials of the packages in dist/, as SPDX 2.3 in JSON.

It names each package with its digest, the crates that are linked into the tool (CRATES.json is cargo's metadata of it), what
the library is ported from, and what made it all: the kit, by the line of the file KIT, and the compilers. What it prints is
held to the rules of the standard that can be held here: names, references, licences.

bill.py --licences CRATES.json: print the licences of the crates that are linked into the tool, with their texts.
"""

import hashlib
import json
import os
import re
import subprocess
import sys
from datetime import datetime, timezone
from pathlib import Path

TOP = Path(__file__).resolve().parents[2]
# The names by which SPDX knows what the crates say; an older form has a slash for OR.
OLD_FORM = re.compile(r"\s*/\s*")


def linked(metadata):
    """The crates of others that are linked into the tool, by name and version; those that only run while it is built apart."""
    packages = {package["id"]: package for package in metadata["packages"]}
    nodes = {node["id"]: node for node in metadata["resolve"]["nodes"]}
    left, seen = [one["id"] for one in metadata["packages"] if one["name"] == "belt-tool"], set()
    while left:
        own = left.pop()
        if own in seen:
            continue
        seen.add(own)
        if is_macro(packages[own]):
            continue
        for other in nodes[own]["deps"]:
            if any(kind["kind"] is None for kind in other["dep_kinds"]):
                left.append(other["pkg"])
    # what stands in the repository has no source
    found = [packages[one] for one in seen if packages[one]["source"]]
    return sorted(found, key=lambda package: (package["name"], package["version"]))


def is_macro(package):
    return any("proc-macro" in target["kind"] for target in package["targets"])


def licence(package):
    return OLD_FORM.sub(" OR ", package["license"] or "NOASSERTION")


def licences(metadata):
    """Each crate with its licence; a text that several have stands once."""
    crates = [package for package in linked(metadata) if not is_macro(package)]
    texts = {}
    for package in crates:
        folder = Path(package["manifest_path"]).parent
        for path in sorted(folder.iterdir()):
            if path.is_file() and re.match(r"(LICEN[CS]E|COPYING|UNLICENSE)", path.name, re.I):
                text = path.read_text(encoding="utf-8", errors="replace").strip()
                texts.setdefault(text, []).append(f"{package['name']} {package['version']} ({path.name})")
    lines = ["The tool has these crates linked into it, each under the licence that stands beside it.", ""]
    lines += [f"  {one['name']} {one['version']}: {licence(one)}" for one in crates]
    for text, names in sorted(texts.items(), key=lambda item: item[1]):
        lines += ["", "-" * 79, *names, "-" * 79, "", text]
    return "\n".join(lines)


def said(*words):
    return subprocess.run(words, capture_output=True, text=True, check=True).stdout.split("\n")[0].strip()


def commit():
    try:
        return said("git", "-C", str(TOP), "rev-parse", "HEAD")
    except (OSError, subprocess.CalledProcessError):
        return None


def digest(path):
    return hashlib.sha256(path.read_bytes()).hexdigest()


def name_of(text):
    return "SPDXRef-" + re.sub(r"[^A-Za-z0-9.-]", "-", text)


def package(name, version, **more):
    own = {
        "SPDXID": name_of(f"{name}-{version}"),
        "name": name,
        "versionInfo": version,
        "downloadLocation": "NOASSERTION",
        "filesAnalyzed": False,
        "licenseConcluded": "NOASSERTION",
        "licenseDeclared": "NOASSERTION",
        "copyrightText": "NOASSERTION",
    }
    own.update(more)
    return own


def bill(metadata):
    version = (TOP / "VERSION").read_text(encoding="utf-8").strip()
    kit = (TOP / "KIT").read_text(encoding="utf-8").strip()
    date = datetime.fromtimestamp(int(os.environ["SOURCE_DATE_EPOCH"]), timezone.utc).strftime("%Y-%m-%dT%H:%M:%SZ")
    files = sorted(path for path in (TOP / "dist").iterdir() if path.suffix != ".json" and path.name != "SHA256SUMS")
    own = {
        "licenseConcluded": "MIT",
        "licenseDeclared": "MIT",
        "copyrightText": "Copyright (c) 2026 Vialfuture\nCopyright (c) 2026 Karpelès Lab Inc.",
        "supplier": "Organization: Vialfuture",
    }
    source = package("belt", version, **own, comment="the sources" + (f", commit {commit()}" if commit() else ""))
    ported = package(
        "oxideav-av1",
        "2467de2813",
        licenseConcluded="MIT",
        licenseDeclared="MIT",
        copyrightText="Copyright (c) 2026 Karpelès Lab Inc.",
        comment="OxideAV/oxideav-av1 at this commit; NOTICE names what is carried over from which file",
    )
    name, _, rest = kit.partition(" ")
    tools = [package("rattle-kit", rest.split()[-1], versionInfo=kit, comment="the line of the file KIT: what everything was proved with")]
    tools[0]["SPDXID"] = name_of(name)
    for words in (("rustc", "--version"), ("cc", "--version"), ("ld", "--version")):
        tools.append(package(words[0], said(*words)))
        tools[-1]["SPDXID"] = name_of(f"tool-{words[0]}")
    results = []
    for path in files:
        one = package(path.name, version, **own, packageFileName=path.name)
        one["checksums"] = [{"algorithm": "SHA256", "checksumValue": digest(path)}]
        one["SPDXID"] = name_of(path.name)
        results.append(one)
    crates = []
    for each in linked(metadata):
        crates.append(package(each["name"], each["version"], licenseDeclared=licence(each), comment="a crate of the tool"))
        crates[-1]["SPDXID"] = name_of(f"crate-{each['name']}-{each['version']}")
        crates[-1]["externalRefs"] = [
            {
                "referenceCategory": "PACKAGE-MANAGER",
                "referenceType": "purl",
                "referenceLocator": f"pkg:cargo/{each['name']}@{each['version']}",
            }
        ]
    pairs = [("SPDXRef-DOCUMENT", "DESCRIBES", one) for one in results]
    pairs += [(one["SPDXID"], "GENERATED_FROM", source) for one in results]
    pairs += [(source["SPDXID"], "DESCENDANT_OF", ported)]
    pairs += [(one["SPDXID"], "BUILD_TOOL_OF", source) for one in tools]
    # the archive of the crate and the packages of the library have no tool in them
    with_tool = [one for one in results if re.search(r"\.whl$|\.tar\.gz$|^belt_.*\.deb$", one["name"])]
    macros = {one["name"] for one in linked(metadata) if is_macro(one)}
    for crate in crates:
        if crate["name"] in macros:
            pairs.append((crate["SPDXID"], "BUILD_DEPENDENCY_OF", source))
        else:
            pairs += [(one["SPDXID"], "STATIC_LINK", crate) for one in with_tool]
    content = hashlib.sha256("".join(one["checksums"][0]["checksumValue"] for one in results).encode()).hexdigest()
    return {
        "spdxVersion": "SPDX-2.3",
        "dataLicense": "CC0-1.0",
        "SPDXID": "SPDXRef-DOCUMENT",
        "name": f"belt-{version}",
        "documentNamespace": f"https://vialfuture.example/spdx/belt-{version}-{content}",
        "creationInfo": {"created": date, "creators": ["Organization: Vialfuture", f"Tool: tools-package-{version}"]},
        "packages": [source, *results, ported, *tools, *crates],
        "relationships": [
            {"spdxElementId": one, "relationshipType": kind, "relatedSpdxElement": other["SPDXID"]} for one, kind, other in pairs
        ],
    }


def wrong(document):
    """What of the standard's rules doesn't hold: clauses 6 (the document), 7 (packages) and 11 (relationships)."""
    lines = []
    ids = [document["SPDXID"]] + [one["SPDXID"] for one in document["packages"]]
    lines += [f"{one} stands twice" for one in sorted(set(ids)) if ids.count(one) > 1]
    lines += [f"{one} is no name" for one in ids if not re.fullmatch(r"SPDXRef-[A-Za-z0-9.-]+", one)]
    lines += [f"{one['SPDXID']} has no {key}" for one in document["packages"] for key in ("name", "downloadLocation") if not one[key]]
    for one in document["relationships"]:
        lines += [f"{one[end]} isn't there" for end in ("spdxElementId", "relatedSpdxElement") if one[end] not in ids]
    related = {one[end] for one in document["relationships"] for end in ("spdxElementId", "relatedSpdxElement")}
    lines += [f"nothing is said of {one}" for one in ids if one not in related]
    named = {one[key] for one in document["packages"] for key in ("licenseDeclared", "licenseConcluded")} - {"NOASSERTION"}
    try:
        from license_expression import get_spdx_licensing
    except ImportError:
        print("bill.py: no python3-license-expression here: the names of licences aren't held to the list of SPDX", file=sys.stderr)
    else:
        for text in sorted(named):
            lines += [f"the licence {text}: {error}" for error in get_spdx_licensing().validate(text).errors]
    return lines


def main():
    words = sys.argv[1:]
    only = words[:1] == ["--licences"]
    if len(words) != 1 + only:
        raise SystemExit("usage: bill.py [--licences] CRATES.json")
    metadata = json.loads(Path(words[-1]).read_text(encoding="utf-8"))
    if only:
        print(licences(metadata))
        return 0
    document = bill(metadata)
    lines = wrong(document)
    for line in lines:
        print(f"bill.py: {line}", file=sys.stderr)
    print(json.dumps(document, indent=2, ensure_ascii=False))
    return 1 if lines else 0


if __name__ == "__main__":
    sys.exit(main())
