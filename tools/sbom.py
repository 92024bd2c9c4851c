"""The parts of a package of cvr, for tools/package: a bill of materials in SPDX 2.3, as JSON. It names the program and the
library, the kit and those of its libraries that a crate uses, what else was linked in, and the modules of Python that
cvr-audit or the package for Python import. What is linked in stands with its version; of Python any from 3.9 on serves."""
import ast
import glob
import json
import os
import re
import urllib.parse

TOP = os.path.dirname(os.path.dirname(os.path.realpath(__file__)))
UNKNOWN = 'NOASSERTION'     # of SPDX
GRANTED = 'Permission is hereby granted, free of charge'    # of the MIT licence
PYTHON = {'cvr-audit': ['companion/cvr-audit', 'companion/cvr_audit/*.py'], 'cvr for Python': ['python/cvr/*.py']}


def text_of(path):
    with open(path, encoding='utf-8') as file:
        return file.read()


def libraries_of(crate):
    """The libraries of the kit that a crate uses, also by the crates below it."""
    lines = [line.split(':') for line in text_of(TOP + '/crates.txt').splitlines() if ':' in line and not line.startswith('#')]
    uses, found, left = {name.split()[0]: words.split() for name, words in lines}, set(), [crate]
    while left:
        it = left.pop()
        found.add(it)
        left += set(uses.get(it, [])) - found
    return sorted(found - set(uses))


def modules_of(patterns):
    """The modules of Python's own library that files import."""
    found = set()
    for path in [path for pattern in patterns for path in glob.glob(os.path.join(TOP, pattern))]:
        for it in ast.walk(ast.parse(text_of(path))):
            found |= {name.name for name in it.names} if isinstance(it, ast.Import) else set()
            found |= {it.module} if isinstance(it, ast.ImportFrom) and not it.level else set()
    return sorted({it.split('.')[0] for it in found} - {'cvr', 'cvr_audit'})


def part(name, version, **more):
    """A package, as SPDX calls each part."""
    held = {'SPDXID': 'SPDXRef-' + re.sub('[^A-Za-z0-9.-]', '-', name), 'name': name, 'versionInfo': version, 'downloadLocation': UNKNOWN,
            'filesAnalyzed': False, 'licenseConcluded': UNKNOWN, 'licenseDeclared': UNKNOWN, 'copyrightText': UNKNOWN}
    return dict(held, **more)


def called(kind, name, version):
    """The name by which others look a part up, a package URL."""
    locator = 'pkg:%s/%s@%s' % (kind, name, urllib.parse.quote(version))
    return [{'referenceCategory': 'PACKAGE-MANAGER', 'referenceType': 'purl', 'referenceLocator': locator}]


def own(name, version, total, purpose):
    """A part that this project makes, with its SHA-256."""
    sums = [{'algorithm': 'SHA256', 'checksumValue': total}] if total else []
    return part(name, version, licenseDeclared='MIT', licenseConcluded='MIT', primaryPackagePurpose=purpose, **({'checksums': sums} if sums else {}))


def of_kit(library, kit, folder):
    """A library of the kit, and the crate of Rust that it is a port of, as its README says."""
    read = lambda name: text_of(os.path.join(folder, library, name)) if os.path.exists(os.path.join(folder, library, name)) else ''
    licence = 'MIT' if GRANTED in read('LICENSE-MIT') + read('LICENSE') else UNKNOWN
    ported = re.search(r'[Rr]ust crate `%s` (\d+\.\d+\.\d+)' % library, read('README.md'))
    more = {'comment': 'a port of the Rust crate %s %s' % (library, ported.group(1)), 'externalRefs': called('cargo', library, ported.group(1))} if ported else {}
    return part(library, kit, licenseConcluded=licence, **more)


def linked(line):
    """A package of Debian, of a line with its name and version."""
    name, _, version = line.partition(' ')
    return part(name, version, externalRefs=called('deb/debian', name, version))


def bill(label, version, date, programs, kit, folder):
    """The text for what has this label. `programs` has of each program or library in it, by name, the crate, the sum, the
    purpose and the lines of what else is linked in; `folder` is where the kit has its libraries."""
    held, relations, document = {}, [], 'SPDXRef-DOCUMENT'

    def add(it):
        held[it['SPDXID']] = it
        return it['SPDXID']

    for name, (crate, total, purpose, packages) in programs.items():
        user = add(own(name, version, total, purpose))
        relations.append((user, 'DESCRIBED_BY', document))
        relations.append((add(part('rattle kit', kit, comment='the compiler, the core library, and some C that is linked in')), 'BUILD_TOOL_OF', user))
        parts = [of_kit(it, kit, folder) for it in libraries_of(crate)] + [linked(it) for it in packages]
        relations += [(user, 'STATIC_LINK', add(it)) for it in parts]
    for name, patterns in PYTHON.items():
        user = add(own(name, version, '', 'APPLICATION'))
        relations.append((user, 'DESCRIBED_BY', document))
        parts = [part('python:' + it, '3.9 or later', licenseDeclared='PSF-2.0') for it in modules_of(patterns)]
        relations += [(add(it), 'RUNTIME_DEPENDENCY_OF', user) for it in parts]
    return json.dumps({
        'spdxVersion': 'SPDX-2.3', 'dataLicense': 'CC0-1.0', 'SPDXID': document, 'name': label,
        'documentNamespace': 'https://cvr.invalid/spdx/%s-%s' % (label, list(programs.values())[0][1]),
        'creationInfo': {'created': date + 'T00:00:00Z', 'creators': ['Tool: tools/package of cvr ' + version]}, 'packages': list(held.values()),
        'relationships': [dict(zip(('spdxElementId', 'relationshipType', 'relatedSpdxElement'), it)) for it in relations]}, indent=1) + '\n'
