"""Debian's packages of what a release lays below usr, by the command dpkg-deb."""
import fnmatch
import gzip
import hashlib
import os
import re
import shutil
import subprocess
import sys
import textwrap
from email.utils import formatdate

sys.path.insert(1, os.path.join(os.path.dirname(os.path.realpath(__file__)), "../tools"))
from checks import ROOT, read, write

HERE = os.path.join(ROOT, "packaging/debian")
LIBRARIES = "lib/x86_64-linux-gnu"
# (one field: no address is invented)
MAINTAINER = "nobody is named yet <nobody@rcu.invalid>"


def soname_of(version):
    """The number of the shared objects: the first one of the version, and while that is 0 the second
    one too, as 0.3."""
    first, second, _ = version.split(".")
    return first if first != "0" else f"0.{second}"


def files_in(folder):
    """The files and links below it, by their paths from there."""
    return sorted(os.path.relpath(os.path.join(at, name), folder)
                  for at, _, names in os.walk(folder) for name in names)


def zipped(path, text):
    os.makedirs(os.path.dirname(path), exist_ok=True)
    with open(path, "wb") as file:
        file.write(gzip.compress(text.encode(), 9, mtime=0))


def changelog(version, time):
    """The version's part of CHANGELOG.md, as Debian writes it."""
    own = re.search(rf"(?ms)^## {re.escape(version)} .*?\n(.*?)(?=^## |\Z)", read("CHANGELOG.md"))[1]
    items = re.split(r"(?m)^- ", re.sub(r"(?m)^### .*\n", "", own))[1:]
    rows = "\n".join(textwrap.fill(" ".join(it.split()), 78, initial_indent="  * ",
                                   subsequent_indent="    ", break_on_hyphens=False)
                     for it in items)
    return (f"rcu ({version}) unstable; urgency=medium\n\n{rows}\n\n"
            f" -- {MAINTAINER}  {formatdate(time)}\n")


def stanzas(values):
    """The fields of each package, in their order."""
    text = read("packaging/debian/control")
    for name, value in values.items():
        text = text.replace(f"@{name}@", value)
    for part in text.strip().split("\n\n"):
        yield dict(re.findall(r"(?m)^([\w-]+): (.*(?:\n .*)*)", part))


def lay(usr, fields, folder, taken):
    """Moves the package's files into the folder, but for those that another one has."""
    for path in files_in(usr):
        if path not in taken and any(fnmatch.fnmatch(path, it) for it in fields["Files"].split()):
            taken.add(path)
            target = f"{folder}/usr/{path}"
            if path.startswith("share/man") and not os.path.islink(f"{usr}/{path}"):
                zipped(f"{target}.gz", read(f"{usr}/{path}"))
            else:
                os.makedirs(os.path.dirname(target), exist_ok=True)
                shutil.copy(f"{usr}/{path}", target, follow_symlinks=False)


def describe(fields, folder, version, time, build, sums):
    """Writes what dpkg reads of a package, and its documents."""
    name, control = fields["Package"], f"{folder}/DEBIAN"
    documents = f"{folder}/usr/share/doc/{name}"
    licence = read("LICENSE")
    write(f"{documents}/copyright", f"The library rcu, and the program.\n\n{licence}")
    zipped(f"{documents}/changelog.gz", changelog(version, time))
    own = [line for path, line in sums.items() if os.path.exists(f"{folder}/usr/{path}")]
    write(f"{documents}/PROVED", "".join(own))
    write(f"{documents}/BUILD", build)
    overrides = f"{HERE}/{name}.lintian-overrides"
    if os.path.exists(overrides):
        write(f"{folder}/usr/share/lintian/overrides/{name}", read(overrides))
    if name.startswith("librcu") and name[-1].isdigit():
        shared = [re.search(r"/(librcu[\w-]*)\.so\.([\d.]+)$", it) for it in files_in(folder)]
        sonames = sorted(it.groups() for it in shared if it and it[2] != version)
        write(f"{control}/shlibs",
              "".join(f"{it} {number} {name} (>= {version})\n" for it, number in sonames))
        write(f"{control}/triggers", "activate-noawait ldconfig\n")
    sums = [(f"{folder}/{it}", it) for it in files_in(folder) if not it.startswith("DEBIAN")]
    plain = [it for it in sums if not os.path.islink(it[0])]
    size = sum(-(-os.path.getsize(it[0]) // 1024) for it in plain)
    write(f"{control}/md5sums", "".join(
        f"{hashlib.md5(open(path, 'rb').read()).hexdigest()}  {it}\n" for path, it in plain))
    said = {"Package": name, "Version": version, "Architecture": "amd64", "Source": "rcu",
            "Maintainer": MAINTAINER, "Installed-Size": str(size), "Priority": "optional",
            **{key: it for key, it in fields.items() if key not in ("Files", "Package")}}
    description = said.pop("Description") + "\n .\n " + licence.strip().replace("\n", "\n ")
    said.pop("Source") if name == "rcu" else None
    write(f"{control}/control", "".join(f"{key}: {it}\n" for key, it in said.items())
          + f"Description: {description}\n")


def even(folder):
    """Gives each file and folder the mode that it has in a package."""
    for at, _, names in os.walk(folder):
        os.chmod(at, 0o755)
        for path in (f"{at}/{it}" for it in names):
            if not os.path.islink(path):
                runs = os.access(path, os.X_OK) and not path.endswith((".so", ".8")) \
                    and "/lib" not in os.path.relpath(path, folder)
                os.chmod(path, 0o755 if runs else 0o644)


def pack(usr, room, folder, glibc, time, build, sums):
    """Makes a package of each stanza of debian/control. Returns their paths."""
    version, taken, made = read("VERSION").strip(), set(), []
    for fields in stanzas({"VERSION": version, "SONAME": soname_of(version), "GLIBC": glibc}):
        name = fields["Package"]
        lay(usr, fields, f"{room}/{name}", taken)
        describe(fields, f"{room}/{name}", version, time, build, sums)
        even(f"{room}/{name}")
        made.append(f"{folder}/{name}_{version}_amd64.deb")
        subprocess.run(["dpkg-deb", "--root-owner-group", "--build", f"{room}/{name}", made[-1]],
                       check=True, stdout=subprocess.DEVNULL,
                       env={**os.environ, "SOURCE_DATE_EPOCH": str(int(time))})
    left = set(files_in(usr)) - taken
    if left:
        raise ValueError(f"no package has {sorted(left)[0]}")
    return made
