"""Makes the wheel of this package, as pip asks for it (PEP 517), with nothing but Python's own
modules: pip installs the folder with no network, and with no setuptools or wheel beside it.

It reads of pyproject.toml what stands there in one line, and writes nothing into this folder. The
same files give the same bytes. By hand: python3 backend.py FOLDER
"""
import ast
import base64
import hashlib
import os
import sys
import zipfile

HERE = os.path.dirname(os.path.realpath(__file__))
TAG = "py3-none-any"


def tables():
    """The tables of pyproject.toml. (Python before 3.11 has no reader of TOML.)"""
    found, table = {}, {}
    with open(f"{HERE}/pyproject.toml", encoding="utf-8") as file:
        for line in file:
            key, equals, value = line.strip().partition(" = ")
            if line.startswith("["):
                table = found.setdefault(line.strip("[]\n"), {})
            elif equals and value[:1] in "\"[":
                table[key] = ast.literal_eval(value)
    return found


def metadata(project, extras):
    lines = ["Metadata-Version: 2.1", f"Name: {project['name']}", f"Version: {project['version']}",
             f"Summary: {project['description']}", f"Requires-Python: {project['requires-python']}"]
    for extra, needs in extras.items():
        lines += [f"Provides-Extra: {extra}",
                  *(f'Requires-Dist: {it}; extra == "{extra}"' for it in needs)]
    return "\n".join(lines) + "\n"


def contents():
    """The name of the wheel without its tag, and the bytes of each file in it, but for RECORD."""
    found = tables()
    project = found["project"]
    name = project["name"].replace("-", "_")
    folder, package = f"{name}-{project['version']}", f"{HERE}/src/{name}"
    files = {}
    for file in sorted(os.listdir(package)):
        if file.endswith((".py", ".typed")):
            with open(f"{package}/{file}", "rb") as opened:
                files[f"{name}/{file}"] = opened.read()
    scripts = [f"{it} = {at}\n" for it, at in found["project.scripts"].items()]
    for file, text in (
            ("METADATA", metadata(project, found["project.optional-dependencies"])),
            ("WHEEL", f"Wheel-Version: 1.0\nGenerator: {name}\nRoot-Is-Purelib: true\nTag: {TAG}\n"),
            ("entry_points.txt", "".join(["[console_scripts]\n", *scripts]))):
        files[f"{folder}.dist-info/{file}"] = text.encode()
    return folder, files


def build_wheel(wheel_directory, config_settings=None, metadata_directory=None):
    """Writes the wheel into that folder, and returns its name."""
    folder, files = contents()
    record = f"{folder}.dist-info/RECORD"
    sums = {name: base64.urlsafe_b64encode(hashlib.sha256(it).digest()).decode().rstrip("=")
            for name, it in files.items()}
    rows = [f"{name},sha256={sums[name]},{len(it)}\n" for name, it in files.items()]
    files[record] = "".join([*rows, f"{record},,\n"]).encode()
    wheel = f"{folder}-{TAG}.whl"
    with zipfile.ZipFile(f"{wheel_directory}/{wheel}", "w", zipfile.ZIP_DEFLATED) as packed:
        for name, it in files.items():
            entry = zipfile.ZipInfo(name)
            entry.external_attr = 0o644 << 16
            packed.writestr(entry, it, zipfile.ZIP_DEFLATED)
    return wheel


if __name__ == "__main__":
    print(build_wheel(sys.argv[1]))
