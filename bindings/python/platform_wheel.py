"""Builds the wheel: the package, with the library that bindings/build has made in it. It needs nothing but Python 3.11, so it works
without a network. `pip wheel` calls it by pyproject.toml, and bindings/wheel does."""
import base64, hashlib, os, re, shutil, tomllib, zipfile

HERE = os.path.dirname(os.path.abspath(__file__))
LIBRARY = os.path.join(HERE, "../out/libkolatennis.so")
LICENCES = ("LICENSE-MIT", "LICENSE-APACHE")
TAG = "py3-none-linux_x86_64"
#: The earliest time that a zip can have, so that equal contents are equal wheels.
TIME = (1980, 1, 1, 0, 0, 0)


def version():
    """Returns the version of the package."""
    with open(os.path.join(HERE, "kolatennis/_version.py")) as file:
        return re.search(r'__version__ = "(.*)"', file.read())[1]


def licences():
    """Returns the paths of the licences, where they are."""
    paths = [os.path.join(HERE, "../..", name) for name in LICENCES]
    return [path for path in paths if os.path.exists(path)]


def metadata():
    """Returns the text of METADATA."""
    with open(os.path.join(HERE, "pyproject.toml"), "rb") as file:
        project = tomllib.load(file)["project"]
    lines = [
        "Metadata-Version: 2.4",
        f"Name: {project['name']}",
        f"Version: {version()}",
        f"Summary: {project['description']}",
        f"License-Expression: {project['license']}",
        *[f"License-File: {os.path.basename(path)}" for path in licences()],
        *[f"Author: {author['name']}" for author in project["authors"]],
        f"Keywords: {','.join(project['keywords'])}",
        f"Requires-Python: {project['requires-python']}",
    ]
    for extra, wanted in project["optional-dependencies"].items():
        lines += [f"Provides-Extra: {extra}", *[f'Requires-Dist: {name}; extra == "{extra}"' for name in wanted]]
    return "\n".join(lines) + "\n"


def contents():
    """Returns the contents of the wheel's files by their names, but for RECORD."""
    files = {}
    package = os.path.join(HERE, "kolatennis")
    for name in sorted(os.listdir(package)):
        if name.endswith(".py") or name == "py.typed":
            files[f"kolatennis/{name}"] = os.path.join(package, name)
    files["kolatennis/libkolatennis.so"] = LIBRARY
    info = f"kolatennis-{version()}.dist-info"
    files.update({f"{info}/licenses/{os.path.basename(path)}": path for path in licences()})
    found = {}
    for name, path in files.items():
        with open(path, "rb") as file:
            found[name] = file.read()
    found[f"{info}/METADATA"] = metadata().encode()
    found[f"{info}/WHEEL"] = f"Wheel-Version: 1.0\nGenerator: platform_wheel\nRoot-Is-Purelib: false\nTag: {TAG}\n".encode()
    return found


def record(files, name):
    """Returns the text of RECORD, whose name this is: each file with its digest and its length."""
    lines = []
    for it, content in files.items():
        digest = base64.urlsafe_b64encode(hashlib.sha256(content).digest()).rstrip(b"=").decode()
        lines.append(f"{it},sha256={digest},{len(content)}\n")
    return "".join(lines) + f"{name},,\n"


def build_wheel(wheel_directory, config_settings=None, metadata_directory=None):
    """Writes the wheel into a folder, and returns its name."""
    files = contents()
    at = f"kolatennis-{version()}.dist-info/RECORD"
    files[at] = record(files, at).encode()
    name = f"kolatennis-{version()}-{TAG}.whl"
    path = os.path.join(wheel_directory, name)
    with zipfile.ZipFile(path + ".new", "w", zipfile.ZIP_DEFLATED) as archive:
        for it, content in files.items():
            entry = zipfile.ZipInfo(it, TIME)
            entry.external_attr = 0o100644 << 16
            archive.writestr(entry, content, zipfile.ZIP_DEFLATED)
    shutil.move(path + ".new", path)
    return name
