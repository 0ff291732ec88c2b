"""Builds the package for pip (PEP 517). It needs no other package, so `pip install ./clients` works without a network."""
import base64
import hashlib
import os
import re
import tarfile
import zipfile

ROOT = os.path.dirname(os.path.dirname(os.path.realpath(__file__)))


def read(path):
    with open(os.path.join(ROOT, path), "rb") as file:
        return file.read()


DECLARED = read("pyproject.toml").decode()
VERSION, SUMMARY, PYTHON = (re.search(rf'^{it} = "(.*)"$', DECLARED, re.M)[1] for it in ("version", "description", "requires-python"))
COMMANDS = re.findall(r'^([a-z-]+) = "([\w.]+:\w+)"$', DECLARED, re.M)
METADATA = f"Metadata-Version: 2.1\nName: sorachest\nVersion: {VERSION}\nSummary: {SUMMARY}\nRequires-Python: {PYTHON}\n"


def modules():
    """The modules of the package: their names and contents."""
    names = sorted(f"sorachest/{it}" for it in os.listdir(f"{ROOT}/sorachest") if it.endswith(".py"))
    return {name: read(name) for name in names}


def recorded(name, content):
    """The line of a file in the list of a wheel's files."""
    digest = base64.urlsafe_b64encode(hashlib.sha256(content).digest()).rstrip(b"=").decode()
    return f"{name},sha256={digest},{len(content)}\n"


def write_wheel(folder, contents):
    """Writes a wheel with these files and the package's metadata, and returns its name."""
    about = f"sorachest-{VERSION}.dist-info"
    commands = "".join(f"{name} = {call}\n" for name, call in COMMANDS)
    files = {
        **contents,
        f"{about}/METADATA": METADATA.encode(),
        f"{about}/WHEEL": b"Wheel-Version: 1.0\nGenerator: wheel_builder\nRoot-Is-Purelib: true\nTag: py3-none-any\n",
        f"{about}/entry_points.txt": f"[console_scripts]\n{commands}".encode(),
    }
    record = "".join(recorded(*it) for it in files.items()) + f"{about}/RECORD,,\n"
    wheel = f"sorachest-{VERSION}-py3-none-any.whl"
    with zipfile.ZipFile(os.path.join(folder, wheel), "w", zipfile.ZIP_DEFLATED) as archive:
        for name, content in {**files, f"{about}/RECORD": record.encode()}.items():
            archive.writestr(name, content)
    return wheel


def build_wheel(wheel_directory, config_settings=None, metadata_directory=None):
    return write_wheel(wheel_directory, modules())


def build_editable(wheel_directory, config_settings=None, metadata_directory=None):
    """A wheel that only names the folder of the sources, for `pip install -e`."""
    return write_wheel(wheel_directory, {"sorachest.pth": f"{ROOT}\n".encode()})


def build_sdist(sdist_directory, config_settings=None):
    name = f"sorachest-{VERSION}"
    with tarfile.open(os.path.join(sdist_directory, f"{name}.tar.gz"), "w:gz") as archive:
        for path in ("pyproject.toml", "packaging/wheel_builder.py", *modules()):
            archive.add(os.path.join(ROOT, path), f"{name}/{path}")
    return f"{name}.tar.gz"
