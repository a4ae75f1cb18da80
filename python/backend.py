# SPDX-License-Identifier: MIT OR Apache-2.0
"""Builds the wheel of this folder (PEP 517): its Python files, and the library of ../c/reader, which cargo builds."""

import base64
import csv
import hashlib
import io
import os
import subprocess
import sysconfig
import tempfile
import tomllib
import zipfile

HERE = os.path.dirname(os.path.abspath(__file__))
CRATE = os.path.join(HERE, "..", "c", "reader")
PACKAGE = "wuzhikar_hid"


def library():
    """The bytes of the shared library, built for this machine."""
    if not os.path.isdir(CRATE):
        raise FileNotFoundError("the library's source ../c/reader is not there: build from a clone of the repository")
    with tempfile.TemporaryDirectory() as target:
        environment = {"CARGO_TARGET_DIR": target, **os.environ}
        subprocess.run(["cargo", "build", "--quiet", "--release"], cwd=CRATE, env=environment, check=True)
        with open(os.path.join(environment["CARGO_TARGET_DIR"], "release", "libhid_reader.so"), "rb") as file:
            return file.read()


def metadata(project):
    """The text of METADATA."""
    with open(os.path.join(HERE, project["readme"]), encoding="utf-8") as file:
        readme = file.read()
    lines = [
        "Metadata-Version: 2.1",
        f"Name: {project['name']}",
        f"Version: {project['version']}",
        f"Summary: {project['description']}",
        f"License: {project['license']['text']}",
        f"Requires-Python: {project['requires-python']}",
        "Description-Content-Type: text/markdown",
    ]
    return "\n".join(lines) + "\n\n" + readme


def build_wheel(wheel_directory, config_settings=None, metadata_directory=None):
    """Writes the wheel into a folder, and returns its name."""
    with open(os.path.join(HERE, "pyproject.toml"), "rb") as file:
        project = tomllib.load(file)["project"]
    tag = "py3-none-" + sysconfig.get_platform().replace("-", "_").replace(".", "_")
    stem = f"{project['name'].replace('-', '_')}-{project['version']}"
    files = {f"{PACKAGE}/libhid_reader.so": library()}
    for name in sorted(os.listdir(os.path.join(HERE, PACKAGE))):
        if name.endswith((".py", ".typed")):
            with open(os.path.join(HERE, PACKAGE, name), "rb") as file:
                files[f"{PACKAGE}/{name}"] = file.read()
    files[f"{stem}.dist-info/METADATA"] = metadata(project).encode()
    files[f"{stem}.dist-info/WHEEL"] = f"Wheel-Version: 1.0\nGenerator: backend\nRoot-Is-Purelib: false\nTag: {tag}\n".encode()
    record = io.StringIO()
    rows = csv.writer(record, lineterminator="\n")
    with zipfile.ZipFile(os.path.join(wheel_directory, f"{stem}-{tag}.whl"), "w", zipfile.ZIP_DEFLATED) as wheel:
        for name, data in files.items():
            wheel.writestr(name, data)
            digest = base64.urlsafe_b64encode(hashlib.sha256(data).digest()).rstrip(b"=").decode()
            rows.writerow([name, f"sha256={digest}", len(data)])
        rows.writerow([f"{stem}.dist-info/RECORD", "", ""])
        wheel.writestr(f"{stem}.dist-info/RECORD", record.getvalue())
    return f"{stem}-{tag}.whl"


def build_sdist(sdist_directory, config_settings=None):
    """Refuses: the library's source lies in other folders of the repository."""
    raise NotImplementedError("there is no source distribution: build a wheel from a clone of the repository")
