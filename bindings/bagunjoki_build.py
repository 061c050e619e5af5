"""Makes the wheel of the Python modules with the shared libraries in it, for this machine only. pip calls build_wheel, by pyproject.toml.

There is no source distribution: what the wheel carries is built by the Rattle kit.
"""

import base64
import hashlib
import os
import re
import shutil
import subprocess
import sys
import sysconfig
import zipfile

HERE = os.path.dirname(os.path.realpath(__file__))
MAIN = "import sys\n\nfrom bagunjoki import main\n\nsys.exit(main())\n"
# A wheel with the same files has the same bytes.
DAY = (1980, 1, 1, 0, 0, 0)


def library(name):
    """The shared library with this name, which is built first if it isn't there."""
    path = os.environ.get(name.upper()) or f"{HERE}/out/lib/lib{name}.so"
    if not os.path.exists(path) and not shutil.which("rattle"):
        sys.exit(f"bagunjoki: there is no library: run tools/bindings with the Rattle kit, or set {name.upper()}=/path/lib{name}.so")
    if not os.path.exists(path):
        subprocess.run([sys.executable, f"{os.path.dirname(HERE)}/tools/bindings"], check=True)
    with open(path, "rb") as it:
        return it.read()


def field(name):
    """What pyproject.toml says of the project."""
    with open(f"{HERE}/pyproject.toml", encoding="utf-8") as lines:
        return re.search(rf'^{name} = "(.*)"$', lines.read(), re.M)[1]


def row(path, data):
    """A file's line in RECORD."""
    digest = base64.urlsafe_b64encode(hashlib.sha256(data).digest()).rstrip(b"=").decode()
    return f"{path},sha256={digest},{len(data)}\n"


def build_wheel(wheel_directory, config_settings=None, metadata_directory=None):
    """Writes the wheel into this folder, and gives its name."""
    name, version = field("name"), field("version")
    tag = f"py3-none-{re.sub('[-.]', '_', sysconfig.get_platform())}"
    info = f"{name}-{version}.dist-info"
    about = f"Metadata-Version: 2.1\nName: {name}\nVersion: {version}\nSummary: {field('description')}\n"
    about += f"Requires-Python: {field('requires-python')}\n"
    with open(f"{HERE}/bagunjoki.py", "rb") as it:
        files = {f"{name}/__init__.py": it.read()}
    files[f"{name}/__main__.py"] = MAIN.encode()
    with open(f"{HERE}/bagunjoki_plan.py", "rb") as it:
        files["bagunjoki_plan.py"] = it.read()
    files[f"{name}/libbagunjoki.so"] = library("bagunjoki")
    files[f"{name}/libbagunjoki_plan.so"] = library("bagunjoki_plan")
    files[f"{info}/METADATA"] = about.encode()
    files[f"{info}/WHEEL"] = f"Wheel-Version: 1.0\nGenerator: {name}\nRoot-Is-Purelib: false\nTag: {tag}\n".encode()
    files[f"{info}/RECORD"] = ("".join(row(*it) for it in files.items()) + f"{info}/RECORD,,\n").encode()
    wheel = f"{name}-{version}-{tag}.whl"
    with zipfile.ZipFile(f"{wheel_directory}/{wheel}", "w", zipfile.ZIP_DEFLATED) as to:
        for path, data in files.items():
            it = zipfile.ZipInfo(path, DAY)
            it.external_attr, it.compress_type = 0o644 << 16, zipfile.ZIP_DEFLATED
            to.writestr(it, data)
    return wheel
