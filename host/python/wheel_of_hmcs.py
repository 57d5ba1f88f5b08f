"""Packs the package for pip. It needs only Python, so pip downloads nothing."""

import base64
import glob
import hashlib
import os
import re
import zipfile

HERE = os.path.dirname(os.path.abspath(__file__))


def _field(name: str) -> str:
    found = re.search(r'^%s = "(.*)"$' % name, open(os.path.join(HERE, "pyproject.toml")).read(), re.M)
    assert found, name
    return found.group(1)


def build_wheel(wheel_directory, config_settings=None, metadata_directory=None):
    version = _field("version")
    about = "hmcs-%s.dist-info" % version
    metadata = "Metadata-Version: 2.1\nName: hmcs\nVersion: %s\nSummary: %s\nRequires-Python: %s\n" % (version, _field("description"), _field("requires-python"))
    files = {"%s/METADATA" % about: metadata.encode(), "%s/WHEEL" % about: b"Wheel-Version: 1.0\nGenerator: hmcs\nRoot-Is-Purelib: true\nTag: py3-none-any\n"}
    for path in sorted(glob.glob(os.path.join(HERE, "hmcs", "*.py")) + [os.path.join(HERE, "hmcs", "py.typed")]):
        files["hmcs/" + os.path.basename(path)] = open(path, "rb").read()
    record = ""
    for name, content in files.items():
        digest = base64.urlsafe_b64encode(hashlib.sha256(content).digest()).rstrip(b"=").decode()
        record += "%s,sha256=%s,%d\n" % (name, digest, len(content))
    files["%s/RECORD" % about] = (record + "%s/RECORD,,\n" % about).encode()
    wheel = "hmcs-%s-py3-none-any.whl" % version
    with zipfile.ZipFile(os.path.join(wheel_directory, wheel), "w", zipfile.ZIP_DEFLATED) as packed:
        for name, content in files.items():
            packed.writestr(name, content)
    return wheel


def build_sdist(sdist_directory, config_settings=None):
    raise NotImplementedError("the package is installed from the repository")
