"""Builds the wheel of hdminet by itself: pip takes the folder offline, and asks for no other package to build it (PEP 517)."""

import base64
import hashlib
import os
import zipfile

NAME = "hdminet"
HERE = os.path.dirname(os.path.abspath(__file__))
with open(os.path.join(HERE, "VERSION"), encoding="ascii") as _file:
    VERSION = _file.read().strip()
INFO = "%s-%s.dist-info" % (NAME, VERSION)
# (the program and the library are for this machine alone)
TAG = "py3-none-linux_x86_64"
METADATA = """Metadata-Version: 2.1
Name: hdminet
Version: %s
Summary: An emulated HDMI network for tests of CEC firmware
Requires-Python: >=3.9
Provides-Extra: test
Requires-Dist: pytest (>=7); extra == "test"
""" % VERSION
WHEEL = "Wheel-Version: 1.0\nGenerator: hdminet\nRoot-Is-Purelib: false\nTag: %s\n" % TAG
ENTRY_POINTS = """[console_scripts]
hdminet = hdminet.homes:run_program
hdminet-suite = hdminet.homes:run_suite
hdminet-look = hdminet.homes:run_look
hdminet-junit = hdminet.homes:run_junit

[pytest11]
hdminet = hdminet.pytest_plugin
"""


def _files():
    for folder, folders, names in os.walk(os.path.join(HERE, NAME)):
        folders[:] = sorted(name for name in folders if name != "__pycache__")
        for name in sorted(names):
            if not name.endswith(".pyc"):
                yield os.path.join(folder, name)


def build_wheel(wheel_directory, config_settings=None, metadata_directory=None):
    record = []

    def add(wheel, place, content, mode=0o644):
        info = zipfile.ZipInfo(place, (2020, 1, 1, 0, 0, 0))
        info.external_attr = (0o100000 | mode) << 16
        info.compress_type = zipfile.ZIP_DEFLATED
        wheel.writestr(info, content)
        digest = base64.urlsafe_b64encode(hashlib.sha256(content).digest()).rstrip(b"=").decode()
        record.append("%s,sha256=%s,%d" % (place, digest, len(content)))

    made = "%s-%s-%s.whl" % (NAME, VERSION, TAG)
    with zipfile.ZipFile(os.path.join(wheel_directory, made), "w") as wheel:
        for path in _files():
            with open(path, "rb") as file:
                add(wheel, os.path.relpath(path, HERE), file.read(), 0o755 if os.access(path, os.X_OK) else 0o644)
        for name, text in (("METADATA", METADATA), ("WHEEL", WHEEL), ("entry_points.txt", ENTRY_POINTS)):
            add(wheel, "%s/%s" % (INFO, name), text.encode())
        record.append("%s/RECORD,," % INFO)
        wheel.writestr(zipfile.ZipInfo("%s/RECORD" % INFO, (2020, 1, 1, 0, 0, 0)), "\n".join(record) + "\n")
    return made
