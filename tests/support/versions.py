"""The version of this repository, in each form that it has."""

from __future__ import annotations

from .calling import TOP

VERSION = (TOP / "VERSION").read_text(encoding="ascii").strip()
# In C, pkg-config and CMake a version is compared by its three numbers.
NUMBERS = VERSION.partition("-")[0]
# For Python (PEP 440) and for Debian `-dev` comes before the release, too.
PYTHON_VERSION = VERSION.replace("-dev", ".dev0")
DEBIAN_VERSION = VERSION.replace("-dev", "~dev")
# The files that `make dist`, `make deb` and `make vectors` write.
ARCHIVE = f"kesvuot-{VERSION}-x86_64-linux.tar.gz"
WHEEL = f"kesvuot-{PYTHON_VERSION}-py3-none-manylinux_2_5_x86_64.manylinux1_x86_64.whl"
PACKAGES = [f"{name}_{DEBIAN_VERSION}_amd64.deb" for name in ("kesvuot", "libkesvuot-dev")]
VECTORS = f"kesvuot-vectors-{VERSION}.tar.gz"
