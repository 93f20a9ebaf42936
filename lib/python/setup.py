"""Makes the wheel one of this platform if the library is in the package, and makes no source distribution."""
import pathlib

from setuptools import Distribution, setup
from setuptools.command.sdist import sdist
from setuptools.errors import BaseError

try:
    from setuptools.command.bdist_wheel import bdist_wheel
except ImportError:  # setuptools before 70.1
    from wheel.bdist_wheel import bdist_wheel

LIBRARY = pathlib.Path(__file__).resolve().parent / "vt220" / "libvt220.so"


class Package(Distribution):
    """Goes where packages for one platform go if it has the library inside."""

    def has_ext_modules(self):
        return LIBRARY.exists()


class Wheel(bdist_wheel):
    """Names any Python, since ctypes loads the library: only the platform counts."""

    def get_tag(self):
        return ("py3", "none", super().get_tag()[2])


class NoSource(sdist):
    """Refuses: a source distribution would be without the library, whose build needs the whole repository."""

    def run(self):
        raise BaseError("vt220 has no source distribution, since its library is built in the repository: run make lib there, "
                        "copy out/libvt220.so to lib/python/vt220/, and build a wheel (python3 -m build --wheel)")


setup(distclass=Package, cmdclass={"bdist_wheel": Wheel, "sdist": NoSource})
