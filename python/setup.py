"""What pyproject.toml can't say: the extension, the shared library beside it, and for which machines a wheel is."""
import atexit
import os
import pathlib
import platform
import re
import shutil
import tempfile

import setuptools
from setuptools.command.build_ext import build_ext
from setuptools.command.sdist import sdist
from wheel.bdist_wheel import bdist_wheel

HERE = pathlib.Path(__file__).resolve().parent
# The library's header and the sources that it shares with the extension: in a clone, or in an archive of these sources.
SHARED = next(place for place in (HERE.parent / "c", HERE) if (place / "sigdorf.h").exists())
# The least version of CPython that loads the extension.
LEAST = "cp310"
# A script of the name `build` is where setuptools would have its folder.
BUILD = tempfile.mkdtemp(prefix="sigdorf-")
atexit.register(shutil.rmtree, BUILD, ignore_errors=True)


def library():
    """The shared library that SIGDORF_LIBRARY names, or that c/build has made, or None: then the package looks for an installed one."""
    places = [os.environ.get("SIGDORF_LIBRARY"), HERE.parent / "c" / "out" / "libsigdorf.so"]
    return next((place for place in places if place and os.path.exists(place)), None)


class Extension(build_ext):
    """Builds the extension, and puts the library beside the modules."""

    def run(self):
        super().run()
        if library():
            folder = pathlib.Path(self.get_ext_fullpath("sigdorf._fast")).parent
            folder.mkdir(parents=True, exist_ok=True)
            shutil.copyfile(library(), folder / "libsigdorf.so")


class Sources(sdist):
    """The sources with the library's header and levels among them."""

    def make_release_tree(self, base_dir, files):
        super().make_release_tree(base_dir, [file for file in files if not file.startswith(os.pardir)])
        shutil.copyfile(SHARED / "sigdorf.h", os.path.join(base_dir, "sigdorf.h"))
        shutil.copytree(SHARED / "levels", os.path.join(base_dir, "levels"), dirs_exist_ok=True)


class Wheel(bdist_wheel):
    """A wheel for the machines that its files run on."""

    def finalize_options(self):
        super().finalize_options()
        self.root_is_pure = False

    def get_tag(self):
        files = list(pathlib.Path(self.bdist_dir).rglob("*.so"))
        newest = max((int(least) for file in files for least in re.findall(rb"GLIBC_2\.(\d+)", file.read_bytes())), default=0)
        # Pip knows no platform of this kind below 2.5.
        machine = f"manylinux_2_{max(newest, 5)}_{platform.machine()}"
        has_extension = any(file.name.startswith("_fast") for file in files)
        return (LEAST, "abi3", machine) if has_extension else ("py3", "none", machine)


def sources():
    files = [*HERE.glob("sigdorf/_*.c"), *SHARED.glob("levels/*.c")]
    return sorted(os.path.relpath(file, HERE) for file in files)


flags = ["-std=c11", "-O3", "-ffp-contract=off", "-fvisibility=hidden"] + ["-march=x86-64-v2"] * (platform.machine() == "x86_64")
setuptools.setup(
    ext_modules=[
        setuptools.Extension(
            "sigdorf._fast",
            sources(),
            depends=[os.path.relpath(SHARED / "levels" / "levels.h", HERE)],
            include_dirs=[str(SHARED), str(SHARED / "levels")],
            extra_compile_args=flags,
            extra_link_args=["-s"],
            libraries=["m"],
            py_limited_api=True,
            # Without a compiler the package goes by ctypes.
            optional=True,
        )
    ],
    cmdclass={"build_ext": Extension, "sdist": Sources, "bdist_wheel": Wheel},
    options={"build": {"build_base": BUILD}},
)
