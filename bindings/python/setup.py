"""Build what the metadata can't describe of a wheel: the compiled part.

It serves any Python from 3.11 on, with the library in it.

The library is the archive that FOLUGBEN_ARCHIVE names, or the one beside this file, as in what packaging/pack makes, or the
one that ./build_c creates. build_core compiles the part beside the package's modules. FOLUGBEN_PLATFORM is the tag of the
platform, which packaging/pack finds out; a wheel without it is for the machine that it is made on.
"""
import os
import subprocess
import sys
import sysconfig
from pathlib import Path

from setuptools import Extension, setup
from setuptools.command.build_ext import build_ext
from setuptools.command.build_py import build_py

try:
    from setuptools.command.bdist_wheel import bdist_wheel
except ImportError:  # before setuptools 70.1
    from wheel.bdist_wheel import bdist_wheel

HERE = Path(__file__).resolve().parent
PLACES = [Path(os.environ.get("FOLUGBEN_ARCHIVE", "/")), HERE / "libfolugben.a", HERE.parent / "out" / "libfolugben.a"]
LIBRARY = next((it for it in PLACES if it.is_file()), PLACES[-1])
PAGE = "run.html"

os.chdir(HERE)


class OverLibrary(build_ext):
    def run(self):
        if not LIBRARY.is_file():
            raise SystemExit(f"there is no {LIBRARY}; ./build_c proves and builds it")
        super().run()


class WithPage(build_py):
    def run(self):
        super().run()
        # packaging/pack puts the page that shows runs into the package; in a clone viewer/join makes it.
        join = HERE.parents[1] / "viewer" / "join"
        if not (HERE / "folugben" / PAGE).is_file() and join.is_file():
            subprocess.run([sys.executable, str(join), str(Path(self.build_lib) / "folugben" / PAGE)], check=True)


class Tagged(bdist_wheel):
    def get_tag(self):
        platform = os.environ.get("FOLUGBEN_PLATFORM") or sysconfig.get_platform().replace("-", "_").replace(".", "_")
        return "cp311", "abi3", platform


core = Extension(
    "folugben._core",
    sorted(str(it) for it in Path("core").glob("*.c")),
    extra_objects=[str(LIBRARY)],
    depends=[str(it) for it in (*Path("core").glob("*.h"), LIBRARY)],
    include_dirs=[str(it) for it in (HERE, HERE.parents[1] / "include", LIBRARY.parent) if (it / "folugben.h").is_file()],
    define_macros=[("Py_LIMITED_API", "0x030b0000")],
    # The same sources and tools give the same bytes. Only the module's own function is exported.
    extra_compile_args=["-std=gnu11", "-O2", "-g0", "-fvisibility=hidden", f"-ffile-prefix-map={HERE}=."],
    extra_link_args=["-Wl,--exclude-libs,ALL", "-Wl,-z,relro,-z,now", "-Wl,--strip-all", "-Wl,--build-id=none"],
    py_limited_api=True,
)

setup(ext_modules=[core], cmdclass={"bdist_wheel": Tagged, "build_ext": OverLibrary, "build_py": WithPage})
