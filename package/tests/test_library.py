"""The library as it is installed: its name for the loader, and that pkg-config and CMake find it wherever the folder stands."""
import os

from calls import ROOT, VERSION, PackageTest, run, wants, wants_library, wants_program

NAMES = ["sigdorf_check", "sigdorf_check_hall", "sigdorf_match", "sigdorf_match_many",
         "sigdorf_match_many_watched", "sigdorf_match_watched", "sigdorf_python_end", "sigdorf_python_solve",
         "sigdorf_solve", "sigdorf_solve_by_messages",
         "sigdorf_solve_dense", "sigdorf_solve_dense_f64", "sigdorf_solve_dense_f64_watched", "sigdorf_solve_dense_watched",
         "sigdorf_solve_watched", "sigdorf_status_text", "sigdorf_until", "sigdorf_version"]
CMAKE = """cmake_minimum_required(VERSION 3.13)
project(crew C)
find_package({name} {wanted} REQUIRED)
foreach(kind sigdorf archive)
  add_executable(crew_${{kind}} crew.c)
  target_link_libraries(crew_${{kind}} PRIVATE Sigdorf::${{kind}})
endforeach()
"""


@wants_program()
@wants_library()
class Library(PackageTest):
    def setUp(self):
        super().setUp()
        self.prefix = self.folder / "moved here"
        self.done(ROOT / "install", self.folder / "prefix")
        os.rename(self.folder / "prefix", self.prefix)
        (self.folder / "crew.c").write_text((ROOT / "examples/crew.c").read_text())

    def assert_runs(self, program, **environment):
        self.assertTrue(self.done(program, environment=environment).startswith("145 minutes\n"))

    @wants("readelf")
    def test_soname(self):
        library = self.prefix / "lib/libsigdorf.so"
        self.assertIn(f"[libsigdorf.so.{VERSION.partition('.')[0]}]", self.done("readelf", "-d", library))
        shown = [line.split()[-1] for line in self.done("readelf", "--dyn-syms", "-W", library).splitlines() if " GLOBAL DEFAULT " in line and " UND " not in line]
        self.assertEqual(sorted(shown), sorted([f"{name}@@SIGDORF_1" for name in NAMES] + ["SIGDORF_1"]))

    @wants("nm")
    def test_names_of_the_archive(self):
        """None that another archive of Rattle code in the same program might have too."""
        told = self.done("nm", "--defined-only", "--extern-only", "--format=posix", self.prefix / "lib/libsigdorf.a")
        self.assertEqual(sorted(line.split()[0] for line in told.splitlines() if " " in line and not line.endswith(":")), NAMES)

    @wants("cc", "pkg-config")
    def test_pkg_config(self):
        environment = {"PKG_CONFIG_PATH": str(self.prefix / "lib/pkgconfig")}
        self.assertEqual(self.done("pkg-config", "--modversion", "sigdorf", environment=environment).strip(), VERSION)
        command = 'eval "cc -o crew crew.c $(pkg-config --cflags --libs sigdorf)"'
        self.done("sh", "-c", command, cwd=self.folder, environment=environment)
        self.assert_runs(self.folder / "crew", LD_LIBRARY_PATH=str(self.prefix / "lib"))

    def configure(self, wanted, name="Sigdorf"):
        (self.folder / "CMakeLists.txt").write_text(CMAKE.format(name=name, wanted=wanted))
        return run("cmake", "-S", self.folder, "-B", self.folder / f"made {name}", f"-DCMAKE_PREFIX_PATH={self.prefix}")

    @wants("cc", "cmake", "make")
    def test_cmake(self):
        for name in ("Sigdorf", "sigdorf"):
            status, told = self.configure(VERSION, name)
            self.assertEqual(status, 0, told)
            self.done("cmake", "--build", self.folder / f"made {name}")
            for kind in ("sigdorf", "archive"):
                self.assert_runs(self.folder / f"made {name}" / f"crew_{kind}")

    @wants("cc", "cmake", "make")
    def test_cmake_refuses_other_versions(self):
        major, minor = map(int, VERSION.split("."))
        for other in (f"{major + 1}.0", f"{major}.{minor + 1}"):
            self.assertNotEqual(self.configure(other)[0], 0, other)
