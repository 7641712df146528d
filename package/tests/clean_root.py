"""A root with nothing but what some Debian packages hold, copied from this machine: no toolchain, no repository, no network."""
import functools
import os
import pathlib
import shutil
import subprocess
import tempfile

# What any Debian has, with what `dpkg --install` calls.
BASE = ["base-files", "bash", "coreutils", "dash", "debianutils", "diffutils", "dpkg", "findutils", "grep", "gzip", "libc-bin", "sed", "tar"]
MERGED = ["bin", "sbin", "lib", "lib32", "lib64", "libx32"]
DATABASE = "var/lib/dpkg"
ENVIRONMENT = {"PATH": "/usr/sbin:/usr/bin:/sbin:/bin", "HOME": "/root", "LC_ALL": "C.UTF-8", "PYTHONDONTWRITEBYTECODE": "1"}


class CannotBeMade(Exception):
    """Why this machine has no clean root."""


def names_in(relations):
    """The packages of a Depends line; of alternatives each one."""
    return [[choice.split()[0].split(":")[0] for choice in part.split("|")] for part in relations.split(",") if part.strip()]


@functools.cache
def known():
    """Of each package on this machine what it depends on, by its name and by each name that it provides."""
    if shutil.which("dpkg-query") is None:
        raise CannotBeMade("dpkg isn't there, by which the packages of a root are known")
    shown = subprocess.run(["dpkg-query", "--show", "--showformat", "${db:Status-Abbrev}\t${Package}\t${Pre-Depends}\t${Depends}\t${Provides}\n"], check=True, capture_output=True, text=True).stdout
    found = {}
    for line in shown.splitlines():
        status, name, *needs, provided = line.split("\t")
        if status.startswith("ii"):
            package = name, [names for part in needs for names in names_in(part)]
            for word in [*(names[0] for names in names_in(provided)), name]:
                found.setdefault(word, package)
            found[name] = package
    return found


def closure(names):
    """These packages and all that they depend on."""
    chosen, left = set(), [[name] for name in names]
    while left:
        choices = left.pop()
        package = next((known()[name] for name in choices if name in known()), None)
        if package is None:
            raise CannotBeMade(f"this machine has no package {' or '.join(choices)}")
        if package[0] not in chosen:
            chosen.add(package[0])
            left += package[1]
    return sorted(chosen)


def files_of(packages):
    listed = subprocess.run(["dpkg-query", "--listfiles", *packages], check=True, capture_output=True, text=True).stdout.splitlines()
    left_out = ("/usr/share/doc/", "/usr/share/locale/", "/usr/share/man/", "/usr/share/info/")
    return sorted({path for path in listed if path.startswith("/") and path != "/." and os.path.lexists(path) and not path.startswith(left_out)})


def stanzas_of(packages):
    """The parts of dpkg's table that tell of these packages."""
    for stanza in pathlib.Path("/", DATABASE, "status").read_text(encoding="utf-8").split("\n\n"):
        if stanza.strip() and stanza.splitlines()[0].removeprefix("Package: ") in packages:
            yield stanza.strip() + "\n"


def alternatives():
    """Each link that update-alternatives keeps on this machine, with its name and what it leads to: no package lists them."""
    for path in pathlib.Path("/", DATABASE, "alternatives").iterdir():
        mode, link, *slaves = path.read_text(errors="replace").split("\n\n")[0].splitlines()
        for name, place in [(path.name, link), *zip(slaves[0::2], slaves[1::2])]:
            kept = pathlib.Path("/etc/alternatives", name)
            if kept.is_symlink():
                yield name, place, os.readlink(kept)


class CleanRoot:
    def __init__(self, names):
        self.kept = tempfile.TemporaryDirectory(prefix="sigdorf-root-")
        self.path = pathlib.Path(self.kept.name)
        try:
            packages = closure([*BASE, *names])
            self.lay_out(packages)
            self.link_alternatives()
            self.tell_dpkg(set(packages))
        except (OSError, subprocess.CalledProcessError) as fault:
            raise CannotBeMade(str(fault)) from None
        self.change = self.way_in()

    def lay_out(self, packages):
        for name in MERGED:
            if os.path.islink(f"/{name}"):
                os.symlink(os.readlink(f"/{name}"), self.path / name)
                (self.path / os.readlink(f"/{name}")).mkdir(parents=True, exist_ok=True)
        listed = "\0".join(path.lstrip("/") for path in files_of(packages)).encode()
        packed = subprocess.run(["tar", "-C", "/", "--no-recursion", "--null", "-T", "-", "-cf", "-"], input=listed, check=True, capture_output=True).stdout
        subprocess.run(["tar", "-C", self.path, "--keep-directory-symlink", "-xf", "-"], input=packed, check=True)
        for name in ("tmp", "root", "dev", "opt", "proc"):
            (self.path / name).mkdir(exist_ok=True)
        try:
            os.mknod(self.path / "dev/null", 0o666 | 0o020000, os.makedev(1, 3))
        except OSError:
            (self.path / "dev/null").touch()
        os.chmod(self.path / "dev/null", 0o666)

    def link_alternatives(self):
        (self.path / "etc/alternatives").mkdir(parents=True, exist_ok=True)
        for name, link, target in alternatives():
            place = self.path / link.lstrip("/")
            if (self.path / target.lstrip("/")).exists() and place.parent.is_dir() and not os.path.lexists(place):
                os.symlink(target, self.path / "etc/alternatives" / name)
                os.symlink(f"/etc/alternatives/{name}", place)

    def tell_dpkg(self, packages):
        database = self.path / DATABASE
        for name in ("info", "updates", "triggers", "alternatives", "parts"):
            (database / name).mkdir(parents=True, exist_ok=True)
        (database / "status").write_text("\n".join(stanzas_of(packages)), encoding="utf-8")
        (database / "available").touch()
        for source in pathlib.Path("/", DATABASE, "info").iterdir():
            if source.name.rpartition(".")[0].split(":")[0] in packages:
                shutil.copy2(source, database / "info" / source.name)
        for source in pathlib.Path("/", DATABASE, "triggers").iterdir():
            if source.is_file() and source.name not in ("Lock", "Unincorp"):
                shutil.copy2(source, database / "triggers" / source.name)

    def way_in(self):
        """The words by which this user may change the root."""
        for words in (["chroot", str(self.path)], ["unshare", "--map-root-user", "--root", str(self.path)]):
            words[0] = shutil.which(words[0]) or "/bin/false"
            if subprocess.run([*words, "/bin/true"], capture_output=True, env=ENVIRONMENT).returncode == 0:
                return words
        raise CannotBeMade("neither chroot nor unshare may change the root here")

    def run(self, command, folder="/root", **more):
        """Status and output of a command of bash in the root, which has nothing of this machine's environment."""
        shell = ["/bin/bash", "-c", f"cd {folder} && {command}"]
        done = subprocess.run([*self.change, *shell], env=ENVIRONMENT | more, stdin=subprocess.DEVNULL, stdout=subprocess.PIPE, stderr=subprocess.STDOUT, timeout=300)
        return done.returncode, done.stdout.decode("utf-8", "replace")

    def close(self):
        self.kept.cleanup()
