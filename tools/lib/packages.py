"""The packages that tools/package makes of an installed command, each by the usual tool of its ecosystem."""
import json
import os
import platform
import re
import shutil
import subprocess
import sys
import tarfile
from pathlib import Path
from typing import NamedTuple

from build_record import sum_of
from crates import Failed

# The part of README that says what is proved.
PROVED = re.compile(r"^## What is proved, tested and trusted\n(.*?)(?=^## )", re.MULTILINE | re.DOTALL)
LINK = re.compile(r"\[([^\]]*)\]\([^)]*\)")
LICENCE = "No licence has been granted: ask before you use or redistribute this package."
SUMMARY = "live monitor for replicated data types (CRDTs)"
# A Python that may have what builds a wheel, if this one has not.
DEBIAN_PYTHON = "/usr/bin/python3"
BUILD_WHEEL = "import sys; from setuptools import build_meta; build_meta.build_wheel(sys.argv[1])"
MACHINE = {"x86_64": ("amd64", "x64"), "aarch64": ("arm64", "arm64")}


class Setting(NamedTuple):
    """What all packages are made of: the installed command is in `work`/prefix, with `work`/FACTS.md."""

    top: Path
    work: Path
    version: str
    program: Path

    @property
    def library(self):
        """The oldest version of the C library with which the program runs, as its symbols say."""
        name, version = platform.libc_ver(str(self.program))
        if name != "glibc":
            raise Failed(f"{self.program} is not linked with the GNU C library: expected a program for it")
        return version

    @property
    def machine(self):
        if platform.system() != "Linux" or platform.machine() not in MACHINE:
            raise Failed(f"there are no packages for {platform.system()} on {platform.machine()}: use Linux on x86-64")
        return platform.machine()


def facts(top, prefix):
    """The page of facts: what the installed command prints of itself, and the part of README about what is proved.

    The command prints the folder of its programs, which is another one wherever a package is installed.
    """
    version = prefix / "libexec" / "ra_monitor" / "VERSION"
    about = version.read_text().replace(f" in {version.parent}", "")
    version.write_text(about)
    proved = PROVED.search((top / "README.md").read_text())
    if proved is None:
        raise Failed("README.md has no part 'What is proved, tested and trusted': expected one for the page of facts")
    block = "".join(f"    {it}\n" if it else "\n" for it in about.splitlines())
    # The targets of links are not in the package.
    return f"# Facts\n\n{LICENCE}\n\n{block}\n{LINK.sub(lambda link: link[1], proved[0]).rstrip()}\n"


def run(words, folder, **environment):
    """Runs a tool that makes a package."""
    found = shutil.which(words[0])
    if found is None:
        raise Failed(f"there is no {words[0]} on the path: `tools/package --help` says which packages are needed")
    ran = subprocess.run(
        [found, *map(str, words[1:])], cwd=folder, env={**os.environ, **environment}, stdin=subprocess.DEVNULL,
        stdout=subprocess.PIPE, stderr=subprocess.STDOUT, text=True,
    )
    if ran.returncode:
        raise Failed(f"{words[0]} ended with status {ran.returncode}:\n{ran.stdout}")
    return ran.stdout


def staged(setting, client, name):
    """A copy of a client without its tests, with the installed command in the folder `name` of it."""
    stage = setting.work / f"stage_{client}"
    leave = shutil.ignore_patterns("test", "tests", "__pycache__", "node_modules", "*.egg-info", "build", "installed")
    shutil.copytree(setting.top / "clients" / client, stage, ignore=leave)
    shutil.copytree(setting.work / "prefix", stage / name)
    shutil.copy(setting.work / "FACTS.md", stage / name)
    return stage


def wheel(setting):
    """A wheel of the Python client, for this machine and its C library or a later one."""
    stage = staged(setting, "python", "yehatu/installed")
    system = f"manylinux_{setting.library.replace('.', '_')}_{setting.machine}"
    (stage / "setup.cfg").write_text(f"[bdist_wheel]\nplat_name = {system}\n")
    out = setting.work / "wheel"
    out.mkdir()
    run([python_with_wheel(), "-c", BUILD_WHEEL, out], stage, PYTHONDONTWRITEBYTECODE="1")
    return out / f"yehatu-{setting.version}-py3-none-{system}.whl"


def python_with_wheel():
    for python in dict.fromkeys((sys.executable, DEBIAN_PYTHON)):
        has = [python, "-c", "import setuptools, wheel"]
        if shutil.which(python) and subprocess.run(has, capture_output=True).returncode == 0:
            return python
    raise Failed("there is no Python with setuptools and wheel: apt-get install python3-setuptools python3-wheel")


def npm(setting):
    """An npm tarball of the JavaScript client, for this machine."""
    stage = staged(setting, "javascript", "installed")
    described = json.loads((stage / "package.json").read_text())
    described["files"].append("installed")
    described |= {"os": ["linux"], "cpu": [MACHINE[setting.machine][1]], "libc": ["glibc"]}
    (stage / "package.json").write_text(f"{json.dumps(described, indent=2)}\n")
    run(["npm", "pack", "--offline", "--silent", "--pack-destination", setting.work], stage)
    return setting.work / f"yehatu-{setting.version}.tgz"


CONTROL = """\
Package: yehatu
Version: {version}
Architecture: {architecture}
Maintainer: Yehatu (no address)
Depends: bash, libc6 (>= {library})
Section: devel
Priority: optional
Description: {summary}
 The command ra_monitor checks histories for replication-aware linearizability.
 FACTS.md in /usr/share/doc/yehatu says what is proved. No licence has been
 granted.
"""


def deb(setting):
    """A Debian package of the command."""
    stage, architecture = setting.work / "deb", MACHINE[setting.machine][0]
    shutil.copytree(setting.work / "prefix", stage / "usr")
    (stage / "usr" / "share" / "doc" / "yehatu").mkdir(parents=True)
    shutil.copy(setting.work / "FACTS.md", stage / "usr" / "share" / "doc" / "yehatu")
    (stage / "DEBIAN").mkdir()
    (stage / "DEBIAN" / "control").write_text(CONTROL.format(
        version=setting.version, architecture=architecture, library=setting.library, summary=SUMMARY
    ))
    made = setting.work / f"yehatu_{setting.version}_{architecture}.deb"
    run(["dpkg-deb", "--build", "--root-owner-group", stage, made], setting.work)
    return made


def tar(setting):
    """A tar of the command, with the sums of its files."""
    name = f"ra_monitor-{setting.version}-linux-{setting.machine}"
    stage, made = setting.work / name, setting.work / f"{name}.tar.gz"
    shutil.copytree(setting.work / "prefix", stage)
    shutil.copy(setting.work / "FACTS.md", stage)
    files = sorted(it for it in stage.rglob("*") if it.is_file())
    (stage / "SHA256SUMS").write_text("".join(f"{sum_of(it)}  {it.relative_to(stage)}\n" for it in files))
    with tarfile.open(made, "w:gz") as archive:
        archive.add(stage, name, filter=owned_by_root)
    return made


def owned_by_root(entry):
    entry.uid = entry.gid = 0
    entry.uname = entry.gname = "root"
    return entry
