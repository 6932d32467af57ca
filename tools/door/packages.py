"""Makes packages of what is proved, in build/packages/:

    qlock_VERSION_amd64.deb               the programs qlock and qlock-show, man pages, completions, all faults
    libqlockN_VERSION_amd64.deb           the shared libraries libqlock and libqlock_plan
    libqlock-dev_VERSION_amd64.deb        headers, archives, pkg-config files
    qlock-service_VERSION_amd64.deb       qlock-voter, qlockctl, qlockd, their units and users,
                                          guards for SQL, alarms (if Go and its packages are there)
    qlock-service-dev_VERSION_amd64.deb   the Go packages of the service: agent, locks, guard, transport, qlock
    qlock-VERSION-py3-none-linux_x86_64.whl   the Python package with both libraries inside
    qlock-VERSION-linux-x86_64.tar.gz     all of it in one folder, for any place

    ./package

What is not proved and built yet is, which takes as long as ./qlock and ./library do. It needs a C
compiler and Debian's dpkg-deb (without it the .deb files are left out). packaging/check.sh installs
them into empty places and uses them.
"""
import gzip
import os
import shutil
import subprocess
import sys
import tarfile
import tempfile

import libraries
import programs
import version
from crates import BUILD, ROOT

OUT = os.path.join(BUILD, "packages")
MAINTAINER = "Calvundek maintainers <maintainers@users.noreply.calvundek.example>"
# The C library that the programs and libraries need.
LIBC = "libc6 (>= 2.34)"
# The folders of the service that a Go program builds with.
GO_PACKAGES = ("agent", "guard", "internal", "locks", "qlock", "transport")
GO_PATH = "share/gocode/src/calvundek.example/service"
# Its programs, and the units of systemd.
SERVICE_PROGRAMS = ("qlock-voter", "qlockctl", "qlockd")
UNITS = ("qlock-voter@.service", "qlockd.service")
# What dpkg does with the service. A new unit is read. Voters and agents that run go on with the old
# program until somebody restarts them, one after the other.
SERVICE_SCRIPTS = {
    "postinst": """#!/bin/sh
set -e
install -d /etc/qlock
[ ! -x /usr/bin/systemd-sysusers ] || systemd-sysusers qlock-service.conf
[ ! -d /run/systemd/system ] || systemctl daemon-reload
""",
    "postrm": """#!/bin/sh
set -e
[ ! -d /run/systemd/system ] || systemctl daemon-reload
""",
}


def run(*words, **given):
    """Runs a command, and returns what it printed. Ends if it fails."""
    return subprocess.run(words, check=True, stdout=subprocess.PIPE, text=True, **given).stdout


def at(*names):
    return os.path.join(ROOT, *names)


class Tree:
    """A folder that is filled with files as they are to be installed."""

    def __init__(self, room, name):
        self.name, self.folder = name, os.path.join(room, name)

    def path(self, name):
        to = os.path.join(self.folder, name)
        os.makedirs(os.path.dirname(to), exist_ok=True)
        return to

    def copy(self, source, name, mode=0o644):
        to = self.path(name)
        shutil.copyfile(source, to)
        os.chmod(to, mode)

    def write(self, name, text):
        with open(self.path(name), "w", encoding="utf-8") as file:
            file.write(text)
        os.chmod(self.path(name), 0o644)

    def squeeze(self, source, name):
        """Copies a file, compressed; the same file gives the same bytes."""
        with open(source, "rb") as file, open(self.path(name + ".gz"), "wb") as raw:
            with gzip.GzipFile(filename="", fileobj=raw, mode="wb", mtime=0) as out:
                out.write(file.read())
        os.chmod(self.path(name + ".gz"), 0o644)

    def link(self, to, name):
        os.symlink(to, self.path(name))


class Packages:
    """The packages of one version."""

    def __init__(self, room):
        self.room = room
        self.version = version.checked()
        # before 1.0.0 a minor version may change calls
        self.abi = ".".join(self.version.split(".")[:2 if self.version.startswith("0.") else 1])
        self.has_service = self.service_is_there()

    @staticmethod
    def service_is_there():
        """Returns whether the service can be built here."""
        return bool(shutil.which("go")) and os.path.isdir("/usr/share/gocode/src/github.com/nats-io/nats.go")

    def build(self):
        """Builds what is missing: programs, libraries, and the service."""
        programs.ready("qlock")
        programs.ready("qlock_show")
        libraries.main()
        if self.has_service:
            run(at("service", "build"), *(f"cmd/{name}" for name in SERVICE_PROGRAMS))

    def add_programs(self, tree, prefix):
        for crate, name in (("qlock", "qlock"), ("qlock_show", "qlock-show")):
            tree.copy(os.path.join(BUILD, crate), f"{prefix}bin/{name}", 0o755)
            tree.squeeze(at("docs", f"{name}.1"), f"{prefix}share/man/man1/{name}.1")
            tree.copy(at("completions", f"{name}.bash"), f"{prefix}share/bash-completion/completions/{name}")
            tree.copy(at("completions", f"_{name}"), f"{prefix}share/zsh/vendor-completions/_{name}")
        tree.write(f"{prefix}share/doc/qlock/faults.md", run(os.path.join(BUILD, "qlock_show"), "explain", "all"))

    def add_libraries(self, tree, folder):
        for name in libraries.LIBRARIES:
            soname = f"lib{name}.so.{self.abi}"
            file = f"lib{name}.so.{self.version}"
            libraries.link(os.path.join(BUILD, f"lib{name}.a"), tree.path(f"{folder}/{file}"), soname)
            tree.link(file, f"{folder}/{soname}")

    def add_headers(self, tree, folder, include, prefix):
        for name in libraries.LIBRARIES:
            tree.copy(os.path.join(BUILD, f"lib{name}.a"), f"{folder}/lib{name}.a")
            tree.link(f"lib{name}.so.{self.abi}", f"{folder}/lib{name}.so")
            tree.copy(at("include", f"{name}.h"), f"{include}/{name}.h")
            tree.write(f"{folder}/pkgconfig/{name}.pc", libraries.pc_text(
                name, self.version, prefix, f"${{prefix}}/{folder.removeprefix('usr/')}", "${prefix}/include"))

    def add_service(self, tree, prefix, units):
        for name in SERVICE_PROGRAMS:
            program = at("service", "out", "bin", name)
            tree.copy(program, f"{prefix}bin/{name}", 0o755)
            tree.squeeze(at("docs", f"{name}.1"), f"{prefix}share/man/man1/{name}.1")
            tree.write(f"{prefix}share/bash-completion/completions/{name}", run(program, "completion", "bash"))
            tree.write(f"{prefix}share/zsh/vendor-completions/_{name}", run(program, "completion", "zsh"))
        for unit in UNITS:
            tree.copy(at("service", "systemd", unit), f"{units}/{unit}")

    def add_guards(self, tree, folder):
        for name in ("postgresql.sql", "sqlite.sql"):
            tree.copy(at("service", "guard", "sql", name), f"{folder}/{name}")

    def add_alarms(self, tree, folder):
        """Adds alarms for Prometheus, and a dashboard for Grafana."""
        for name in ("alerts.yml", "dashboard.json"):
            tree.copy(at("packaging", name), f"{folder}/{name}")

    def add_go(self, tree, folder):
        """Adds the Go packages of the service, without their tests."""
        tree.copy(at("service", "go.mod"), f"{folder}/go.mod")
        for top in GO_PACKAGES:
            for place, _, names in os.walk(at("service", top)):
                for name in names:
                    if name.endswith(".go") and not name.endswith("_test.go"):
                        source = os.path.join(place, name)
                        tree.copy(source, os.path.join(folder, os.path.relpath(source, at("service"))))

    @staticmethod
    def documents_by_question():
        """Returns the map of the documents without the rows that point into the tree."""
        with open(at("docs", "README.md"), encoding="utf-8") as page:
            return "".join(line for line in page if "../" not in line)

    def add_documents(self, tree, folder):
        for document in sorted(os.listdir(at("docs"))):
            if document == "README.md":
                tree.write(f"{folder}/README.md", self.documents_by_question())
            elif document.endswith(".md"):
                tree.copy(at("docs", document), f"{folder}/{document}")
        shutil.copytree(at("docs", "pictures"), os.path.join(tree.folder, folder, "pictures"))

    def add_examples(self, tree, folder):
        for name in sorted(os.listdir(at("examples"))):
            if name.endswith((".toml", ".txt")):
                tree.copy(at("examples", name), f"{folder}/{name}")

    def add_licences(self, tree, folder):
        tree.copy(at("LICENSE-MIT"), f"{folder}/LICENSE-MIT")
        tree.copy(at("LICENSE-APACHE"), f"{folder}/LICENSE-APACHE")

    def deb(self, tree, says, longer, depends):
        """Makes a .deb of a tree."""
        self.add_licences(tree, f"usr/share/doc/{tree.name}")
        tree.squeeze(at("CHANGELOG.md"), f"usr/share/doc/{tree.name}/changelog")
        tree.write("DEBIAN/control", f"Package: {tree.name}\nVersion: {self.version}\nArchitecture: amd64\n"
                   f"Maintainer: {MAINTAINER}\nSection: net\nPriority: optional\nDepends: {depends}\n"
                   f"Description: {says}\n {longer}\n")
        run("dpkg-deb", "--root-owner-group", "--build", tree.folder,
            os.path.join(OUT, f"{tree.name}_{self.version}_amd64.deb"))

    def debs(self):
        libraries = "usr/lib/x86_64-linux-gnu"
        programs = Tree(self.room, "qlock")
        self.add_programs(programs, "usr/")
        self.add_documents(programs, "usr/share/doc/qlock")
        self.add_examples(programs, "usr/share/doc/qlock/examples")
        self.deb(programs, "plans of quorums, with certificates",
                 "Finds how often to use each quorum, and shows plans to people.", LIBC)
        shared = Tree(self.room, f"libqlock{self.abi}")
        self.add_libraries(shared, libraries)
        self.deb(shared, "a voting lock and plans of quorums, as libraries",
                 "The voter, the client, the guard and the planner.", LIBC)
        headers = Tree(self.room, "libqlock-dev")
        self.add_headers(headers, libraries, "usr/include", "/usr")
        self.deb(headers, "a voting lock and plans of quorums, to build with",
                 "Headers, archives and pkg-config files.", f"libqlock{self.abi} (= {self.version})")
        if self.has_service:
            service = Tree(self.room, "qlock-service")
            self.add_service(service, "usr/", "lib/systemd/system")
            self.add_guards(service, "usr/share/qlock/sql")
            self.add_alarms(service, "usr/share/qlock")
            service.copy(at("service", "systemd", "qlock-service.sysusers"), "usr/lib/sysusers.d/qlock-service.conf")
            for script, text in SERVICE_SCRIPTS.items():
                service.write(f"DEBIAN/{script}", text)
                os.chmod(service.path(f"DEBIAN/{script}"), 0o755)
            self.deb(service, "a lock service of voters over NATS",
                     "The daemon of a voter, the agent of a host, and the commands of operators.", LIBC)
            source = Tree(self.room, "qlock-service-dev")
            self.add_go(source, f"usr/{GO_PATH}")
            self.deb(source, "a lock service of voters over NATS, for Go programs",
                     "The Go packages agent, locks, guard, transport and qlock.", f"libqlock-dev (= {self.version}), "
                     "golang-github-nats-io-go-nats-dev, golang-github-prometheus-client-golang-dev, "
                     "golang-github-burntsushi-toml-dev, golang-golang-x-sys-dev")

    def tarball(self):
        """Makes the archive: bin, lib, include, share, and the documents."""
        name = f"qlock-{self.version}-linux-x86_64"
        tree = Tree(self.room, name)
        self.add_programs(tree, "")
        self.add_libraries(tree, "lib")
        self.add_headers(tree, "lib", "include", "${pcfiledir}/../..")
        if self.has_service:
            self.add_service(tree, "", "share/systemd")
            self.add_guards(tree, "share/qlock/sql")
            self.add_alarms(tree, "share/qlock")
            self.add_go(tree, GO_PATH)
        self.add_licences(tree, ".")
        self.add_documents(tree, "share/doc/qlock")
        self.add_examples(tree, "share/doc/qlock/examples")
        tree.copy(at("packaging", "README.md"), "README.md")
        with tarfile.open(os.path.join(OUT, name + ".tar.gz"), "w:gz") as archive:
            archive.add(tree.folder, name)

    def wheel(self):
        """Makes the wheel, with libraries that have no soname of a version."""
        given = {**os.environ, "QLOCK_WHEEL_LIBRARIES": BUILD, "PYTHONPATH": at("python")}
        run(sys.executable, "-c", "import backend, sys; backend.build_wheel(sys.argv[1])", OUT, env=given)


def main(_):
    with tempfile.TemporaryDirectory(prefix="qlock-package-") as room:
        packages = Packages(room)
        packages.build()
        shutil.rmtree(OUT, ignore_errors=True)
        os.makedirs(OUT)
        packages.tarball()
        packages.wheel()
        if shutil.which("dpkg-deb"):
            packages.debs()
        else:
            print("package: no dpkg-deb, so no .deb files", file=sys.stderr)
        if not packages.has_service:
            print("package: without the service; docs/service.md names the packages that it needs", file=sys.stderr)
    for name in sorted(os.listdir(OUT)):
        print(os.path.join(OUT, name))
