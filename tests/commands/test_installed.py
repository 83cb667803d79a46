"""What ./muni installs and packs, what signals do to it, and a fresh copy of the repository without `rt`."""
from __future__ import annotations

import os
import pathlib
import re
import shutil
import signal
import socket
import subprocess
import time
from typing import NamedTuple

import pytest

from support.launcher import QUOTE, Launcher, check
from support.program import PATIENCE, ROOT, Program, needs
from support.server import free_port, listening
from support.stores import KINDS, ROWS, Store

VERSION = (ROOT / "VERSION").read_text().strip()
KIT = (ROOT / "dist/muni.sources").read_text().splitlines()[0].removeprefix("kit ")
DEPLOY = sorted(each.name for each in (ROOT / "deploy").iterdir())
UNITS = [name for name in DEPLOY if name.endswith(".service")]
PAGES = ["README.md", "docs/FORMATS.md", "docs/TUTORIAL.md", "clients/python/README.md", "examples/README.md"]
COMMANDS = ("quote|quote-one|import|confirm|serve|drill|positions|mark|export|list|load|check-store|check|figures|help|"
            "--help|--version")

# Files of the repository, and what an install calls them below share/.
FILES = {
    "docs/muni.1": "man/man1/muni.1", "docs/muni.bash": "bash-completion/completions/muni",
    "LICENSE-MIT": "doc/muni/LICENSE-MIT", "LICENSE-APACHE": "doc/muni/LICENSE-APACHE", "NOTICE": "doc/muni/NOTICE",
    "docs/openapi.yaml": "doc/muni/docs/openapi.yaml", "examples/book.csv": "doc/muni/examples/book.csv",
    "clients/python/src/muni/__init__.py": "doc/muni/clients/python/src/muni/__init__.py",
    "conformance/cases.csv": "doc/muni/conformance/cases.csv",
}


def place_of(name: str) -> str:
    """The folder below a prefix for a file of deploy/."""
    if name.endswith(".service"):
        return "lib/systemd/system"
    return "share/doc/muni/deploy" if name == "README.md" else "share/muni/deploy"


class Installed(NamedTuple):
    """An install below a prefix, and what was said of it."""

    prefix: pathlib.Path
    said: str

    @property
    def muni(self) -> Launcher:
        return Launcher(self.prefix / "bin/muni")


def installed_below(prefix: pathlib.Path) -> Installed:
    said = Launcher().run("install", str(prefix))
    assert (said.status, said.output) == (0, b"")
    return Installed(prefix, said.error.decode())


@pytest.fixture(scope="module")
def spaced(tmp_path_factory: pytest.TempPathFactory) -> Installed:
    """An install below a folder whose name units cannot have."""
    return installed_below(tmp_path_factory.mktemp("spaced") / "a prefix")


@pytest.fixture(scope="module")
def whole(tmp_path_factory: pytest.TempPathFactory) -> Installed:
    """An install with its units and the files of a desk behind nginx."""
    return installed_below(tmp_path_factory.mktemp("whole") / "prefix")


def serving(muni: Launcher, store: Store, connections: int) -> tuple[subprocess.Popen[bytes], int]:
    """A server that listens, and its port."""
    port = free_port()
    process = muni.start("serve", store.word, f"--connections={connections}", f"--port={port}")
    end_by = time.monotonic() + PATIENCE
    while not listening(port):
        assert process.poll() is None and time.monotonic() < end_by
        time.sleep(0.02)
    return process, port


@pytest.mark.parametrize("kind", KINDS)
@pytest.mark.parametrize("name", ["SIGTERM", "SIGINT", "SIGHUP"])
@pytest.mark.parametrize("started", ["./muni", "installed"])
def test_a_signal_ends_the_server_and_leaves_its_store(spaced, tmp_path, started, name, kind):
    muni = Launcher() if started == "./muni" else spaced.muni
    store = Store(kind, tmp_path / "S")
    assert muni.run("import", store.word, rows=ROWS).status == 0
    process, port = serving(muni, store, 3)
    process.send_signal(getattr(signal, name))
    assert process.wait(timeout=PATIENCE) == -getattr(signal, name)
    assert (process.stderr.read(), listening(port)) == (b"", [])
    process.stderr.close()
    said = muni.run("confirm", store.word, "--desk=ALPHA", "--ref=T0001")
    assert (said.status, said.text.splitlines()[-1]) == (0, "TOTAL 25493.75")


def test_a_store_that_another_program_has_is_told_of_each_time(muni: Program, tmp_path):
    store = Store("sqlite", tmp_path / "S")
    muni.run("import", store.word, rows=ROWS)
    process, _ = serving(Launcher(), store, 3)
    for _ in range(2):
        check(Launcher().run("confirm", store.word, "--desk=ALPHA", "--ref=T0001"), 6, "",
              f"muni: status 6: the store failed: another program has {store.path}")
    process.terminate()
    process.wait(timeout=PATIENCE)
    process.stderr.close()


def test_the_installed_program_answers_as_the_script_does(spaced, tmp_path):
    check(spaced.muni.run(*QUOTE, folder=tmp_path), 0, "100.235")
    (tmp_path / "installed link").symlink_to(spaced.prefix / "bin/muni")
    check(Launcher("./installed link").run(*QUOTE, folder=tmp_path), 0, "100.235")
    told = subprocess.run(["bash", "muni", *QUOTE], cwd=spaced.prefix / "bin", env=spaced.muni.environment(None),
                          capture_output=True)
    assert (told.returncode, told.stdout, told.stderr) == (0, b"100.235\n", b"")
    told = subprocess.run(["sh", "-c", 'exec "$0" "$@" <&-', spaced.prefix / "bin/muni", *QUOTE], capture_output=True)
    assert (told.returncode, told.stdout, told.stderr) == (0, b"100.235\n", b"")
    check(spaced.muni.run("quote-one", "5"), 2, "", "muni: status 2: *: NEXT is missing*")
    check(spaced.muni.run("qoute"), 2, "", "muni: status 2: *: 'qoute' is no command*")
    assert f"muni: installed: {spaced.prefix}/bin/muni, " in spaced.said


@pytest.mark.parametrize("file", FILES)
def test_a_file_is_installed_as_it_is(spaced, file):
    assert (spaced.prefix / "share" / FILES[file]).read_bytes() == (ROOT / file).read_bytes()


@pytest.mark.parametrize("page", PAGES)
def test_an_installed_page_names_the_installed_command(spaced, page):
    named = re.sub(rf"\./(muni ({COMMANDS}))", r"\1", (ROOT / page).read_text())
    assert (spaced.prefix / "share/doc/muni" / page).read_text() == named


def test_no_installed_page_says_the_script_and_nothing_that_tries_the_repository_is_there(spaced):
    folder = spaced.prefix / "share/doc/muni"
    named = r"\./muni (quote|import|confirm|serve|positions|mark|export|list|load|check-store|figures|check)"
    assert [page for page in folder.rglob("*.md") if re.search(named, page.read_text())] == []
    assert not (folder / "docs/pictures/make").exists() and not (folder / "tests").exists()


def test_a_command_of_the_installed_readme_runs(spaced):
    folder = spaced.prefix / "share/doc/muni"
    command = re.search(r"^    (muni quote .*)$", (folder / "README.md").read_text(), re.M)[1]
    path = f"{spaced.prefix}/bin:{os.environ['PATH']}"
    told = subprocess.run(["sh", "-c", command], cwd=folder, env=os.environ | {"PATH": path}, capture_output=True)
    assert (told.returncode, told.stdout.splitlines()[0]) == (0, b"PRICE 108.584 GIVEN")


def test_an_install_without_a_folder_is_refused():
    check(Launcher().run("install", str(ROOT / "muni")), 1, "", "*")
    check(Launcher().run("install"), 2, "", "muni: status 2: *./muni install PREFIX*")
    check(Launcher().run("build", "more"), 2, "", "muni: status 2: *")


@pytest.mark.parametrize("name", DEPLOY)
def test_a_file_of_a_desk_behind_nginx_names_the_prefix(whole, name):
    named = (ROOT / "deploy" / name).read_text().replace("/usr/libexec/muni", f"{whole.prefix}/libexec/muni")
    placed = whole.prefix / place_of(name) / name
    assert placed.read_text() == named.replace("/usr/share/muni", f"{whole.prefix}/share/muni")


def test_an_install_whose_name_units_can_have_is_whole(whole):
    assert whole.said == (f"muni: installed: {whole.prefix}/bin/muni, its manual, its documents and its completions\n")
    assert os.access(whole.prefix / "share/muni/deploy/backup", os.X_OK)
    assert Program(whole.prefix / "libexec/muni").run(*QUOTE).text == "100.235\n"
    assert subprocess.run(["diff", "-r", ROOT / "web", whole.prefix / "share/muni/web"]).returncode == 0


def test_the_units_are_valid(whole):
    needs("systemd-analyze", "haproxy")
    units = [whole.prefix / "lib/systemd/system" / name.replace("@.", "@second.") for name in UNITS]
    told = subprocess.run(["systemd-analyze", "verify", *units], capture_output=True, text=True)
    assert (told.returncode, told.stdout, told.stderr) == (0, "", "")


def test_the_unit_of_a_further_store_has_the_settings_of_the_first():
    first, further = [(ROOT / "deploy" / name).read_text() for name in ("muni.service", "muni@.service")]
    of_the_store = r"(#.*|Description|JoinsNamespaceOf|Wants|After|Environment(File)?|ExecStart|StateDirectory|RuntimeDirectory)="
    settings = [[line for line in text.splitlines() if line and not re.match(of_the_store + "|#", line)]
                for text in (first, further)]
    assert settings[0] == settings[1] and len(settings[0]) > 30


def test_the_unit_of_nginx_is_exposed_less_with_what_is_added(tmp_path):
    needs("systemd-analyze", "nginx")
    added = tmp_path / "nginx.service.d"
    added.mkdir()
    shutil.copy("/lib/systemd/system/nginx.service", tmp_path)
    shutil.copy(ROOT / "deploy/nginx-unit.conf", added / "muni.conf")
    here = os.environ | {"SYSTEMD_UNIT_PATH": f"{tmp_path}:/lib/systemd/system"}
    exposed = ["systemd-analyze", "security", "--offline=yes", "--threshold=30", "--no-pager", "nginx.service"]
    told = subprocess.run(["systemd-analyze", "verify", "nginx.service"], env=here, capture_output=True, text=True)
    assert (told.returncode, told.stdout, told.stderr) == (0, "", "")
    assert subprocess.run(exposed, env=here, capture_output=True).returncode == 0
    shutil.rmtree(added)
    assert subprocess.run(exposed, env=here, capture_output=True).returncode == 1


def test_the_description_of_the_paths_has_the_version():
    assert re.search(r'^  version: "(.*)"$', (ROOT / "docs/openapi.yaml").read_text(), re.M)[1] == VERSION


@pytest.mark.parametrize("file", ["docs/openapi.yaml", "docs/HTTP.md", "deploy/queue.cfg", "clients/python/README.md",
                                  "clients/python/src/muni/__init__.py"])
def test_the_port_of_the_desk_is_the_same_everywhere(file):
    port = re.search(r"^ExecStart=.* --port=(\d+) ", (ROOT / "deploy/muni.service").read_text(), re.M)[1]
    assert re.search(rf'(127\.0\.0\.1:|default: "){port}', (ROOT / file).read_text())


class Packages(NamedTuple):
    """The packages, each unpacked, with the scripts of the program's."""

    files: list[pathlib.Path]
    program: pathlib.Path
    client: pathlib.Path
    control: pathlib.Path


# The packages take long, and are built once for the tests of a group.
OF_PACKAGES = pytest.mark.xdist_group("packages")


@pytest.fixture(scope="module")
def packages(tmp_path_factory: pytest.TempPathFactory) -> Packages:
    needs("dpkg-checkbuilddeps")
    if subprocess.run(["dpkg-checkbuilddeps"], cwd=ROOT, capture_output=True).returncode != 0:
        pytest.skip("this machine has not what builds packages")
    folder = tmp_path_factory.mktemp("packages")
    files = [folder / f"muni_{VERSION}_amd64.deb", folder / f"python3-muni_{VERSION}_all.deb"]
    said = Launcher().run("package", str(folder), timeout=10 * PATIENCE)
    check(said, 0, "", f"*muni: written: {files[0]} and {files[1]}")
    made = Packages(files, folder / "program", folder / "client", folder / "control")
    for words in (["-x", files[0], made.program], ["-x", files[1], made.client], ["-e", files[0], made.control]):
        subprocess.run(["dpkg-deb", *words], check=True)
    return made


@OF_PACKAGES
def test_lintian_has_nothing_to_say_of_the_packages(packages):
    needs("lintian")
    told = subprocess.run(["lintian", "--allow-root", "--fail-on", "error,warning", *packages.files],
                          capture_output=True, text=True)
    assert (told.returncode, told.stdout, told.stderr) == (0, "", "")


@OF_PACKAGES
def test_the_packages_have_the_program_and_the_client(packages):
    check(Launcher(packages.program / "usr/bin/muni").run(*QUOTE), 0, "100.235")
    words = ["/usr/bin/python3", "-B", "-c", "import muni; print(muni.__version__)"]
    there = os.environ | {"PYTHONPATH": str(packages.client / "usr/lib/python3/dist-packages")}
    assert subprocess.run(words, env=there, capture_output=True, text=True).stdout == f"{VERSION}\n"
    told = subprocess.run(["dpkg-deb", "-f", packages.files[0], "Version"], capture_output=True, text=True)
    assert told.stdout == f"{VERSION}\n"
    for file, name in (("debian/copyright", "copyright"), ("NOTICE", "NOTICE")):
        assert (packages.program / "usr/share/doc/muni" / name).read_bytes() == (ROOT / file).read_bytes()
    assert subprocess.run(["diff", "-r", ROOT / "web", packages.program / "usr/share/muni/web"]).returncode == 0


@OF_PACKAGES
@pytest.mark.parametrize("name", DEPLOY)
def test_the_package_has_each_file_of_a_desk_behind_nginx(packages, name):
    places = [packages.program / below / place_of(name) / name for below in ("usr", "")]
    found = next(place for place in places if place.exists())
    assert found.read_bytes() == (ROOT / "deploy" / name).read_bytes()


@OF_PACKAGES
@pytest.mark.parametrize(("script", "act"), [
    ("postinst", "systemctl --system daemon-reload"), ("postinst", "_dh_action=restart"),
    ("prerm", "deb-systemd-invoke stop 'muni-hop.service' 'muni-issues.service' 'muni-queue.service' 'muni.service'"),
    ("postrm", "systemctl --system daemon-reload"),
    ("prerm", "deb-systemd-invoke stop 'muni@*.service'"),
    ("postinst", 'deb-systemd-invoke restart "${link##*/}"'),
])
def test_a_script_of_the_package_handles_the_units(packages, script, act):
    assert act in (packages.control / script).read_text()


@OF_PACKAGES
@pytest.mark.parametrize("script", ["postinst", "prerm", "postrm"])
def test_no_script_of_the_package_asks_anything_or_takes_a_store_away(packages, script):
    assert not re.search(r"rm -|/var/lib|db_(input|go)", (packages.control / script).read_text())


@OF_PACKAGES
@pytest.mark.parametrize(("answer", "status"), [("true", 0), ("false", 1)])
def test_a_new_version_asks_for_a_copy_of_the_stores(packages, tmp_path, answer, status):
    confmodule = tmp_path / "confmodule"
    confmodule.write_text(f"db_get() {{ RET={answer}; }}\ndb_fset() {{ echo \"$* now\" >&2; }}\n")
    script = (packages.control / "preinst").read_text().replace("/usr/share/debconf/confmodule", str(confmodule))
    told = subprocess.run(["sh", "-c", script, "preinst", "upgrade", "1.10.0"], capture_output=True, text=True)
    assert told.returncode == status and ("deploy/backup" in told.stderr) == (status == 1)
    assert ("muni/copied seen false now" in told.stderr) == (status == 1), "it is asked anew"
    assert "muni/copied" in (packages.control / "config").read_text()
    assert "Default: true" in (packages.control / "templates").read_text(), "who is not asked has the new version"


@OF_PACKAGES
def test_purged_the_package_forgets_the_further_stores(packages, tmp_path):
    wants = tmp_path / "multi-user.target.wants"
    wants.mkdir()
    for name in ("muni@second.service", "other@second.service"):
        (wants / name).symlink_to("/lib/systemd/system/muni@.service")
    script = (packages.control / "postrm").read_text().replace("/etc/systemd/system", str(tmp_path))
    begin = script.partition("# Automatically added")[0]
    subprocess.run(["sh", "-c", begin, "postrm", "purge"], check=True)
    assert [link.name for link in wants.iterdir()] == ["other@second.service"]


def test_what_builds_packages_is_named_if_it_is_missing(tmp_path):
    # A folder with the commands of the script, without those of dpkg-dev.
    for tool in ("sh", "bash", "cat", "sed", "dirname", "readlink"):
        (tmp_path / tool).symlink_to(shutil.which(tool))
    said = Launcher().run("package", str(tmp_path / "packages"), changes={"PATH": str(tmp_path)})
    check(said, 1, "", "muni: this machine has not what builds packages: dpkg-dev and debhelper")


@pytest.fixture
def fresh(tmp_path: pathlib.Path) -> Launcher:
    """A copy of the repository in a folder with a blank, on a path without `rt`, and with no program that is named."""
    root = tmp_path / "a fresh copy"
    root.mkdir()
    for name in ("muni", "VERSION", "README.md", "CHANGELOG.md", "LICENSE-MIT", "LICENSE-APACHE", "NOTICE",
                 "crates.txt"):
        shutil.copy(ROOT / name, root)
    for name in ("dist", "docs", "examples", "launcher", "clients", "conformance", "deploy", "web"):
        shutil.copytree(ROOT / name, root / name)
    for crate in (ROOT / "crates").iterdir():
        shutil.copytree(crate / "src", root / "crates" / crate.name / "src")
    path = [folder for folder in os.environ["PATH"].split(":") if not os.access(f"{folder}/rt", os.X_OK)]
    return Launcher(root / "muni", {"MUNI_PROGRAM": None, "PATH": ":".join(path)})


def test_a_fresh_copy_needs_no_kit(fresh, tmp_path):
    began = time.monotonic()
    check(fresh.run(*QUOTE, folder=tmp_path), 0, "100.235")
    assert time.monotonic() - began < PATIENCE / 10, "a price takes long"
    store = Store("sqlite", tmp_path / "fresh")
    rows = "".join(ROWS.decode().splitlines(True)[:2])
    check(fresh.run("import", store.word, rows=rows), 0,
          "1,added,123456AA3\n2,confirmed,T0001,1,100.725,4.000,2025-01-01,25493.75")
    check(fresh.run("positions", store.word, "--desk=ALPHA"), 0, "123456AA3 1 25000 0 25000 25493.75")
    check(fresh.run("mark", store.word, rows="123456AA3,25000,2024-04-01,4\n"), 0,
          "1,marked,123456AA3,100.725,2025-01-01,25493.75\nTOTAL,1,25493.75")
    said = fresh.run("confirm", store.word, "--desk=ALPHA", "--ref=T0001")
    assert (said.status, said.text.splitlines()[-1]) == (0, "TOTAL 25493.75")
    process, port = serving(fresh, store, 1)
    with socket.create_connection(("127.0.0.1", port), timeout=PATIENCE) as link:
        link.sendall(b"GET /lists/ALPHA HTTP/1.1\r\nHost: localhost\r\n\r\n")
        answer = b"".join(iter(lambda: link.recv(65_536), b""))
    assert answer.endswith(b"\r\n\r\nT0001 1 LIVE 25000 100.725 4.000\n")
    assert process.wait(timeout=PATIENCE) == 0
    process.stderr.close()


def test_a_fresh_copy_knows_whether_its_sources_are_those_of_the_program(fresh, tmp_path):
    source = fresh.path.parent / "crates/muni_prog/src/main.rt"
    source.touch()
    check(fresh.run(*QUOTE), 0, "100.235")
    with source.open("a") as text:
        text.write("// another\n")
    # Times of files are told apart by some milliseconds, which a price may take.
    later = time.time() + 1
    os.utime(source, (later, later))
    check(fresh.run(*QUOTE), 1, "", "muni: status 1: there is no program to start: dist/muni is of other sources, *")
    check(fresh.run("qoute"), 2, "", "muni: status 2: *'qoute' is no command*")
    said = fresh.run("--help")
    assert (said.status, said.text.splitlines()[0]) == (0, (
        "muni computes prices, yields and accrued interest of municipal securities, and keeps and confirms trades."))


def test_an_install_of_a_fresh_copy_knows_the_kit(fresh, tmp_path):
    check(fresh.run("install", str(tmp_path / "usr")), 0, "", f"*muni: installed: {tmp_path}/usr/bin/muni, *")
    check(Launcher(tmp_path / "usr/bin/muni").run("--version"), 0, f"muni {VERSION}\n{KIT}")
