"""What is installed, packages, and the version."""
import os
import re
import shutil
import subprocess
import sys

from .common import NEW_IMAGE, ROOT, Skipped, read, same, tried, write
from .clones import asked, built, copy_launcher, launch, lines_of


def commands_of_clients():
    """The commands in Python that the clients declare."""
    path = f"{ROOT}/clients/pyproject.toml"
    declared = read(path).decode() if os.path.exists(path) else ""
    return re.findall(r'^([a-z-]+) = "[\w.]+:\w+"$', declared, re.M)


def whole_clone():
    """A clone with all that is installed, whose program is built, and its path."""
    path = built(read(tried.program))
    for folder in ("clients", "docs", "examples", "c", "page"):
        shutil.copytree(f"{ROOT}/{folder}", f"repo/{folder}", ignore=shutil.ignore_patterns("out", "__pycache__"))
    for name in os.listdir(ROOT):
        if name.endswith(".md"):
            shutil.copy(f"{ROOT}/{name}", "repo")
    for part in ("install", "package"):
        shutil.copy(f"{ROOT}/.ci/{part}", "repo/.ci")
    return path


def works(prefix, version):
    """Tests what is installed below a prefix, without the clone."""
    antelope = f"{prefix}/bin/antelope"
    same(launch(antelope, "--version"), (f"antelope {version}\n", "", 0), "the version")
    create = ("CREATE RELATION n", "CREATE ATTRIBUTE v DOMAIN INT IN n", "INSERT (7) INTO n", "SELECT v FROM n")
    same(launch(antelope, "ask", "kept", *create)[::2], ("ok\nok\nok\n7\nrows 1\n", 0), "an answer")
    same(launch(antelope, "try", "dump", "kept")[2], 0, "that try is taken")
    os.remove("kept")
    tools = commands_of_clients()
    same(sorted(os.listdir(f"{prefix}/bin")), sorted(["antelope", *tools]), "the commands")
    for tool in tools:
        help_, said, status = launch(f"{prefix}/bin/{tool}", "--help")
        same((said, status, "usage" in help_.lower()), ("", 0, True), f"the help of {tool}")
    for path in ("share/man/man1/antelope.1", "share/doc/sorachest/AQL.md", "share/doc/sorachest/README.md",
                 "share/doc/sorachest/examples/first.aql", "share/bash-completion/completions/antelope",
                 "share/zsh/site-functions/_antelope"):
        same(os.path.isfile(f"{prefix}/{path}"), True, f"that {path} is there")


def test_what_is_installed_stands_without_the_clone():
    path = whole_clone()
    version = read(f"{ROOT}/VERSION").decode().strip()
    os.makedirs("repo/c/out")
    write("repo/c/out/libsorachest.a", b"an archive")
    os.umask(0o077)
    for _ in range(2):
        output, said, status = launch("repo/antelope", "install", "in here", path=path)
        last = f"install: installed below {os.getcwd()}/in here"
        same((output.splitlines()[-1], said, status), (last, "", 0), "the end of it")
    os.umask(0o022)
    shutil.rmtree("repo")
    works(f"{os.getcwd()}/in here", version)
    same(os.stat("in here/lib/sorachest/VERSION").st_mode & 0o777, 0o644, "the mode of a file")
    same(read("in here/lib/libsorachest.a"), b"an archive", "the library")
    same(os.path.exists("in here/share/sorachest"), False, "that there is no page")
    if shutil.which("pkg-config"):
        environment = {**os.environ, "PKG_CONFIG_PATH": "in here/lib/pkgconfig"}
        known = subprocess.run(["pkg-config", "--modversion", "sorachest"], env=environment, stdout=subprocess.PIPE)
        same(known.stdout.decode(), f"{version}\n", "what pkg-config knows")


def test_a_proved_program_is_installed_without_a_library_that_is_not():
    path = whole_clone()
    os.makedirs("repo/c/out")
    for name in ("libsorachest.a", "unproved"):
        write(f"repo/c/out/{name}", b"")
    output = launch("repo/antelope", "install", "here", path=path)[0]
    said = "install: the library was compiled without its proofs (c/build try), and left out"
    same((said in output.splitlines(), os.path.exists("here/lib/libsorachest.a")), (True, False), "what is installed")


def test_what_was_compiled_without_proofs_says_so_where_it_is_installed():
    path = whole_clone()
    write("repo/made", read(tried.program))
    launch("repo/antelope", "install", "here", "try", path=path)
    same(asked(), ["unproved"], "what was built")
    version = read(f"{ROOT}/VERSION").decode().strip()
    known = f"antelope {version} (compiled without its proofs)\n"
    same(launch("here/bin/antelope", "--version"), (known, "", 0), "its version")
    write("image", NEW_IMAGE)
    said = lines_of("a try: this program was compiled without its proofs")
    same(launch("here/bin/antelope", "dump", "image"), ("", said, 0), "what each call says")


def test_packages_run_on_another_machine():
    path = whole_clone()
    version = read(f"{ROOT}/VERSION").decode().strip()
    launch("repo/.ci/package", path=path)
    packages = sorted(os.listdir("repo/out"))
    names = [f"sorachest-{version}-linux-x86_64.tar.gz", f"sorachest_{version}_amd64.deb"]
    same(packages, names if shutil.which("dpkg-deb") else names[:1], "the packages")
    subprocess.run(["tar", "-xzf", f"repo/out/{names[0]}"], check=True)
    if len(packages) > 1:
        subprocess.run(["dpkg-deb", "-x", f"repo/out/{names[1]}", "debian"], check=True)
        subprocess.run(["dpkg-deb", "-e", f"repo/out/{names[1]}", "control"], check=True)
    shutil.rmtree("repo")
    works(names[0][:-len(".tar.gz")], version)
    if len(packages) > 1:
        works("debian/usr", version)
        same(os.access("control/prerm", os.X_OK), True, "that a removal clears what Python compiled")
        environment = {**os.environ, "PYTHONPATH": "debian/usr/lib/python3/dist-packages", "PYTHONDONTWRITEBYTECODE": "1"}
        words = [sys.executable, "-c", "import sorachest; print(sorachest.__version__)"]
        imported = subprocess.run(words, env=environment, stdout=subprocess.PIPE, check=True)
        same(imported.stdout.decode(), f"{version}\n", "what Python imports")


def test_install_of_wrong_words_or_where_it_is_installed_is_refused():
    path = built(b"")
    said = lines_of("'really' is one argument too many") + "usage: antelope install PREFIX [try]\n"
    same(launch("repo/antelope", "install", "here", "really", path=path), ("", said, 1), "another word")
    os.mkdir("installed")
    copy_launcher("installed")
    said = lines_of("this is an installed program: run install in a clone of the repository")
    same(launch("installed/antelope", "install", "here"), ("", said, 125), "an installed launcher")


def test_arguments_are_completed():
    if not shutil.which("bash"):
        raise Skipped("there is no bash")
    write("some.img", b"")
    ask = 'COMP_WORDS=("$@"); COMP_CWORD=$(($# - 1)); _antelope; echo "${COMPREPLY[*]}"'
    for words, wanted in (
        ("antelope pl", "plan"), ("antelope c", "check collect"), ("antelope r", "run repair"), ("antelope try --s", "--strict --sync"),
        ("antelope --strict run so", "some.img"), ("antelope run some.img so", "some.img"), ("antelope dump some.img so", ""),
    ):
        command = ["bash", "-c", f"source '{ROOT}/docs/completions/antelope.bash'; {ask}", "bash", *words.split()]
        completed = subprocess.run(command, stdout=subprocess.PIPE, check=True).stdout.decode()
        same(completed, f"{wanted}\n", words)


def test_the_version_is_the_same_everywhere():
    version = read(f"{ROOT}/VERSION").decode().strip()
    same(f"\n## {version}" in read(f"{ROOT}/CHANGELOG.md").decode(), True, f"that CHANGELOG.md tells of {version}")
    for path, known in (
        ("clients/pyproject.toml", r'^version = "(.*)"$'),
        ("clients/sorachest/__init__.py", r'^__version__ = "(.*)"$'),
        ("c/sorachest.h", r'^#define SORACHEST_VERSION "(.*)"$'),
    ):
        same(re.findall(known, read(f"{ROOT}/{path}").decode(), re.M), [version], f"the version of {path}")
