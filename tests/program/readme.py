#!/usr/bin/env python3
"""Runs what README.md says, line by line, in front of a PostgreSQL server with Debian's defaults.

Usage: readme.py PROGRAM

The lines of "Pool your PostgreSQL" are taken from the page as they stand, but for the two ports and the folder of `make install`, since
the usual ones may be taken here. `make demo` is run with PROGRAM, so that nothing is built for it. Every make target, command and file
that the page names is looked for, and whatever it and the other pages lead to.
"""
import os
import pathlib
import re
import subprocess
import sys

sys.path.insert(0, str(pathlib.Path(__file__).resolve().parents[1] / "lib"))
from cluster import HERE, TOP, Cluster, free_port, is_open, until
from passes import Show, play

MAX_LINES = 120
MAX_BYTES = 9 * 1024
SECRETS = {"ann": "secret", "root": "r"}


class DefaultServer(Cluster):
    """A server as Debian's package makes it: its superuser comes in over the socket, everybody else by SCRAM."""

    def __init__(self, place):
        self.place, self.port, self.data = place, free_port(), place.folder / "data"
        self.log = place.folder / "server.log"
        place.run("initdb", "-D", self.data, "-U", "postgres", "--auth-local=trust", "--auth-host=scram-sha-256", "-E", "UTF8", "--no-sync")
        with open(self.data / "postgresql.conf", "a") as file:
            file.write(f"listen_addresses = '{HERE}'\nport = {self.port}\nunix_socket_directories = '{place.folder}'\nfsync = off\n")
        self.start()


class Page:
    """What stands on the page."""

    def __init__(self):
        self.text = (TOP / "README.md").read_text()

    def block(self, heading):
        """The lines of the first block behind a heading."""
        behind = self.text.split(f"## {heading}\n", 1)[1]
        return behind.split("```\n", 2)[1].splitlines()

    def files(self):
        return sorted(set(re.findall(r"\]\(([^)#]+)\)", self.text)))

    def targets(self):
        return sorted(set(re.findall(r"`make ([a-z]+)", self.text)))

    def commands(self):
        row = re.search(r"^\| (`pgsess .*?) \|", self.text, re.M).group(1)
        return re.findall(r"`(?:pgsess )?([a-z]+)`", row)


def anchors(text):
    """The headings of a page, as links name them."""
    headings = re.findall(r"^#+ (.*)$", re.sub(r"^```.*?^```", "", text, flags=re.M | re.S), re.M)
    return {re.sub(r"[^\w\- ]", "", it.lower()).replace(" ", "-") for it in headings}


def pages():
    return [*TOP.glob("*.md"), *TOP.glob("docs/**/*.md")]


def dead_links():
    """Links of the pages, between each other, that lead nowhere."""
    dead = []
    for page in pages():
        for name, anchor in re.findall(r"\]\(([^)#:]*)(?:#([^)]*))?\)", page.read_text()):
            to = page.parent / name if name else page
            if not to.exists() or anchor and anchor not in anchors(to.read_text()):
                dead.append(f"{page.name}: {name}#{anchor}")
    return dead


def wrong_ids():
    """Ids of decisions that stand there twice, and those that a page cites and that aren't there."""
    made = re.findall(r"^- \*\*(D-[A-Z]+-\d+)\.", "".join(it.read_text() for it in TOP.glob("docs/decisions/*.md")), re.M)
    cited = {it for page in pages() for it in re.findall(r"\bD-[A-Z]+-\d+\b", page.read_text())}
    return sorted({it for it in made if made.count(it) > 1} | cited - set(made))


class Walk:
    """A newcomer who types what the page says."""

    def __init__(self, place, server, program):
        self.place, self.server, self.program = place, server, program
        self.port, self.pooler = free_port(), None
        self.prefix = place.folder / "usr"
        for name in ["pgsess.ini", "users.txt"]:
            text = (TOP / "examples" / name).read_text()
            place.write(name, text.replace("port=5432", f"port={server.port}").replace("listen_port = 6432", f"listen_port = {self.port}"))
        self.environment = {
            **os.environ,
            "PATH": f"{self.prefix}/bin:{os.environ['PATH']}",
            "PGHOST": str(place.folder), "PGPORT": str(server.port), "PGUSER": "postgres", "PGDATABASE": "postgres",
        }

    def here(self, line):
        """The line with the ports and folders of this walk."""
        line = line.split("   #")[0].split("  #")[0].strip()
        line = line.replace("examples/", f"{self.place.folder}/").replace("-p 6432", f"-p {self.port}")
        if line.startswith("make "):
            line += f" PREFIX={self.prefix} program={self.program} -o {self.program}"
        return line

    def run(self, line, said=""):
        user = re.search(r"-U (\w+)", line)
        environment = {**self.environment, "PGPASSWORD": SECRETS.get(user.group(1), "") if user else ""}
        return subprocess.run(["bash", "-c", self.here(line)], cwd=TOP, env=environment, input=said, timeout=60, text=True,
                              stdout=subprocess.PIPE, stderr=subprocess.STDOUT)

    def serve(self, line):
        """The pooler, once it listens; what it says goes to a file."""
        with open(self.place.folder / "log", "w") as log:
            words = self.here(line.removesuffix("&"))
            self.pooler = subprocess.Popen(["bash", "-c", f"exec {words}"], cwd=TOP, env=self.environment, stdout=log, stderr=log)
        return until(lambda: is_open(self.port) or self.pooler.poll() is not None, 10) and self.pooler.poll() is None

    def said(self):
        return (self.place.folder / "log").read_text()

    def stop(self):
        if self.pooler and self.pooler.poll() is None:
            self.pooler.kill()
            self.pooler.wait()


def pools(passes, page, walk):
    """The lines of "Pool your PostgreSQL"."""
    lines = page.block("Pool your PostgreSQL")
    make_roles, install, serve, client, console = lines
    passes.same("the page's five lines are those that this script knows", [it.split()[0] for it in lines],
                ["psql", "make", "pgsess", "psql", "psql"])
    passes.same(install.split("  ")[0], walk.run(install).returncode, 0)

    passes.holds("the pool listens", walk.serve(serve))
    walk.run(client, "SELECT 1")
    wanted = f"server {HERE}:{walk.server.port} refused the start: 28P01"
    passes.holds("before the role is there, the log says what the server says", until(lambda: wanted in walk.said(), 5), walk.said())
    walk.stop()

    told = walk.run(make_roles)
    passes.same("the role and the database", (told.returncode, told.stdout.split()), (0, ["CREATE", "ROLE", "CREATE", "DATABASE"]))
    passes.holds("the pool listens again", walk.serve(serve))
    holds = until(lambda: walk.run(client.split("#")[0] + " -XAt", "SELECT current_user, current_database()").stdout.strip() == "ann|shop",
                  10)
    passes.holds("a client of the pool", holds, walk.said())
    told = walk.run(console)
    passes.holds("the console shows the pool", re.search(r"^ shop +\| ann ", told.stdout, re.M), told.stdout)


def names(passes, page, program):
    """What the page names is there."""
    for target in page.targets():
        ran = subprocess.run(["make", "-n", "-o", "crates/pgsess/out/pgsess", "-o", "crates/trials/out/trials", target], cwd=TOP,
                             capture_output=True)
        passes.same(f"make {target} is known", ran.returncode, 0)
    for command in page.commands():
        ran = subprocess.run([program, command, "--help"], capture_output=True)
        passes.same(f"pgsess {command} --help", ran.returncode, 0)
    missing = [it for it in page.files() if not (TOP / it).exists()]
    passes.same("every file that the page leads to is there", missing, [])
    passes.same("no page leads nowhere", dead_links(), [])
    passes.same("each decision that is cited is there, once", wrong_ids(), [])
    size = (page.text.count("\n") <= MAX_LINES, len(page.text.encode()) <= MAX_BYTES)
    passes.same(f"the page has at most {MAX_LINES} lines and {MAX_BYTES} bytes", size, (True, True))


class Readme(Show):
    def __init__(self, program):
        super().__init__(program, "readme")

    def all(self):
        page = Page()
        names(self.passes, page, self.program)
        walk = Walk(self.place, DefaultServer(self.place), self.program)
        try:
            pools(self.passes, page, walk)
        finally:
            walk.stop()
        demo = subprocess.run([TOP / "shows/demo.py", self.program], stdout=subprocess.PIPE, stderr=subprocess.STDOUT, text=True)
        self.passes.same("make demo shows that the next client finds nothing", demo.returncode, 0)


if __name__ == "__main__":
    play(Readme)
