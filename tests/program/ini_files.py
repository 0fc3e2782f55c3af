#!/usr/bin/env python3
"""Files of the field, in the style of images, charts and tutorials (tests/ini): what `pgsess check` says of each in one run, that they
serve once the lines which it names are taken out, and what the start says. Then what `check` shows of passwords and users, `auth_file`
in place of `--users`, and that docs/MIGRATING.md has every key of PgBouncer 1.24.

What is expected was worked out from the files and PgBouncer's manual by hand.

Usage: ini_files.py PROGRAM
"""
import pathlib
import re
import subprocess
import sys
import tempfile

sys.path.insert(0, str(pathlib.Path(__file__).resolve().parents[1] / "lib"))
from cluster import HERE, TOP, free_port
from passes import Passes, words

PROGRAM, = words(1)
PASSES = Passes("ini_files")

# by the file: its faulty lines with their codes, and the keys that are read over beside auth_file, in its order
FIELD = {
    "bitnami": ({}, "auth_file pidfile logfile client_tls_sslmode server_tls_sslmode"),
    "cnpg": (
        {6: "C2", 7: "C2", 8: "C2", 10: "C3", 11: "C2", 15: "C2", 19: "C2", 20: "C2", 26: "C2", 27: "C2"},
        "auth_file client_tls_cert_file client_tls_key_file client_tls_ca_file pidfile",
    ),
    "edoburu": ({3: "C3", 9: "C2"}, "auth_file"),
    "helm": (
        {10: "C2", 11: "C2", 17: "C2", 18: "C2", 27: "C7"},
        "auth_file server_check_query server_check_delay server_tls_sslmode client_tls_sslmode",
    ),
    "tutorial": ({4: "C3", 20: "C2"}, "logfile pidfile auth_file reserve_pool_timeout client_idle_timeout"),
}

# the section [pgbouncer] of PgBouncer 1.24's manual
KEYS = """logfile pidfile listen_addr listen_port unix_socket_dir unix_socket_mode unix_socket_group user pool_mode max_client_conn
default_pool_size min_pool_size reserve_pool_size reserve_pool_timeout max_db_connections max_db_client_connections
max_user_connections max_user_client_connections server_round_robin track_extra_parameters ignore_startup_parameters peer_id
disable_pqexec application_name_add_host conffile service_name job_name stats_period max_prepared_statements auth_type auth_hba_file
auth_ident_file auth_file auth_user auth_query auth_dbname syslog syslog_ident syslog_facility log_connections log_disconnections
log_pooler_errors log_stats verbose admin_users stats_users server_reset_query server_reset_query_always server_check_delay
server_check_query server_fast_close server_lifetime server_idle_timeout server_connect_timeout server_login_retry
client_login_timeout autodb_idle_timeout dns_max_ttl dns_nxdomain_ttl dns_zone_check_period resolv_conf client_tls_sslmode
client_tls_key_file client_tls_cert_file client_tls_ca_file client_tls_protocols client_tls_ciphers client_tls_ecdhcurve
client_tls_dheparams server_tls_sslmode server_tls_ca_file server_tls_key_file server_tls_cert_file server_tls_protocols
server_tls_ciphers query_timeout query_wait_timeout cancel_wait_timeout client_idle_timeout idle_transaction_timeout
suspend_timeout pkt_buf max_packet_size listen_backlog sbuf_loopcnt so_reuseport tcp_defer_accept tcp_socket_buffer tcp_keepalive
tcp_keepcnt tcp_keepidle tcp_keepintvl tcp_user_timeout""".split()


def check(*words):
    done = subprocess.run([PROGRAM, "check", *map(str, words)], capture_output=True, text=True, timeout=60)
    return done.returncode, done.stdout.splitlines(), done.stderr


def faults_of(lines, path):
    """The codes of a report by their lines, where each is told with the file."""
    found = {}
    for line in lines:
        told = re.match(re.escape(str(path)) + r" line (\d+): (?:.*: )?([CU]\d): .", line)
        if told:
            found[int(told[1])] = told[2]
    return found


def start(work, path, *words):
    """What the program says on both outputs until it listens, or until it ends; its status then."""
    with (work / "said").open("w") as said:
        program = subprocess.Popen([PROGRAM, "serve", "--ini", str(path), *words], stdout=subprocess.PIPE, stderr=said, text=True, cwd=work)
        line = program.stdout.readline()
        try:
            status = program.wait(0.3)
        except subprocess.TimeoutExpired:
            status = None
            program.kill()
            program.wait()
        program.stdout.close()
    return line.strip(), status, (work / "said").read_text().splitlines()


def moved(lines, port):
    """The file for this machine: it listens on a free port of 127.0.0.1, and in no folder."""
    own = [it for it in lines if not re.match(r"\s*(listen_addr|listen_port|unix_socket_dir)\s*=", it)]
    at = own.index("[pgbouncer]") + 1
    return [*own[:at], f"listen_addr = {HERE}", f"listen_port = {port}", *own[at:]]


def field(work, name, faults, over):
    path, users = TOP / "tests/ini" / f"{name}.ini", work / "users.txt"
    status, lines, stderr = check("--ini", path, "--users", users)
    PASSES.same(f"{name}: faults in one run", faults_of(lines, path), faults)
    PASSES.same(f"{name}: status and standard error", (status, stderr), (1 if faults else 0, ""))
    names = f"read over: {over.replace(' ', ', ')}"
    PASSES.same(f"{name}: what is read over", f"{path}: {names}" in lines, True)

    port = free_port()
    good = [it for number, it in enumerate(path.read_text().splitlines(), 1) if number not in faults]
    served = work / f"{name}.ini"
    served.write_text("\n".join(moved(good, port)) + "\n")
    listening, status, said = start(work, served, "--users", str(users))
    PASSES.same(f"{name}: serves without these lines", (listening, status), (f"listening 127.0.0.1 {port}", None))
    tls = ["pgsess: no TLS to servers (server_tls_sslmode = prefer)"] if name == "helm" else []
    PASSES.same(f"{name}: what the start says", [it for it in said if "over" in it or "TLS" in it], [f"pgsess: {names}", *tls])
    status, lines, _ = check("--ini", served, "--users", users)
    PASSES.same(f"{name}: no fault is left", (status, faults_of(lines, served)), (0, {}))

    if not faults:
        return
    served.write_text("\n".join(moved(path.read_text().splitlines(), port)) + "\n")
    _, status, said = start(work, served, "--users", str(users))
    PASSES.same(f"{name}: serve tells one fault in one line", (status, len(said), said[0][:9]), (1, 1, "pgsess: C"))


def passwords(work):
    """Nothing is shown of a password, however it is written, nor of a user's line but a name that is there twice."""
    ini, users = work / "secret.ini", work / "secret.txt"
    ini.write_text('"ann" "hidden0="\n[databases]\na = host=x user=app password=hidden1\nb = host=x PassWord = hidden2\n'
                   "c = password='hid den3' host=x\npassword = hidden4\n[pgbouncer]\npassword = hidden5\nlisten_port = "
                   "a\x07b\n[users]\nann = hidden6\n")
    users.write_text('"ann" "hidden7"\n"ann" "hidden8"\n"bob hidden9"\n"" "hidden10"\n')
    status, lines, _ = check("--ini", ini, "--users", users)
    PASSES.same("passwords: status", status, 1)
    PASSES.same("passwords: settings", faults_of(lines, ini), {1: "C7", 4: "C3", 5: "C3", 6: "C3", 8: "C2", 9: "C3", 11: "C1"})
    PASSES.same("passwords: users", faults_of(lines, users), {2: "U2", 3: "U1", 4: "U1"})
    PASSES.same("passwords: what is shown", [it for it in lines if "hid" in it or "den" in it], [])
    PASSES.same("passwords: a byte of control", any("listen_port = a\\x07b: C3" in it for it in lines), True)
    PASSES.same("passwords: the name", f'{users} line 2: "ann": U2: given above already' in lines, True)


def auth_file(work):
    """`--users` may be left out where the settings name a file; a relative name is one from the current folder."""
    port, ini = free_port(), work / "named.ini"
    head = f"[pgbouncer]\nlisten_port = {port}\n"
    ini.write_text(f"{head}auth_file = users.txt\nlogfile = x\n")
    listening, status, said = start(work, ini)
    PASSES.same("auth_file: serves", (listening, status), (f"listening 127.0.0.1 {port}", None))
    PASSES.same("auth_file: isn't read over", [it for it in said if "over" in it], ["pgsess: read over: logfile"])
    for name, line, want in [
        ("none", "", (2, ["pgsess: no user file"])),
        ("an empty name", "auth_file =\n", (2, ["pgsess: no user file"])),
        ("no such file", "auth_file = nowhere.txt\n", (1, ["pgsess: file nowhere.txt"])),
        ("a fault of it", "auth_file = bad.txt\n", (1, ["pgsess: U1 line 1"])),
    ]:
        ini.write_text(head + line)
        _, status, said = start(work, ini)
        PASSES.same(f"auth_file: {name}", (status, said), want)
    ini.write_text(f"{head}auth_file = bad.txt\n")
    listening, status, said = start(work, ini, "--users", "users.txt")
    PASSES.same("auth_file: --users comes first", (listening, status), (f"listening 127.0.0.1 {port}", None))
    PASSES.same("auth_file: and it is read over", [it for it in said if "over" in it], ["pgsess: read over: auth_file"])
    ini.write_text(head)
    PASSES.same("check: nobody names a user file", check("--ini", ini)[:1], (1,))
    PASSES.same("check: no settings", check("--ini", work / "nowhere.ini"), (1, [], f"pgsess: file {work / 'nowhere.ini'}\n"))


def keys():
    text = (TOP / "docs/MIGRATING.md").read_text()
    named = set(re.findall(r"`([a-z_]+)(?: = [^`]*)?`", text))
    PASSES.same("keys of PgBouncer 1.24", len(set(KEYS)), 93)
    PASSES.same("keys that MIGRATING.md lacks", [it for it in KEYS if it not in named], [])


def main():
    with tempfile.TemporaryDirectory() as name:
        work = pathlib.Path(name)
        (work / "users.txt").write_text('"ann" "a"\n')
        (work / "bad.txt").write_text("ann a\n")
        for name, (faults, over) in FIELD.items():
            field(work, name, faults, over)
        passwords(work)
        auth_file(work)
    keys()
    PASSES.end()


if __name__ == "__main__":
    main()
