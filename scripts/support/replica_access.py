"""Replicas and writers that reach etcd by TLS and with accounts, as docs/SCALING.md sets them up,
and what they do if etcd refuses them. A server logs each connection that TLS ends, and counts each
request, so a program that tries again and again is found."""

import re
import shutil
import signal
import subprocess
import time
import urllib.request
from pathlib import Path

from checking import TOP, block_that_begins, want
from replica_cluster import Manager, Process, Servers, free_ports, lines_of, wait_for
from access import PASSWORD, Stop
from batches import Batch, value_of
from log import Tail, last_index, position_of
from store import Store, after, created, delete, put

# Requests of a program that is refused at once.
MOST_REQUESTS = 6
# A certificate that is valid from and to these times.
EXPIRED = "200101000000Z", "200102000000Z"
CA = """
[ca]
default_ca = own
[own]
database = {0}/index
new_certs_dir = {0}
rand_serial = yes
default_md = sha256
policy = any
copy_extensions = copy
unique_subject = no
[any]
organizationName = optional
[req]
distinguished_name = none
[none]
"""


def commands_of_scaling(start, *others):
    """A block of commands of SCALING, with some texts replaced: folders and ports are those of the
    check."""
    commands = block_that_begins((TOP / "docs/SCALING.md").read_text(), start)
    for old, new in others:
        want(old in commands, f"the commands have no {old}")
        commands = commands.replace(old, str(new))
    return commands


def run_commands(commands):
    ended = subprocess.run(["bash", "-c", commands], capture_output=True, text=True, timeout=120)
    want(ended.returncode == 0, f"status {ended.returncode}: {ended.stderr[-500:]}")


def make_certificates(folder):
    """Certificates and passwords by the commands of SCALING. Returns their folder."""
    tls = folder / "tls"
    run_commands(commands_of_scaling("hosts=(10.0.0.1", ("10.0.0.", "127.0.0."),
                                     ("~/replicas/tls", tls), ("~/replicas", folder)))
    return tls


def make_expired(folder, tls, name, usage):
    """A certificate and its key as `name` has them, but expired."""
    config, request = folder / "ca.conf", folder / f"{name}.csr"
    config.write_text(CA.format(folder))
    (folder / "index").touch()
    start, end = EXPIRED
    run_commands(f"openssl req -new -key {tls}/{name}.key -subj /O=expired -config {config}"
                 f" -addext subjectAltName=IP:127.0.0.1 -addext extendedKeyUsage={usage}"
                 f" -out {request} && openssl ca -batch -notext -config {config} -in {request}"
                 f" -cert {tls}/ca.crt -keyfile {folder}/ca.key -startdate {start}"
                 f" -enddate {end} -out {folder}/expired.{name}.crt")
    return folder / f"expired.{name}.crt"


class Secured:
    """A server with TLS, accounts and roles, and the replicas and writers on it."""

    def __init__(self, tool, folder):
        folder.mkdir()
        self.tool, self.folder, self.tls = tool, folder, make_certificates(folder)
        (metrics,) = free_ports(1)
        self.metrics = f"http://127.0.0.1:{metrics}"
        self.servers = Servers(folder, 1, "--logger", "zap", "--log-level", "warn",
                               "--unsafe-no-fsync", "--bcrypt-cost", "4",
                               "--listen-metrics-urls", self.metrics, tls=self.tls)
        self.url = self.servers.urls[0]
        self.manager = Manager(self.servers, tool, "puljemrod", folder)
        # What the programs have printed that were refused.
        self.printed = []
        self.is_refused("status", "authentication is not enabled")
        port = self.url.rpartition(":")[2]
        run_commands(f"hosts=(127.0.0.1)\ntls={self.tls}\nset -e\n" + commands_of_scaling(
            "export ETCDCTL", (":2379", f":{port}"), ("sleep 1", "sleep 0.1")))

    @staticmethod
    def once(tool, folder):
        """A function that sets this up when it is first called. If that fails, each call does, for
        the same reason."""
        made = []

        def secured():
            if not made:
                try:
                    made.append(Secured(tool, folder))
                except Exception as error:
                    made.append(error)
            if isinstance(made[0], Exception):
                raise made[0]
            return made[0]

        return secured

    def other(self, name, make):
        """A file or folder that is made once."""
        path = self.folder / name
        if not path.exists():
            make(path)
        return path

    def other_tls(self):
        """Certificates of another CA."""
        return self.other("other", lambda path: path.mkdir() or make_certificates(path)) / "tls"

    def etcdctl(self, words):
        """Changes accounts as SCALING says."""
        run_commands(f"tls={self.tls}\nexport ETCDCTL_ENDPOINTS={self.url}\n"
                     "export ETCDCTL_CACERT=$tls/ca.crt ETCDCTL_CERT=$tls/client.crt\n"
                     "export ETCDCTL_KEY=$tls/client.key\n"
                     f"ETCDCTL_USER=root:$(cat $tls/root.password) etcdctl {words}")

    def links(self):
        """The connections that TLS has ended."""
        return self.servers.processes[0].printed().count("rejected connection")

    def requests(self, method=r"\w+"):
        """The requests of this kind since the server has started."""
        with urllib.request.urlopen(f"{self.metrics}/metrics", timeout=20) as answer:
            text = answer.read().decode()
        found = re.findall(rf'^grpc_server_started_total{{grpc_method="{method}".* (\d+)$', text,
                           re.MULTILINE)
        return sum(map(int, found))

    def words(self, word, url=None, **changed):
        words = self.manager.words(word, [url or self.url], **changed)
        return words + (["--name", "r0", "--tool", self.tool] if word == "run" else [])

    def is_refused(self, word, why, url=None, tries=0, most=MOST_REQUESTS, **changed):
        """A program ends with one line that has the reason, after some connections that TLS ends.
        It asks for nothing again. Others make requests too if there may be more than usual."""
        links, requests = self.links(), self.requests()
        ended = subprocess.run(self.words(word, url, **changed), stdin=subprocess.DEVNULL,
                               capture_output=True, text=True, timeout=60)
        said = f"{word} {changed}: status {ended.returncode}, {ended.stderr}"
        self.printed.append(ended.stdout + ended.stderr)
        want(ended.returncode == 1 and ended.stderr.count("\n") == 1, said)
        want(ended.stderr.startswith("replica: ") and why in ended.stderr, said)
        # (the server may log them later)
        wait_for(f"{said} refused connections", lambda: self.links() - links >= tries)
        links, requests = self.links() - links, self.requests() - requests
        want(links == tries and requests <= most,
             f"{said}{links} connections, {requests} requests")

    def restart(self):
        self.servers.processes[0].kill()
        self.servers.start(0)
        wait_for("etcd answers", self.servers.answers)

    def appended(self, store):
        """Appends an empty line by a store, and returns the number of its log key."""
        keys = self.manager.keys
        value = store.value(keys.writers)
        number = int(value.value) + 1 if value else 1
        tail = Tail(store, keys, last_index(store, keys))
        return tail.append(value_of(Batch(number, 0, b"\n")), puts=[put(keys.writers, str(number))])

    def is_answered(self, store, index):
        return position_of(store.value(self.manager.keys.done))[0] > index

    def end(self, name):
        process = self.manager.processes[name]
        process.send(signal.SIGTERM)
        want(process.ended() == 0, f"it printed {process.printed()[-300:]}")


def all_goes_by_tls(secured):
    """A replica leads, a writer gets its answers, and the status shows both."""
    it = secured()
    it.manager.replica("tls", "--interval", "0")
    lines = lines_of(300, 30)
    printed = it.manager.write(lines, seconds=40)
    answers = subprocess.run([it.tool], input=b"".join(lines), capture_output=True, check=True)
    want(b"".join(printed) == answers.stdout, "other answers")
    status = it.manager.status()
    want(status["leader"] == "tls" and status["servers"][0]["bytes"], f"the status is {status}")
    it.end("tls")


def wrong_certificates_are_refused(secured):
    it = secured()
    tls, other = it.tls, it.other_tls()
    expired = it.other("expired.client.crt",
                       lambda _: make_expired(it.folder, tls, "client", "clientAuth"))
    locked, named, none = it.folder / "locked.key", it.folder / "named.crt", it.folder / "none"
    run_commands(f"openssl ec -in {tls}/client.key -aes128 -passout pass:locked -out {locked}\n"
                 f"openssl req -x509 -key {tls}/client.key -days 9 -subj /CN=root -CA {tls}/ca.crt"
                 f" -CAkey {it.folder}/ca.key -extensions usr_cert -out {named}")
    key = tls / "client.key"
    server, client = "the server's certificate is refused: ", "the server refuses the certificate"
    it.is_refused("status", server, tries=1, cacert=other / "ca.crt")
    it.is_refused("write", server, tries=1, cacert=None)
    it.is_refused("run", server, tries=1, cacert=other / "ca.crt")
    local = it.url.replace("127.0.0.1", "localhost")
    it.is_refused("status", f"{server}Hostname mismatch", local, tries=1)
    it.is_refused("write", "as with all servers", f"{local},{it.url}", tries=2, cacert=None)
    it.is_refused("run", client, tries=1, cert=None, key=None)
    it.is_refused("write", client, tries=1, cert=other / "client.crt", key=other / "client.key")
    it.is_refused("status", client, tries=1, cert=expired)
    it.is_refused("status", "has a CommonName", cert=named)
    it.is_refused("status", "the key does not fit the certificate", cert=tls / "e1.crt")
    it.is_refused("run", "no certificate and key in PEM", cert=key)
    it.is_refused("write", "no certificate in PEM", cacert=tls / "writer.password")
    it.is_refused("status", "the key has a password", key=locked)
    it.is_refused("status", "--cert and --key come together", key=None)
    for name in ("cacert", "cert", "key"):
        it.is_refused("write", f"--{name} {none}: No such file", **{name: none})
    it.is_refused("status", "no TLS: wrong version", it.metrics.replace("http:", "https:"))
    it.is_refused("run", "are for servers at https://", it.url.replace("https:", "http:"))


def wrong_accounts_are_refused(secured):
    it = secured()
    wrong, empty, none = (it.folder / name for name in ("wrong.password", "empty", "none"))
    wrong.write_text("f00dfacef00dface\n")
    empty.touch()
    failed, denied = "authentication failed, invalid user ID or password", "permission denied"
    for word in ("run", "write", "status"):
        tokens = it.requests("Authenticate")
        it.is_refused(word, failed, password_file=wrong)
        tokens = it.requests("Authenticate") - tokens
        want(tokens == 1, f"{word} has asked {tokens} times for a token")
    it.is_refused("write", failed, user="nobody")
    it.is_refused("run", denied, user="writer", password_file=it.tls / "writer.password")
    it.is_refused("status", denied, user="writer", password_file=it.tls / "writer.password")
    it.is_refused("leave-safe-mode", denied, user="writer", password_file=it.tls / "writer.password")
    it.is_refused("write", denied, user="replica", password_file=it.tls / "replica.password")
    it.is_refused("write", "give --user", user=None, password_file=None)
    it.is_refused("write", f"or in the environment variable {PASSWORD}", password_file=None)
    it.is_refused("status", "needs a password", password_file=empty)
    it.is_refused("run", "--password-file cannot be read: No such file", password_file=none)
    it.is_refused("status", "--password-file needs --user", user=None)
    it.is_refused("status", "not by a URL", it.url.replace("127", "root:f00dface@127"))
    it.is_refused("write", "--user is a name alone", user="writer:f00dface")
    want("f00dface" not in "".join(it.printed), "a password is printed")


# The keys that an account reaches, in the order in which `Keys` names them.
READS = {"writer": "log answers sessions done options layout writers turn",
         "replica": "log hashes replicas leader done options layout writers turn safe_mode"}
WRITES = {"writer": "log sessions writers turn",
          "replica": "log answers hashes commands replicas leader done options layout safe_mode"}


def accounts_reach_their_keys_alone(secured):
    it = secured()
    keys = it.manager.keys
    names = [name for name in vars(keys) if name != "prefix"]
    want(len(names) == 13, f"the keys are {names}")
    root = Store(it.servers.access("root"))
    for user in ("writer", "replica"):
        store, reads, writes = Store(it.servers.access(user)), [], []
        for name in names:
            path = getattr(keys, name)
            key = path + "x" * path.endswith("/")
            # The comparison fails, so nothing is put.
            for done, ask in (
                (reads, lambda: store.value(key)),
                (writes, lambda: store.transact([created(keys.done, 1)], [put(key, "")])),
            ):
                try:
                    ask()
                    done.append(name)
                except Stop as error:
                    want("permission denied" in str(error), str(error))
        want(reads == READS[user].split(), f"{user} reads {reads}")
        want(writes == WRITES[user].split(), f"{user} writes {writes}")
        for key in ("/other/log/x", keys.prefix + "other", keys.prefix[:-1]):
            want(refuses(lambda: store.value(key)), f"{user} reads {key}")
        lease = root.grant(60)
        root.transact([], [put(keys.replicas + "leased", "{}", lease)])
        want(refuses(lambda: store.revoke(lease)) == (user == "writer"), f"{user} and a lease")
        root.transact([], [delete(keys.replicas + "leased")])
    want(refuses(lambda: Store(it.servers.access()).value(keys.done)), "all read without --user")


def a_certificate_gives_no_rights(secured):
    """etcd takes the CommonName of its own certificate for the user of some requests."""
    it = secured()
    valid = (it.tls / "e1.crt").read_bytes()
    run_commands(f"openssl req -x509 -key {it.tls}/e1.key -days 9 -subj /CN=root"
                 f" -addext subjectAltName=IP:127.0.0.1 -extensions usr_cert -CA {it.tls}/ca.crt"
                 f" -CAkey {it.folder}/ca.key -out {it.folder}/root.crt")
    try:
        shutil.copy(it.folder / "root.crt", it.tls / "e1.crt")
        it.restart()
        it.is_refused("status", "give --user", user=None, password_file=None)
    finally:
        (it.tls / "e1.crt").write_bytes(valid)
        it.restart()


def watch_below(store, prefix):
    return store.watch(prefix, after(prefix), 1)


def refuses(ask):
    try:
        ask()
    except Stop:
        return True
    return False


def a_lost_token_is_replaced(secured):
    """A server that starts again knows no token. Each program asks once for another one."""
    it = secured()
    it.manager.replica("token", "--interval", "0")
    writer = it.manager.writer("token-writer")
    lines = lines_of(100, 31)
    for count in (50, 100):
        writer.child.stdin.write(b"".join(lines[count - 50 : count]))
        writer.child.stdin.flush()
        wait_for("the answers", lambda: writer.output.read_bytes().count(b"\n") == count, 40)
        if count == 50:
            it.restart()
    writer.child.stdin.close()
    want(writer.ended() == 0, f"the writer failed: {writer.printed()[-300:]}")
    tokens = it.requests("Authenticate")
    want(tokens == 2, f"two programs have asked {tokens} times for a token")
    it.end("token")
    keys, store = it.manager.keys, Store(it.servers.access("writer"))
    account = store.access.account
    for ask in (lambda: store.value(keys.done), lambda: next(watch_below(store, keys.answers))):
        account.token = "lost.1"
        ask()
        want(account.token != "lost.1", "a request has a lost token")
    want(refuses(lambda: next(watch_below(store, keys.replicas))), "writers watch replicas")


def a_right_taken_away_ends_programs(secured):
    it = secured()
    replica = it.manager.replica("right", "--interval", "0")
    writer = it.manager.writer("right-writer")
    writer.child.stdin.write(b"\n")
    writer.child.stdin.flush()
    wait_for("the answer", lambda: writer.output.read_bytes() == b"refused 20 BadLine\n", 40)
    for user in ("replica", "writer"):
        it.etcdctl(f"user revoke-role {user} {user}")
    requests = it.requests()
    try:
        for process, user in ((replica, "replica"), (writer, "writer")):
            want(process.ended() == 1, f"{user}: status {process.child.returncode}")
            why = f"etcd refuses a request of user {user}: etcdserver: permission denied"
            want(process.printed().count("permission denied") == 1 and why in process.printed(),
                 f"{user} printed {process.printed()[-500:]}")
        want("--session" in writer.printed(), f"the writer printed {writer.printed()}")
        requests = it.requests() - requests
        want(requests < 60, f"{requests} requests")
    finally:
        for user in ("replica", "writer"):
            it.etcdctl(f"user grant-role {user} {user}")


def connections_end_with_certificates(secured):
    """A replica goes on by the connections that it has when the server's certificate expires, or
    when the server takes its own no more. It stops once these have ended."""
    it = secured()
    expired = it.other("expired.e1.crt",
                       lambda _: make_expired(it.folder, it.tls, "e1", "serverAuth,clientAuth"))
    root = Store(it.servers.access("root"))
    server = "the server's certificate is refused: certificate has expired"
    own = "the server refuses the certificate of --cert"
    other_ca = it.other_tls() / "ca.crt"
    for name, other, why in (("e1.crt", expired, server), ("ca.crt", other_ca, own)):
        valid = (it.tls / name).read_bytes()
        replica = it.manager.replica(f"old-{name}", "--interval", "0")
        wait_for("it answers", lambda index=it.appended(root): it.is_answered(root, index), 40)
        # After a second of silence it opens its last connection.
        time.sleep(2)
        try:
            shutil.copy(other, it.tls / name)
            if why == server:
                it.is_refused("status", why, tries=1, most=1000)
            wait_for("it goes on", lambda index=it.appended(root): it.is_answered(root, index))
            links = it.links()
            it.servers.processes[0].kill()
            it.servers.start(0)
            want(replica.ended() == 1, f"status {replica.child.returncode}")
            said = replica.printed()
            want(said.count(why) == 1 and why in said.splitlines()[-1], f"it printed {said[-500:]}")
            links = it.links() - links
            want(0 < links < 20, f"{links} connections")
        finally:
            (it.tls / name).write_bytes(valid)
            it.restart()


def a_refused_server_is_left_for_another(secured):
    """The name of the first server does not fit its certificate."""
    it = secured()
    urls = [it.url.replace("127.0.0.1", "localhost"), it.url]
    links = it.links()
    it.manager.replica("left", "--interval", "0", urls=urls)
    writer = it.manager.writer("left-writer", [b"\n"], urls=urls)
    want(writer.ended(40) == 0, f"the writer failed: {writer.printed()[-300:]}")
    ended = subprocess.run(it.manager.words("status", urls), capture_output=True, text=True)
    want(ended.returncode == 0 and f"etcd {urls[0]} does not answer" in ended.stdout,
         f"the status is {ended.stdout}{ended.stderr}")
    it.end("left")
    links = it.links() - links
    want(0 < links < 20, f"{links} connections to the first server")


def secrets_of(tls):
    """The passwords, and the lines of the keys."""
    for path in (*tls.glob("*.password"), *tls.glob("*.key")):
        yield from (line for line in path.read_text().split("\n") if len(line) > 30 or
                    line and path.suffix == ".password")


def secrets_are_shown_nowhere(secured):
    """No process list, output or log has a password or a key, and the tool gets no password."""
    it = secured()
    password = (it.tls / "replica.password").read_text().strip()
    words = it.manager.words("run", password_file=None) + ["--name", "silent", "--tool", it.tool]
    replica = Process(words, it.folder / "silent.log", env={PASSWORD: password})
    it.manager.processes["silent"] = replica
    writer = it.manager.writer("silent-writer")
    wait_for("both run", lambda: "reads the log" in replica.printed()
             and "session" in writer.printed(), 40)
    tool = Path(f"/proc/{replica.child.pid}/task/{replica.child.pid}/children").read_text().split()
    want(tool, "the replica has no tool")
    shown = [Path(f"/proc/{process}/{part}").read_bytes() for part, processes in (
        ("cmdline", [*tool, replica.child.pid, writer.child.pid]), ("environ", tool)
    ) for process in processes]
    writer.child.stdin.close()
    want(writer.ended() == 0, f"the writer failed: {writer.printed()[-300:]}")
    it.end("silent")
    wrong = it.folder / "secret.password"
    wrong.write_text("cafebabecafebabecafebabecafebabe\n")
    it.is_refused("status", "authentication failed", password_file=wrong)
    ended = subprocess.run(it.words("status") + ["--password", "cafebabecafebabecafebabecafebabe"],
                           capture_output=True, text=True)
    want(ended.returncode == 2 and "the password is in a file" in ended.stderr, ended.stderr)
    shown += [text.encode() for text in (*it.printed, ended.stderr)]
    shown += [path.read_bytes() for path in it.folder.iterdir() if path.suffix in (".log", ".out")]
    for secret in (*secrets_of(it.tls), wrong.read_text().strip()):
        found = [text[-300:] for text in shown if secret.encode() in text]
        want(not found, f"a password or key is shown: {found[:1]}")
