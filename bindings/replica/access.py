"""How a program reaches the servers of etcd: by HTTP, or by TLS with certificates; and the account
that its requests belong to."""

import contextlib
import copy
import os
import select
import socket
import ssl
import threading
import time
from pathlib import Path
from urllib.parse import urlsplit

# The environment variable that may have the password.
PASSWORD = "PULJEMROD_ETCD_PASSWORD"
# Seconds for which a server is left alone after TLS with it has failed, and in which it accepts the
# certificate of a program.
AGAIN, VERDICT = 10, 0.5


class Stop(Exception):
    """A program cannot go on; the reason is the text."""


class Account:
    """A user of etcd, and the token that its requests carry. All threads share it."""

    def __init__(self, user, password):
        self.user, self.password = user, password
        self.token, self.lock = None, threading.Lock()

    def token_after(self, refused, ask):
        """The token, which one thread asks for if there is none but the refused one."""
        with self.lock:
            if self.token == refused:
                self.token = ask()
            return self.token


class Access:
    """Servers of etcd, and how to reach them. All stores of a program share it."""

    def __init__(self, urls, context=None, account=None):
        self.urls, self.addresses = urls, [address_of(url) for url in urls]
        self.context, self.account = context, account
        # Until when a server is left alone, and why.
        self.refusals = {}

    def alone(self, url):
        """The access to one of the servers."""
        other = copy.copy(self)
        other.urls, other.addresses, other.refusals = [url], [address_of(url)], {}
        return other

    def link(self, at, seconds):
        """A new connection to a server. Its certificate has to fit the host's name."""
        scheme, host, port = self.addresses[at]
        link = socket.create_connection((host, port), timeout=seconds)
        # The body of a request comes behind its head without a pause.
        link.setsockopt(socket.IPPROTO_TCP, socket.TCP_NODELAY, 1)
        if scheme == "http":
            return link
        link = self.context.wrap_socket(link, server_hostname=host)
        hear_verdict(link)
        link.settimeout(seconds)
        return link

    def refuse(self, at, error):
        """Leaves a server alone, since TLS with it has failed. Stops if that holds of all."""
        now, why = time.monotonic(), f"{self.urls[at]}: {reason_of(error)}"
        self.refusals[at] = now + AGAIN, why
        if len(self.refused()) == len(self.urls):
            raise Stop(why + ", as with all servers" * (len(self.urls) > 1))
        return why

    def refused(self):
        """The servers that are left alone, each with the reason."""
        now = time.monotonic()
        return {at: why for at, (until, why) in self.refusals.copy().items() if until > now}


def hear_verdict(link):
    """By TLS 1.3 a server verifies the certificate of this program after the handshake. Then it
    sends a ticket or an alert. A request that is sent meanwhile fails without a reason."""
    if link.version() == "TLSv1.3" and select.select([link], [], [], VERDICT)[0]:
        link.setblocking(False)
        with contextlib.suppress(ssl.SSLWantReadError):
            link.recv(1)


def address_of(url):
    parts = urlsplit(url)
    if "@" in parts.netloc:
        raise Stop("an account is given by --user, not by a URL")
    try:
        port = parts.port
    except ValueError:
        port = None
    if parts.scheme not in ("http", "https") or not parts.hostname or not port:
        raise Stop(f"{url!r} is no server of etcd: write http://HOST:PORT or https://HOST:PORT")
    return parts.scheme, parts.hostname, port


def reason_of(error):
    """Why TLS has failed."""
    if isinstance(error, ssl.SSLCertVerificationError):
        return f"the server's certificate is refused: {error.verify_message}"
    reason = (error.reason or str(error)).replace("_", " ").lower()
    if "alert" in reason:
        return (f"the server refuses the certificate of --cert, or misses it: "
                f"{reason.partition('alert ')[2]}")
    return f"no TLS: {reason}"


def context_of(cacert, cert, key):
    """Servers are verified by a file of certificates of CAs, or by those of the system."""
    for option, path in (("--cacert", cacert), ("--cert", cert), ("--key", key)):
        try:
            path is None or open(path, "rb").close()
        except OSError as error:
            raise Stop(f"{option} {path}: {error.strerror}") from None

    def has_a_password():
        raise Stop(f"--key {key}: the key has a password, which no option gives")

    try:
        context = ssl.create_default_context(cafile=cacert)
    except ssl.SSLError:
        raise Stop(f"--cacert {cacert}: no certificate in PEM") from None
    try:
        if cert:
            context.load_cert_chain(cert, key, has_a_password)
    except ssl.SSLError as error:
        fits = error.reason != "KEY_VALUES_MISMATCH"
        why = "no certificate and key in PEM" if fits else "the key does not fit the certificate"
        raise Stop(f"--cert {cert}, --key {key}: {why}") from None
    return context


def account_of(user, path):
    """The account, with the password of the file or of the environment. Programs that this one
    starts get no password. No message has one, nor the path, in case it is one."""
    password = os.environ.pop(PASSWORD, "")
    if not user:
        if path:
            raise Stop("--password-file needs --user")
        return None
    if ":" in user:
        raise Stop("--user is a name alone, without a password")
    if path:
        try:
            password = Path(path).read_text().rstrip("\r\n")
        except (OSError, ValueError) as error:
            why = getattr(error, "strerror", None) or "it is no text"
            raise Stop(f"the file of --password-file cannot be read: {why}") from None
    if not password:
        raise Stop(f"--user {user} needs a password: in the file of --password-file, or in the "
                   f"environment variable {PASSWORD}")
    return Account(user, password)


def access_of(words):
    """The access that the options of a command describe."""
    given = words.cacert, words.cert, words.key
    account = account_of(words.user, words.password_file)
    if bool(words.cert) != bool(words.key):
        raise Stop("--cert and --key come together")
    secure = [url.startswith("https:") for url in words.etcd]
    if (account or any(given)) and not all(secure):
        raise Stop("--cacert, --cert, --key and --user are for servers at https://HOST:PORT")
    return Access(words.etcd, context_of(*given) if any(secure) else None, account)
