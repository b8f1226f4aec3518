"""What the replicas need of etcd: ranges, transactions, watches and leases, by the JSON gateway of
etcd 3.4. Standard library alone.

A request goes to one server, and to the next one if no answer comes in time. So a transaction may
be sent twice: each one compares something that it changes, and then the second is refused. What no
other try can change, as a refused certificate or account, ends the program: it raises `Stop`."""

import base64
import http.client
import json
import socket
import ssl
import time
from collections import namedtuple

from access import Access, Stop

Entry = namedtuple("Entry", "key value created modified version lease", defaults=[0])
Range = namedtuple("Range", "entries count revision")
# `certain` is false where the transaction was sent more than once: one of these may have succeeded.
Outcome = namedtuple("Outcome", "succeeded ranges revision certain")

# Seconds to wait for one server, and for any. Bytes of a request that add a second.
ANSWER, PATIENCE, BYTES = 3, 10, 200_000
SPACE = "mvcc: database space exceeded"
# What etcd answers to an account. A role that changes meanwhile makes a token old.
INVALID, OLD = "invalid auth token", "revision of auth store is old"
EMPTY, DENIED = "user name is empty", "permission denied"
COMMON_NAME = b"CommonName of client"
# Tokens that a request asks for at most, after one is invalid and after one is old.
TOKENS, OLD_TOKENS = 1, 5


class StoreError(Exception):
    """What went wrong, in words for the user."""


class Unreachable(StoreError):
    pass


class Full(StoreError):
    pass


class Refused(StoreError):
    pass


class Compacted(StoreError):
    pass


class LeaseGone(StoreError):
    pass


class Away(Exception):
    """This server gives no answer; another one may."""


class TokenRefused(Stop):
    pass


def packed(text):
    return base64.b64encode(text.encode() if isinstance(text, str) else text).decode()


def unpacked(text):
    return base64.b64decode(text)


def after(prefix):
    """The end of the range of all keys that begin with a prefix."""
    return prefix[:-1] + chr(ord(prefix[-1]) + 1)


def entry_of(pair):
    return Entry(
        unpacked(pair["key"]).decode(), unpacked(pair.get("value", "")),
        int(pair.get("create_revision", 0)), int(pair["mod_revision"]),
        int(pair.get("version", 0)), int(pair.get("lease", 0)),
    )


def range_of(answer):
    return Range(
        [entry_of(pair) for pair in answer.get("kvs", [])], int(answer.get("count", 0)),
        int(answer["header"]["revision"]),
    )


def get(key, end=None, limit=0, **words):
    """A range: one key, or the first keys below an end, with the number of all. etcd iterates over
    the keys up to the end, whatever the limit, and reads all values to find the last one."""
    if end:
        words["range_end"] = packed(end)
    return {"request_range": {"key": packed(key), "limit": limit, **words}}


def put(key, value, lease=0):
    return {"request_put": {"key": packed(key), "value": packed(value), "lease": lease}}


def delete(key):
    return {"request_delete_range": {"key": packed(key)}}


def created(key, revision):
    """Compares when a key was created; 0 stands for a key that is absent."""
    return {"key": packed(key), "target": "CREATE", "create_revision": revision}


def absent(key):
    return created(key, 0)


def present(key):
    return {**created(key, 0), "result": "GREATER"}


def modified(key, revision):
    return {"key": packed(key), "target": "MOD", "mod_revision": revision}


def has_value(key, value):
    return {"key": packed(key), "target": "VALUE", "value": packed(value)}


def has_lease(key, lease):
    """Compares the lease of a key; 0 stands for a key without one, or an absent key."""
    return {"key": packed(key), "target": "LEASE", "lease": lease}


def headers_of(token):
    """Without `Accept` etcd would take the CommonName of its own certificate for the user."""
    accept = {"Accept": "application/json"}
    return {**accept, "Authorization": token} if token else accept


class Store:
    """A client, for one thread. It waits for one server `answer` seconds, for any `patience`. The
    servers are an `Access`, or URLs that need none."""

    def __init__(self, servers, answer=ANSWER, patience=PATIENCE):
        self.answer, self.patience = answer, patience
        self.access = servers if isinstance(servers, Access) else Access(servers)
        self.at = 0
        self.connection = None
        # Whether the connection has given an answer.
        self.proved = False

    def call(self, path, body, known=True):
        """The answer of the first server that gives one, and whether the request was sent once."""
        data = json.dumps(body).encode()
        until = time.monotonic() + self.patience
        token, tokens = self.token() if known else None, 0
        tries = 0
        while True:
            tries += 1
            try:
                return self.ask(path, data, token), tries == 1
            except TokenRefused as refused:
                if not known:
                    raise
                # This try has changed nothing.
                tries -= 1
                tokens += 1
                token = self.renewed(token, refused, tokens)
                continue
            except Away as away:
                why = away
                self.leave()
            if tries >= len(self.access.urls) and time.monotonic() > until:
                others = "".join(f"; {it}" for it in self.access.refused().values())
                raise Unreachable(f"no server of etcd answers; the last one: {why}{others}. If a "
                                  "server has ended, its log says why: its disk may be full")
            if tries % len(self.access.urls) == 0:
                time.sleep(0.1)

    def token(self, refused=None):
        """The token of the account, if there is one; another one than etcd has refused."""
        account = self.access.account

        def ask():
            words = {"name": account.user, "password": account.password}
            # etcd compares a password slowly: no store waits for that less than others do.
            patient = Store(self.access)
            patient.at = self.at
            try:
                return patient.call("auth/authenticate", words, known=False)[0]["token"]
            except Refused as error:
                raise Stop(f"--user {account.user}: {error}") from None

        return account and account.token_after(refused, ask)

    def leave(self):
        """The next request goes to the next server that is not left alone."""
        if self.connection:
            self.connection.close()
        self.connection = None
        count, refused = len(self.access.urls), self.access.refused()
        order = [(self.at + step) % count for step in range(1, count + 1)]
        self.at = next((it for it in order if it not in refused), order[0])

    def ask(self, path, data, token):
        try:
            if not (self.connection and self.connection.sock):
                self.proved = False
                self.connection = http.client.HTTPConnection(*self.access.addresses[self.at][1:])
                self.connection.sock = self.access.link(self.at, self.answer)
            self.connection.sock.settimeout(self.answer + len(data) / BYTES)
            self.connection.request("POST", f"/v3/{path}", data, headers_of(token))
            reply = self.connection.getresponse()
            text = reply.read()
            self.proved = True
            if COMMON_NAME in text:
                raise Stop("etcd takes no account of a program whose certificate has a CommonName: "
                           "make one without it for --cert")
            answer = json.loads(text)
        except (OSError, http.client.HTTPException, ValueError) as error:
            raise Away(self.reason_of(error, self.proved)) from None
        if reply.status == 200:
            return answer
        why = answer.get("message") or answer.get("error") or text.decode(errors="replace")
        self.deny(why)
        if SPACE in why:
            raise Full("the quota of etcd's store is reached, so it takes no writes: compact and "
                       "defragment it, or raise --quota-backend-bytes; then `etcdctl alarm disarm`")
        if "lease not found" in why:
            raise LeaseGone(why)
        if "compacted" in why:
            raise Compacted(why)
        # Deadline exceeded, too many requests, unavailable; unknown covers a change of leader.
        if answer.get("code") in (2, 4, 8, 14):
            raise Away(f"{self.access.urls[self.at]}: {why}")
        raise Refused(f"etcd refused a request: {why}")

    def reason_of(self, error, proved):
        """Why the current server gives no answer. It is left alone if TLS has failed before the
        first one. While its files are replaced it has an internal error."""
        passes = isinstance(error, (ssl.SSLEOFError, ssl.SSLZeroReturnError)) or proved
        if isinstance(error, ssl.SSLError) and not passes and "INTERNAL" not in str(error.reason):
            return self.access.refuse(self.at, error)
        return f"{self.access.urls[self.at]}: {error or type(error).__name__}"

    def deny(self, why):
        """Raises what etcd's refusal of a request means for the account."""
        account = self.access.account
        if account and any(it in why for it in (INVALID, OLD, EMPTY)):
            raise TokenRefused(f"etcd refuses the token of user {account.user}: {why}")
        if EMPTY in why:
            raise Stop("etcd asks for an account: give --user")
        if DENIED in why:
            user = f"user {account.user}" if account else "a program without --user"
            raise Stop(f"etcd refuses a request of {user}: {why}")

    def renewed(self, token, refused, tokens):
        """Another token after some were refused, unless these are too many."""
        if tokens > (OLD_TOKENS if OLD in str(refused) else TOKENS):
            raise refused
        return self.token(token)

    def range(self, *key, **words):
        answer, _ = self.call("kv/range", get(*key, **words)["request_range"])
        return range_of(answer)

    def value(self, key):
        found = self.range(key).entries
        return found[0] if found else None

    def transact(self, compares, success, failure=()):
        body = {"compare": list(compares), "success": list(success), "failure": list(failure)}
        answer, once = self.call("kv/txn", body)
        revision = int(answer["header"]["revision"])
        ranges = []
        for part in answer.get("responses", []):
            if "response_range" in part:
                found = part["response_range"]
                found.setdefault("header", answer["header"])
                ranges.append(range_of(found))
        return Outcome(answer.get("succeeded", False), ranges, revision, once)

    def grant(self, seconds):
        return int(self.call("lease/grant", {"TTL": seconds})[0]["ID"])

    def granted(self, lease):
        """For how many seconds a lease was granted, 0 if it is no more."""
        return int(self.call("lease/timetolive", {"ID": lease})[0].get("grantedTTL", 0))

    def keep_alive(self, lease):
        answer, _ = self.call("lease/keepalive", {"ID": lease})
        if int(answer["result"].get("TTL", 0)) <= 0:
            raise LeaseGone("the lease has run out")

    def revoke(self, lease):
        self.call("lease/revoke", {"ID": lease})

    def watch(self, key, end, revision, silence=1.0):
        """Yields the changes of keys from a revision on, as pairs: a list of entries, and the
        revision up to which it is complete. A deleted key has the value None. Yields None after a
        silence."""
        words = {"key": packed(key), "range_end": packed(end), "start_revision": revision,
                 "fragment": True, "progress_notify": True}
        data = json.dumps({"create_request": words}).encode()
        token, tokens = self.token(), 0
        while True:
            try:
                yield from self.watched(data, token, silence)
            except TokenRefused as refused:
                tokens += 1
                token = self.renewed(token, refused, tokens)

    def watched(self, data, token, silence):
        proved = False
        # HTTP 1.0, so that the answer comes without chunks: a line for each message.
        head = ["POST /v3/watch HTTP/1.0", f"Content-Length: {len(data)}",
                *(f"{name}: {value}" for name, value in headers_of(token).items()), "", ""]
        try:
            with self.access.link(self.at, self.answer) as link:
                link.sendall("\r\n".join(head).encode() + data)
                link.settimeout(silence)
                for found in self.messages(link):
                    yield found
                    proved = True
        except (OSError, ValueError) as error:
            why = self.reason_of(error, proved)
            self.leave()
            raise Unreachable(why) from None

    def messages(self, link):
        pieces, in_body = [], False
        while True:
            try:
                piece = link.recv(1 << 20)
            except socket.timeout:
                yield None
                continue
            if not piece:
                raise OSError("the watch has ended")
            first, *others = piece.split(b"\n")
            pieces.append(first)
            for rest in others:
                line = b"".join(pieces)
                pieces = [rest]
                if not in_body:
                    in_body = line == b"\r"
                    continue
                found = self.changes(json.loads(line))
                if found:
                    yield found

    def changes(self, message):
        result = message.get("result")
        if not result or "compact_revision" in result:
            why = message.get("error", {}).get("message", "")
            if result or "compacted" in why:
                raise Compacted("the store was compacted beyond what was read")
            raise OSError(why or "the watch was refused")
        if result.get("canceled"):
            self.deny(result.get("cancel_reason", ""))
            raise OSError(result.get("cancel_reason", "the watch was cancelled"))
        if result.get("created"):
            return None
        entries = []
        for event in result.get("events", []):
            entry = entry_of(event["kv"])
            entries.append(entry._replace(value=None) if event.get("type") == "DELETE" else entry)
        if not entries:
            return entries, int(result["header"]["revision"])
        # The next fragment may have more of the last revision.
        return entries, entries[-1].modified - bool(result.get("fragment"))
