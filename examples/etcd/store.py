"""Files in etcd, by the keys of their paths.

etcd sorts its keys by their bytes. So all spellings of a path find the same file. A directory and
all files below it are one range, in path order, and one read returns it. Renaming a directory
changes the prefix of each key in its range, in one transaction.
"""
import base64
import http.client
import json
import time

# The time in seconds after which a call is no longer tried at the next member.
PATIENCE = 60


class Refused(Exception):
    """etcd or a rule of this store refused a call."""


def encoded(some_bytes):
    """Returns bytes as the JSON gateway encodes them."""
    return base64.b64encode(some_bytes).decode()


def decoded(text):
    return base64.b64decode(text or "")


class Store:
    """Files in a cluster whose members have these ports on 127.0.0.1."""

    def __init__(self, paths, ports):
        self.paths, self.ports, self.connection = paths, list(ports), None
        # The number of failed attempts, after which the call was tried at the next member.
        self.lost = 0

    def ask_once(self, call, body):
        """Makes a call at the first member of the list, once. Returns its status and its answer."""
        if self.connection is None:
            self.connection = http.client.HTTPConnection("127.0.0.1", self.ports[0], timeout=10)
        self.connection.request("POST", f"/v3/{call}", body)
        answer = self.connection.getresponse()
        return answer.status, answer.read()

    def ask(self, call, **fields):
        """Makes a call at one member after another until one of them answers. It is only for calls
        that may be made more than once."""
        body, until = json.dumps(fields).encode(), time.monotonic() + PATIENCE
        while True:
            try:
                status, answer = self.ask_once(call, body)
                if status == 200:
                    return json.loads(answer)
                if status < 500:
                    raise Refused(answer.decode(errors="replace"))
                why = answer.decode(errors="replace")
            except (OSError, http.client.HTTPException) as error:
                why = repr(error)
            self.leave_member()
            if time.monotonic() > until:
                raise Refused(f"no member answers: {why}")

    def leave_member(self):
        """Continues with the next member."""
        self.lost += 1
        self.connection.close()
        self.connection = None
        self.ports.append(self.ports.pop(0))
        time.sleep(0.05)

    def range_of(self, folder):
        """Returns the range of a directory's key. In etcd, the range from NUL to NUL has all
        keys."""
        key = self.paths.key(folder)
        end = self.paths.end(key)
        first, last = (b"\0", b"\0") if end is None else (key, end)
        return {"key": encoded(first), "range_end": encoded(last)}

    def put(self, path, content):
        """Stores the file. It is acknowledged when this returns."""
        self.ask("kv/put", key=encoded(self.paths.key(path)), value=encoded(content))

    def get(self, path):
        """Returns the content of a file, or None if there is no such file."""
        answer = self.ask("kv/range", key=encoded(self.paths.key(path)))
        found = answer.get("kvs", [])
        return decoded(found[0].get("value")) if found else None

    def read_range(self, folder):
        """Reads a directory at once. Returns its files in path order, each as its key, its content
        and the revision that last changed it. Also returns the revision of the store."""
        answer = self.ask("kv/range", **self.range_of(folder))
        rows = [(decoded(it["key"]), decoded(it.get("value")), it["mod_revision"])
                for it in answer.get("kvs", [])]
        return rows, int(answer["header"]["revision"])

    def list(self, folder):
        """Returns the files of a directory, each as the rest of its path after the directory, and
        its content. In a file's key, the bytes after the directory's key are the key of the
        rest."""
        cut = len(self.paths.key(folder))
        return [(self.paths.path(key[cut:]), content)
                for key, content, _ in self.read_range(folder)[0]]

    def rename(self, folder, new_name):
        """Moves all files of a directory in one transaction. Returns the number of files.

        It changes nothing if a file of the directory was added, changed or moved since it was
        read, or if the new name has files. The call is made once; if its answer is lost, the
        outcome is unknown. A transaction has at most as many steps as the members'
        `--max-txn-ops` allows, by default 128."""
        start, new_start = self.paths.key(folder), self.paths.key(new_name)
        if not start or new_start.startswith(start):
            raise Refused("a folder can't move into itself")
        rows, revision = self.read_range(folder)
        unchanged = [{"key": encoded(key), "target": "MOD", "result": "EQUAL",
                      "mod_revision": made} for key, _, made in rows]
        none_added = {**self.range_of(folder), "target": "MOD", "result": "LESS",
                      "mod_revision": str(revision + 1)}
        is_free = {**self.range_of(new_name), "target": "CREATE", "result": "EQUAL",
                   "create_revision": "0"}
        puts = [{"request_put": {"key": encoded(new_start + key[len(start):]),
                                 "value": encoded(content)}} for key, content, _ in rows]
        steps = [{"request_delete_range": self.range_of(folder)}, *puts]
        compare = [*unchanged, none_added, is_free]
        body = json.dumps({"compare": compare, "success": steps}).encode()
        status, answer = self.ask_once("kv/txn", body)
        if status != 200:
            raise Refused(answer.decode(errors="replace"))
        if not json.loads(answer).get("succeeded"):
            raise Refused(f"{folder!r} was changed, or {new_name!r} has files")
        return len(rows)

    def leader_port(self):
        """Returns the port of the leader, which each member reports."""
        for port in list(self.ports):
            only = Store(self.paths, [port])
            status = only.ask("maintenance/status")
            if status["leader"] == status["header"]["member_id"]:
                return port
        raise Refused("no member leads")
