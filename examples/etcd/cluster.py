"""A cluster of three members of etcd on 127.0.0.1, at free ports, in a directory."""
import http.client
import os
import socket
import subprocess
import time

MEMBERS = 3
# The time in seconds that a member may need until it answers.
PATIENCE = 60


def free_ports(count):
    """Returns ports at which nothing listens."""
    sockets = [socket.socket() for _ in range(count)]
    for it in sockets:
        it.bind(("127.0.0.1", 0))
    ports = [it.getsockname()[1] for it in sockets]
    for it in sockets:
        it.close()
    return ports


def is_healthy(port):
    """Returns True if the member answers that it is healthy."""
    try:
        connection = http.client.HTTPConnection("127.0.0.1", port, timeout=2)
        connection.request("GET", "/health")
        return b'"true"' in connection.getresponse().read()
    except (OSError, http.client.HTTPException):
        return False


class Cluster:
    """The members' processes. A member is identified by its port for clients."""

    def __init__(self, folder):
        self.folder = folder
        ports = free_ports(2 * MEMBERS)
        self.ports, peers = ports[:MEMBERS], ports[MEMBERS:]
        self.peers = dict(zip(self.ports, peers))
        self.processes = {}

    def __enter__(self):
        try:
            for port in self.ports:
                self.start(port)
            self.wait(self.ports)
        except BaseException:
            self.__exit__()
            raise
        return self

    def __exit__(self, *_):
        for port in list(self.processes):
            self.end(port)

    def start(self, port):
        """Starts the member, with its data if it ran before."""
        url, peer = f"http://127.0.0.1:{port}", f"http://127.0.0.1:{self.peers[port]}"
        all_peers = ",".join(f"m{it}=http://127.0.0.1:{at}" for it, at in self.peers.items())
        words = ["etcd", "--name", f"m{port}", "--data-dir", f"{self.folder}/m{port}",
                 "--listen-client-urls", url, "--advertise-client-urls", url,
                 "--listen-peer-urls", peer, "--initial-advertise-peer-urls", peer,
                 "--initial-cluster", all_peers, "--initial-cluster-state", "new",
                 "--pre-vote=true", "--max-txn-ops", "1024"]
        own = {name: it for name, it in os.environ.items() if not name.startswith("ETCD_")}
        with open(f"{self.folder}/m{port}.log", "ab") as log:
            self.processes[port] = subprocess.Popen(words, env=own, stdin=subprocess.DEVNULL,
                                                    stdout=log, stderr=log)

    def end(self, port):
        """Kills the member's process, as if its machine failed."""
        process = self.processes.pop(port)
        process.kill()
        process.wait()

    def wait(self, ports):
        """Waits until these members are healthy."""
        until = time.monotonic() + PATIENCE
        while not all(map(is_healthy, ports)):
            if time.monotonic() > until:
                raise TimeoutError(f"a member of the cluster in {self.folder} doesn't answer")
            time.sleep(0.05)
