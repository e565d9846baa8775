"""An `ebsd` over a folder: it is started, served by, and ended.

    with Server("crates/ebsd/out/ebsd", folder, workers=8) as server:
        with server.connect("000000000001") as connection:
            snapshot = connection.start(gibibytes=1)

Leaving it ends the program with SIGTERM, as whoever serves does: no signal loses an accepted change. `server.kill()` ends it with SIGKILL.
"""
import pathlib
import signal
import socket
import subprocess

from ebs_client import ACCOUNT, Broken, Connection, check


def free_port():
    """A port of the loopback that nobody listens at."""
    with socket.socket() as listener:
        listener.bind(("127.0.0.1", 0))
        return listener.getsockname()[1]


class Server:
    def __init__(self, program, folder, workers=8, port=None):
        self.port = free_port() if port is None else port
        self.process = subprocess.Popen(
            [pathlib.Path(program).resolve(), str(self.port), str(workers)],
            stdin=subprocess.DEVNULL,
            stderr=subprocess.PIPE,
            cwd=folder,
            text=True,
        )
        self.told = ""  # what it told before it listened
        for line in self.process.stderr:
            if f"127.0.0.1:{self.port}" in line:
                return
            self.told += line
        raise Broken(f"ebsd ended with status {self.process.wait()}: {self.told}")

    def __enter__(self):
        return self

    def __exit__(self, kind, value, trace):
        if kind is None:
            self.stop()
        else:
            self.kill()

    def connect(self, account=ACCOUNT, timeout=60):
        return Connection(self.port, account, timeout)

    def stop(self):
        """Ends the program with SIGTERM. It must have served until then, and have told nothing more."""
        self.end_with(signal.SIGTERM)

    def kill(self):
        """Ends the program with SIGKILL."""
        self.process.kill()
        self.process.wait()
        self.process.stderr.close()

    def end_with(self, number):
        self.process.send_signal(number)
        try:
            told = self.process.communicate(timeout=60)[1]
        except subprocess.TimeoutExpired:
            self.kill()
            raise Broken(f"signal {number} doesn't end it") from None
        status = self.process.returncode
        check(status == -number and not told, f"ebsd ended with status {status} before its end: {told}")

    def processor_seconds(self):
        """Its seconds on a processor so far: its own, and the system's for it."""
        fields = pathlib.Path(f"/proc/{self.process.pid}/stat").read_text().rsplit(")", 1)[1].split()
        return int(fields[11]) / 100, int(fields[12]) / 100
