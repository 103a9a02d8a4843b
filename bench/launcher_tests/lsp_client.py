"""A client of the language server that talks its protocol."""
import json
import os
import re
import select
import subprocess
import time

from .common import LAUNCHER

SERVER = [str(LAUNCHER), "lsp"]
# Seconds that an answer may take, on a busy machine.
PATIENCE = 60


class Client:
    """Starts the server, sends messages and reads its answers."""

    def __init__(self, script, cwd):
        self.server = subprocess.Popen([*SERVER, script], cwd=cwd, stdin=subprocess.PIPE, stdout=subprocess.PIPE, stderr=subprocess.PIPE)
        self.number = 0
        self.buffer = b""
        # The last diagnostics of each file, as (line, character, end, rule).
        self.shown = {}
        self.said = []

    def send(self, message):
        body = json.dumps({"jsonrpc": "2.0", **message}).encode()
        self.raw(b"Content-Length: %d\r\n\r\n" % len(body) + body)

    def raw(self, data):
        self.server.stdin.write(data)
        self.server.stdin.flush()

    def notify(self, method, **params):
        self.send({"method": method, "params": params})

    def request(self, method, **params):
        self.number += 1
        self.send({"id": self.number, "method": method, "params": params})
        return self.answer(self.number)

    def answer(self, number):
        """The answer of this number, taking the notifications before it."""
        while True:
            message = self.read(time.monotonic() + PATIENCE)
            if message is None:
                return "no answer"
            if "method" not in message and message.get("id") == number:
                return message.get("result", message.get("error", {}).get("code"))

    def read(self, end):
        """The next message, of which notifications are noted; None if none comes in time."""
        while True:
            head, found, rest = self.buffer.partition(b"\r\n\r\n")
            length = int(re.search(rb"Content-Length: (\d+)", head)[1]) if found else 0
            if found and len(rest) >= length:
                self.buffer = rest[length:]
                return self.noted(json.loads(rest[:length]))
            if not select.select([self.server.stdout], [], [], max(end - time.monotonic(), 0))[0]:
                return None
            more = os.read(self.server.stdout.fileno(), 65536)
            if not more:
                return None
            self.buffer += more

    def noted(self, message):
        params = message.get("params", {})
        if message.get("method") == "textDocument/publishDiagnostics":
            self.shown[params["uri"]] = [
                (*it["range"]["start"].values(), *it["range"]["end"].values(), it["code"]) for it in params["diagnostics"]
            ]
        elif message.get("method") == "window/showMessage":
            self.said.append(params["message"])
        return message

    def wait_for(self, uri, wanted):
        """Reads until a file's diagnostics are these, or patience ends. Gives the last ones."""
        return self.wait(uri, lambda found: found == wanted)

    def wait_for_rules(self, uri, wanted):
        """The same for their rules alone."""
        return [it[4] for it in self.wait(uri, lambda found: [it[4] for it in found] == wanted)]

    def wait(self, uri, is_there):
        end = time.monotonic() + PATIENCE
        while not is_there(self.shown.get(uri, [])) and self.read(end) is not None:
            pass
        return self.shown.get(uri, [])

    def end(self):
        """Ends the server as an editor does, and returns the status and what it wrote on standard error."""
        last = self.request("shutdown")
        after = self.request("textDocument/hover")
        self.notify("exit")
        err = self.server.communicate(timeout=PATIENCE)[1]
        return last, after, self.server.returncode, err
