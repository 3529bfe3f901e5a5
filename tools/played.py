"""What the scripts beside it share: a daemon, links to it, editors, and a small server with faults.

As a program it is that server: played.py MODE.
"""
import json
import os
import signal
import socket
import subprocess
import sys
import time


def check(is_so, what):
    if not is_so:
        raise AssertionError(what)


def until(is_so, what, seconds=20):
    end = time.time() + seconds
    while not is_so():
        check(time.time() < end, "no " + what)
        time.sleep(0.05)


def write(stream, message):
    body = json.dumps({"jsonrpc": "2.0", **message}).encode()
    stream.write(b"Content-Length: %d\r\n\r\n" % len(body) + body)
    stream.flush()


def read(stream):
    """The next message; None behind the end."""
    length = None
    while line := stream.readline():
        if not line.strip():
            return json.loads(stream.read(length))
        name, value = line.split(b":", 1)
        if name.lower() == b"content-length":
            length = int(value)
    return None


# What a daemon and all programs behind it have in their environment: its folder.
MARK = "LSPMUX_PLAYED_IN"


def programs_of(folder):
    """The numbers of the programs that run and have the mark of this folder: its daemon's and its servers'."""
    mark = f"{MARK}={folder}".encode()
    found = []
    for number in filter(str.isdigit, os.listdir("/proc")):
        try:
            with open(f"/proc/{number}/environ", "rb") as environ:
                if mark in environ.read().split(b"\0"):
                    found.append(int(number))
        except OSError:
            pass
    return found


# So that the C library gives large blocks back as they are freed.
GIVES_BACK = {"MALLOC_MMAP_THRESHOLD_": "262144", "MALLOC_TRIM_THRESHOLD_": "262144"}


class Daemon:
    """A daemon in a folder of its own, with its place and settings there."""

    def __init__(self, program, folder, servers, name="d", more=(), log="info", notes=None):
        self.program = program
        self.folder = folder
        self.settings = folder / f"{name}.toml"
        self.socket = folder / f"{name}.sock"
        self.log = log
        self.notes = notes
        lines = [f'place = "unix:{self.socket}"', *more]
        for server, command in servers.items():
            lines += [f"[server.{server}]", f"command = {json.dumps([str(word) for word in command])}"]
        self.settings.write_text("\n".join(lines) + "\n")
        self.process = self.start()

    def start(self):
        """Starts it, and waits until it answers."""
        notes = self.notes or open(self.settings.with_suffix(".notes"), "ab")
        words = [self.program, "serve", "--config", self.settings, "--log", self.log]
        env = {**os.environ, **GIVES_BACK, MARK: str(self.folder)}
        process = subprocess.Popen(words, stdout=subprocess.DEVNULL, stderr=notes, env=env)
        until(lambda: self.ask("status").returncode == 0, "daemon")
        return process

    def ask(self, command):
        return subprocess.run([self.program, command, "--config", self.settings], capture_output=True, text=True, timeout=30)

    def servers(self):
        """The numbers of the programs that it runs."""
        listed = subprocess.run(["pgrep", "-P", str(self.process.pid)], capture_output=True, text=True)
        return [int(number) for number in listed.stdout.split()]

    def memory(self):
        """What it holds of memory, in MiB."""
        status = open(f"/proc/{self.process.pid}/status").read()
        return int(status.split("VmRSS:")[1].split()[0]) / 1024

    def client(self, server):
        return [self.program, "client", "--config", str(self.settings), "--server", server]

    def kill_servers(self):
        until(self.servers, "server")
        time.sleep(3)
        killed = self.servers()
        for number in killed:
            os.kill(number, signal.SIGKILL)
        return killed

    def kill(self):
        self.process.kill()
        self.process.wait()

    def stop(self, seconds=4):
        began = time.time()
        self.ask("stop")
        status = self.process.wait(30)
        took = time.time() - began
        check(status == 0 and took < seconds, f"the stop gave {status} after {took:.1f} s")


class Editor:
    """An editor that a script plays, over two streams. What the server asks it answers with null."""

    def __init__(self, source, sink):
        self.source = source
        self.sink = sink
        self.came = []
        self.asked = 0

    def begin(self, folder, capabilities=None):
        uri = folder.as_uri()
        folders = [{"uri": uri, "name": "w"}]
        params = {"processId": None, "rootUri": uri, "workspaceFolders": folders, "capabilities": capabilities or {}}
        begun = self.ask("initialize", params)
        self.tell("initialized", {})
        return begun

    def tell(self, method, params):
        write(self.sink, {"method": method, "params": params})

    def read(self):
        message = read(self.source)
        if message and "method" in message and "id" in message:
            write(self.sink, {"id": message["id"], "result": None})
        self.came.append(message)
        return message

    def send(self, method, params):
        self.asked += 1
        write(self.sink, {"id": self.asked, "method": method, "params": params})
        return self.asked

    def answer(self, number):
        """The answer with this number; None where the link ended before."""
        while message := self.read():
            if "method" not in message and message["id"] == number:
                return message
        return None

    def ask(self, method, params):
        return self.answer(self.send(method, params))

    def open(self, file, language):
        self.uri = file.as_uri()
        document = {"uri": self.uri, "languageId": language, "version": 1, "text": file.read_text()}
        self.tell("textDocument/didOpen", {"textDocument": document})

    def hover(self, line=0, character=0):
        place = {"line": line, "character": character}
        return self.ask("textDocument/hover", {"textDocument": {"uri": self.uri}, "position": place})

    def registered(self):
        """The methods that the server registered."""
        asked = [m["params"]["registrations"] for m in self.came if m and m.get("method") == "client/registerCapability"]
        return sorted(item["method"] for items in asked for item in items)


class Client(Editor):
    """An editor over a client's process."""

    def __init__(self, command):
        self.process = subprocess.Popen(command, stdin=subprocess.PIPE, stdout=subprocess.PIPE)
        super().__init__(self.process.stdout, self.process.stdin)

    def leave(self):
        self.process.kill()
        self.process.wait()


class Link(Editor):
    """An editor at the daemon's socket itself, which names its server."""

    def __init__(self, daemon, server=None):
        self.socket = socket.socket(socket.AF_UNIX)
        self.socket.connect(str(daemon.socket))
        self.socket.settimeout(60)
        stream = self.socket.makefile("rwb")
        super().__init__(stream, stream)
        if server:
            check("result" in (self.ask("lspmux/open", {"server": server}) or {}), "the server's name is refused")

    def leave(self):
        # What makefile gave keeps a closed socket open.
        self.socket.shutdown(socket.SHUT_RDWR)
        self.socket.close()


# What the small server does in each of its modes, beside "plain".
ENDS = {"ends at once", "ends at initialize", "ends behind its result", "ends at a request", "ends at shutdown"}
KILLS = {mode.replace("ends", "is killed") for mode in ENDS} | {"is killed within an answer"}
WRITES = {"garbage": b"\x00garbage\xff" * 100_000, "no end of a header": b"X" * 65_536, "too long": b"Content-Length: 1073741824\r\n\r\n"}


def end_where(mode, stage):
    """Ends at this stage, or kills itself there, where its mode says so."""
    if mode == "ends " + stage:
        sys.exit(1)
    if mode == "is killed " + stage:
        os.kill(os.getpid(), signal.SIGKILL)


def answer(mode, message, sink):
    """What it answers to a message: its result and what it does behind that, None for nothing."""
    method = message.get("method")
    end_where(mode, "at " + {"textDocument/hover": "a request"}.get(method, str(method)))
    if method == "textDocument/hover" and mode == "is killed within an answer":
        sink.write(b'Content-Length: 1000\r\n\r\n{"jsonrpc":"2.0"')
        sink.flush()
        end_where(mode, "within an answer")
    if method == "initialize":
        tokens = {"legend": {"tokenTypes": [], "tokenModifiers": []}, "full": True}
        return {"capabilities": {"hoverProvider": True, "semanticTokensProvider": tokens}}
    if method == "big":
        return "x" * message["params"]["size"]
    return None if method == "shutdown" else {"process": os.getpid(), "folder": os.getcwd()}


def misbehave(mode, sink):
    """What it does behind the result of its initialize."""
    end_where(mode, "behind its result")
    if mode == "closes its output":
        os.close(1)
        time.sleep(10_000)
    if mode == "never reads on":
        time.sleep(10_000)
    if mode in WRITES:
        for _ in range(16_384 if mode == "no end of a header" else 1):
            sink.write(WRITES[mode])
        sink.flush()


def server(mode):
    source, sink = sys.stdin.buffer, sys.stdout.buffer
    end_where(mode, "at once")
    if mode == "never reads":
        time.sleep(10_000)
    asked = 0
    while (message := read(source)) and message.get("method") != "exit":
        if "id" in message and "method" in message:
            write(sink, {"id": message["id"], "result": answer(mode, message, sink)})
        if message.get("method") == "initialize":
            misbehave(mode, sink)
        if mode == "refreshes" and message.get("method") in ("textDocument/didOpen", "textDocument/didChange"):
            asked += 1
            write(sink, {"id": f"r{asked}", "method": "workspace/semanticTokens/refresh"})


if __name__ == "__main__":
    server(sys.argv[1])
