"""What the test of nginx serves and asks: the application, nginx with the lines of the README, and clients."""
import http.client
import re
import shutil
import signal
import socket
import subprocess
import sys
import time
from pathlib import Path

HERE = Path(__file__).resolve().parent
sys.path.insert(0, str(HERE.parent))
from servers import RAN, TOP, Process, blocks, compiled, free_port, java, run_lines  # noqa: E402

NGINX = "/usr/sbin/nginx"
MODULES = Path("/usr/lib/nginx/modules")
HOST = "127.0.0.1"
WORKERS = 2
# Where nginx looks for Lua.
LUA_FOLDER = "/usr/local/share/lua/5.1"
# A line of a guard in the error log.
OURS = re.compile(r"serialcheck: (?P<guard>[\w-]+): (?P<told>.*?)(?:, (?:client|context): .*)?$")
CONFIGURATION = """
load_module {modules}/ndk_http_module.so;
load_module {modules}/ngx_http_lua_module.so;
worker_processes {workers};
daemon off;
pid {folder}/pid;
error_log {folder}/log notice;
events {{ worker_connections 256; }}
http {{
access_log off;
{temporary}
client_max_body_size 8m;
lua_package_path "{folder}/lua/?.lua;;";
{http}
server {{
listen {host}:{port};
listen {host}:{port2} http2;
{server}
}}
server {{
# Here the location is missing that answers where a body is refused.
listen {host}:{port3};
location / {{ access_by_lua_block {{ require("serialcheck.guard").check("shop") }} proxy_pass http://127.0.0.1:8080; }}
}}
}}
"""


def wait_for(condition, seconds=10):
    """Whether a condition holds soon."""
    end = time.monotonic() + seconds
    while not condition():
        if time.monotonic() > end:
            return False
        time.sleep(0.02)
    return True


class Application(Process):
    """The JVM behind nginx, which reads an object of each body."""

    def __init__(self, folder):
        classes = compiled(folder / "classes", ".", HERE.parent / "Hostile.java", HERE / "Upstream.java")
        super().__init__(folder, "application", *java("-cp", classes, "Upstream"))
        try:
            self.wait_for("\n")
        except RuntimeError:
            self.stop()
            raise
        self.port = int(self.lines()[0])

    def lines(self):
        """What it printed: its port, a line for each body, and what the code of hostile objects prints."""
        return self.said().splitlines()

    def ran(self):
        """How often the code of a hostile object ran."""
        return self.lines().count(RAN)


class Nginx:
    """nginx in a folder of its own, with the guard `shop` of the README, and others."""

    def __init__(self, folder, application, guards, locations):
        """`guards` are settings in Lua by name; `locations` are lines of a server."""
        self.folder = folder
        self.port, self.port2, self.port3 = free_port(), free_port(), free_port()
        self.filter_file = folder / "shop.filter"
        lines = blocks(HERE / "README.md", "sh")[0].replace(LUA_FOLDER, str(folder / "lua")).splitlines(keepends=True)
        run_lines("".join(it for it in lines if it.startswith(("mkdir", "cp"))), folder)
        for it in (TOP / "out" / "library").glob("*.so*"):
            shutil.copy(it, folder)
        http_lines, server_lines = blocks(HERE / "README.md", "nginx")
        http_lines = http_lines.replace("/etc/serialcheck/shop.filter", str(self.filter_file))
        more = "".join(f'require("serialcheck.guard").add("{name}", {{ {settings} }})\n' for name, settings in guards.items())
        configuration = CONFIGURATION.format(
            folder=folder, modules=MODULES, workers=WORKERS, host=HOST, port=self.port, port2=self.port2, port3=self.port3,
            temporary="".join(f"{it}_temp_path {folder}/temporary-{it};\n" for it in ("client_body", "proxy", "fastcgi", "uwsgi", "scgi")),
            http=http_lines.replace("init_by_lua_block {\n", "init_by_lua_block {\n" + more), server=server_lines + locations)
        self.configuration = configuration.replace(f"{HOST}:8080", f"{HOST}:{application.port}")
        self.process, self.begun = None, 0

    def put(self, old="", new=""):
        """Writes the configuration, in which something is replaced."""
        (self.folder / "nginx.conf").write_text(self.configuration.replace(old, new))

    def run(self):
        words = (NGINX, "-p", self.folder, "-e", self.folder / "log", "-c", self.folder / "nginx.conf")
        return Process(self.folder, "nginx", *words, LD_LIBRARY_PATH=self.folder)

    def start(self):
        self.begun = len(self.log())
        self.put()
        self.process = self.run()
        self.process.wait_for_port(self.port)

    def refusal_to_start(self, old, new):
        """What the log gets of a start that fails, with the configuration in which something is replaced; nothing of one that does not."""
        begun = len(self.log())
        self.put(old, new)
        with self.run() as running:
            try:
                return self.log()[begun:] if running.process.wait(5) else ""
            except subprocess.TimeoutExpired:
                return ""

    def read_again(self, old="", new=""):
        """Has nginx read its configuration again, in which something is replaced."""
        self.put(old, new)
        self.process.process.send_signal(signal.SIGHUP)

    def log(self):
        file = self.folder / "log"
        return file.read_text() if file.exists() else ""

    def stop(self):
        if self.process:
            self.process.stop()

    def told(self, guard):
        """What the error log has of a guard, in order, since nginx was started."""
        found = (OURS.search(line) for line in self.log()[self.begun :].splitlines())
        return [it["told"] for it in found if it and it["guard"] == guard]

    def ask(self, method, path, body=None, headers=None):
        """The status and text of an answer."""
        link = http.client.HTTPConnection(HOST, self.port, timeout=20)
        try:
            link.request(method, path, body, headers or {})
            return answer_of(link)
        finally:
            link.close()

    def post(self, path, body, headers=None):
        return self.ask("POST", path, body, headers)

    def get(self, path):
        return self.ask("GET", path)

    def counts(self, guard):
        """The counts of a guard: a number for each row's labels."""
        rows = re.findall(r'^serialcheck_bodies_total\{guard="([^"]*)",(.*)\} (\d+)$', self.get("/serialcheck")[1], re.M)
        return {labels: int(number) for name, labels, number in rows if name == guard}

    def curl(self, path, body, *words, http2=False):
        """The status and text of an answer to curl, which has the body from its standard input."""
        url = f"http://{HOST}:{self.port2 if http2 else self.port}{path}"
        version = ["--http2-prior-knowledge"] if http2 else []
        ran = subprocess.run(["curl", "-s", "-w", "%{http_code}", *version, "-X", "POST", *words, url], input=body, capture_output=True, check=False)
        text = ran.stdout.decode()
        return int(text[-3:] or 0), without_page(text[:-3])

    def link(self, path, length, port=None):
        """A connection on which a body of so many bytes was announced."""
        it = socket.create_connection((HOST, port or self.port), timeout=20)
        it.setsockopt(socket.IPPROTO_TCP, socket.TCP_NODELAY, 1)
        it.sendall(f"POST {path} HTTP/1.1\r\nHost: here\r\nContent-Length: {length}\r\n\r\n".encode())
        return it


def without_page(text):
    """A text, or nothing where it is the page that nginx makes of a status."""
    return "" if text.startswith("<html>") else text


def answer_of(link):
    """The status and text of the next answer on a connection."""
    answer = link.getresponse()
    return answer.status, without_page(answer.read().decode())


def status_line(link):
    """The front of the answer on a connection, or why there is none."""
    try:
        return link.recv(12).decode()
    except OSError as fault:
        return type(fault).__name__


def rest_of(link):
    """All that comes on a connection until its end."""
    found = b""
    while piece := link.recv(65536):
        found += piece
    return found.decode()


def silent(link, seconds):
    """Whether nothing comes on a connection for a time."""
    link.settimeout(seconds)
    try:
        link.recv(1)
        return False
    except TimeoutError:
        return True
    finally:
        link.settimeout(20)
