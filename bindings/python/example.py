"""How a message relay, a sweep of session files and a web application call the check. Copy what you need."""
import io
import tempfile
from pathlib import Path

import serialcheck

MOST = 1 << 20
LIMITS = "maxbytes=1048576;maxdepth=20;maxrefs=10000;maxarray=10000;"


# A message relay: it hands on the very bytes that were checked.
class Relay:
    def __init__(self, send):
        self.check = serialcheck.Filter(LIMITS + "shop.Order;java.lang.*;!*", anywhere=True)
        self.send = send

    def take(self, body):
        answer = self.check.check(body)
        if answer:
            self.send(body)
        return answer


# A sweep of session files: what a session store must not load.
def refused_sessions(folder):
    with serialcheck.Filter(LIMITS + "java.util.*;java.lang.*;!*", anywhere=True) as check:
        for file in sorted(Path(folder).glob("*.session")):
            answer = check.check(file.read_bytes())
            if not answer:
                yield file.name, answer


# A filter in front of a web application (WSGI): 400 for a body that is refused, and the application is not called.
class BodyCheck:
    def __init__(self, application):
        self.application = application
        self.check = serialcheck.Filter(LIMITS + "java.util.*;java.lang.*;!*", strict=True, anywhere=True)

    def __call__(self, environ, start_response):
        length = int(environ.get("CONTENT_LENGTH") or 0)
        if not 0 <= length <= MOST:
            start_response("413 Content Too Large", [])
            return []
        body = environ["wsgi.input"].read(length)
        if len(body) < length or not self.check.check(body):
            start_response("400 Bad Request", [])
            return []
        return self.application({**environ, "wsgi.input": io.BytesIO(body)}, start_response)


def main():
    text = bytes.fromhex("aced0005 740003616263 70 71007e0000")
    evil = bytes.fromhex("aced0005 720001410000000000000001020000 78 70")
    sent = []
    relay = Relay(sent.append)
    print("message:", relay.take(text))
    print("message of another class:", relay.take(evil))
    print("message, cut:", relay.take(text[:-1]))
    print("sent:", "the text alone" if sent == [text] else sent)
    with tempfile.TemporaryDirectory() as folder:
        for name, data in {"ann": text, "bob": evil}.items():
            Path(folder, f"{name}.session").write_bytes(data)
        for name, answer in refused_sessions(folder):
            print("session", name, answer)
    application = BodyCheck(lambda environ, start_response: start_response("200 OK", []) or [])
    for name, body in {"text": text, "another class": evil, "no stream": b"GET", "too long": bytes(MOST + 1)}.items():
        environ = {"wsgi.input": io.BytesIO(body), "CONTENT_LENGTH": str(len(body))}
        application(environ, lambda status, headers, name=name: print(f"body, {name}: {status}"))


if __name__ == "__main__":
    main()
