#!/usr/bin/env python3
"""Checks the webhook from outside, with the files beside this one:

    python3 examples/webhook/check.py [--slow] PROGRAM

PROGRAM is a built kubeconv, or the launcher ./kubeconv. A certificate is made by certificate.sh, serve.py serves HTTPS with it and HTTP
without it, and openssl, curl and a client that asks as an API server does, 40 at once, judge what is answered. One line is printed for
each thing that was looked at, `skipped` where a tool isn't there. What is wrong is told on standard error, and then the status is 1.
With --slow it is also waited for the 30 seconds after which a silent peer is let go.
"""
import concurrent.futures
import http.client
import json
import os
import pathlib
import shutil
import signal
import socket
import ssl
import subprocess
import sys
import tempfile
import time

HERE = pathlib.Path(__file__).resolve().parent
sys.path.append(str(HERE.parent.parent))
from harness.crontabs import head_of  # noqa: E402
from harness.documents import review_of  # noqa: E402
from harness.programs import SHARED_FILES, TOP  # noqa: E402
from harness.server import Listening  # noqa: E402
from harness.told import Skipped, end, looked, same, wants  # noqa: E402

NAME = "kubeconv-webhook.default.svc"
FILES = list(map(str, SHARED_FILES))
REVIEW = (HERE / "review.json").read_bytes()
ANSWER = (HERE / "answer.json").read_bytes()
CALLERS, CALLS = 40, 5


class Serving(Listening):
    """serve.py at a port that the system chose."""

    def __init__(self, program, tls=None):
        secure = ["--cert", tls / "tls.crt", "--key", tls / "tls.key"] if tls else []
        super().__init__([sys.executable, HERE / "serve.py", *secure, "0", program, "review", *FILES], stderr=subprocess.DEVNULL)
        self.trust = ssl.create_default_context(cafile=tls / "ca.pem") if tls else None

    def socket(self):
        plain = socket.create_connection(self.address, timeout=60)
        return self.trust.wrap_socket(plain, server_hostname=NAME) if self.trust else plain

    def caller(self):
        """A connection that checks the certificate by the Service's name, as an API server does."""
        caller = http.client.HTTPConnection(NAME, self.port, timeout=60)
        caller.sock = self.socket()
        caller.auto_open = False  # so that a connection that ended is told
        return caller


def post(caller, body, **headers):
    caller.request("POST", "/convert?timeout=30s", body, {"Content-Type": "application/json", "Accept": "application/json, */*", **headers})
    answer = caller.getresponse()
    return answer.status, answer.read()


def crontab(number, version):
    item = head_of("CronTab", version, f"c{number}", number)
    item["metadata"].update(namespace="default", uid=f"uid-{number}", generation=1)
    fields = {"hostPort": f"h{number}:80", "timeoutSeconds": number % 1000} if version == "v1beta1" else {"host": f"h{number}", "port": "80"}
    return {**item, **fields}


def judged(came, uid, wanted, objects):
    """What an API server looks at in a response that succeeded."""
    status, text = came
    whole = json.loads(text)
    response = whole["response"]
    told = status, whole["apiVersion"], whole["kind"], response["uid"], response["result"]["status"]
    same("the answer", told, (200, "apiextensions.k8s.io/v1", "ConversionReview", uid, "Success"))
    fields = [(one["apiVersion"], one["kind"], one["metadata"], one.get("hostPort", one.get("host"))) for one in response["convertedObjects"]]
    kinds = [(f"example.com/{wanted}", other["kind"], other["metadata"], host_of(other, wanted)) for other in objects]
    same("the objects", fields, kinds)


def host_of(other, wanted):
    if wanted == "v1":
        return other["hostPort"].partition(":")[0] if "hostPort" in other else other["host"]
    return other.get("hostPort") or f"{other['host']}:{other['port']}"


def calls(serving, number):
    """One caller: CALLS reviews over one connection, of both versions by turns."""
    caller = serving.caller()
    for call in range(CALLS):
        wanted, other = ("v1", "v1beta1") if (number + call) % 2 else ("v1beta1", "v1")
        objects = [crontab(item, other) for item in range(1, 3 + 7 * number)]
        judged(post(caller, review_of(objects, wanted, f"{number}-{call}")), f"{number}-{call}", wanted, objects)
    caller.close()


def many(serving):
    silent = [socket.create_connection(serving.address) for _ in range(CALLERS)]
    began = time.monotonic()
    with concurrent.futures.ThreadPoolExecutor(CALLERS) as pool:
        list(pool.map(lambda number: calls(serving, number), range(CALLERS)))
    for one in silent:
        one.close()
    return f"{CALLERS} callers of {CALLS} reviews each, beside {CALLERS} silent peers, in {time.monotonic() - began:.1f} s"


def failures(serving):
    """Whatever can be read as a review is answered with its uid, and the object that is at fault."""
    good, deep = crontab(1, "v1beta1"), 1
    for _ in range(64):
        deep = {"a": deep}
    table = [
        ([good, {**good, "timeoutSeconds": 2000}], "object 1: timeoutSeconds: Maximum"),
        ([good, {**good, "extra": {"a": [1, 2.5]}}], "object 1: extra.a[1]: NotWhole"),
        ([good, good, {**good, "extra": deep}], "object 2: TooDeep"),
        ([good, 7], "NotReview request.objects[1]"),
    ]
    bodies = [(review_of(objects, "v1", "u2"), message) for objects, message in table]
    bodies.append((review_of([good], "v9", "u2"), "desiredAPIVersion: Unknown"))
    bodies.append((review_of([good], "v1", "u2").replace(b"k8s.io/v1", b"k8s.io/v1beta1"), "NotReview apiVersion"))
    caller = serving.caller()
    for body, message in bodies:
        status, text = post(caller, body)
        wanted = {"result": {"message": message, "status": "Failure"}, "uid": "u2"}
        same("the response", (status, json.loads(text)["response"]), (200, wanted))
    return f"{len(bodies)} reviews over one connection"


def refusals(serving):
    """What is no review has a code, and a connection goes on where it can."""
    caller = serving.caller()
    for body in (b"", b"nonsense", b"[]", b'{"request":{"uid":7}}', review_of([], "v1", "")):
        same("the code", post(caller, body)[0], 400)
    caller.request("GET", "/healthz")
    answer = caller.getresponse()
    same("its health", (answer.status, answer.read()), (200, b"ok\n"))
    same("the answer", post(caller, REVIEW), (200, ANSWER))
    for head, code in (
        ("POST / HTTP/1.1\r\nHost: a", 411),
        ("POST / HTTP/1.1\r\nHost: a\r\nContent-Length: x", 400),
        ("POST / HTTP/1.1\r\nHost: a\r\nContent-Length: 2\r\nTransfer-Encoding: chunked\r\n\r\n0", 400),
        ("POST / HTTP/1.1\r\nHost: a\r\nTransfer-Encoding: chunked\r\n\r\nz", 400),
        ("POST / HTTP/1.1\r\nHost: a\r\nContent-Length: 67108865", 413),
        ("PUT / HTTP/1.1\r\nHost: a\r\nContent-Length: 0", 501),
        ("POST / HTTP/1.1 and more", 400),
    ):
        with serving.socket() as peer:
            peer.sendall(f"{head}\r\n\r\n".encode())
            same(head, peer.makefile("rb").readline().split()[1], str(code).encode())
    return "400, 411, 413 and 501, and 200 behind them"


def chunked(serving):
    """A body in chunks, of one byte and of many, twice over one connection."""
    caller = serving.caller()
    for cut in (1, 100):
        parts = [REVIEW[at : at + cut] for at in range(0, len(REVIEW), cut)]
        caller.request("POST", "/convert", iter(parts), {"Transfer-Encoding": "chunked"}, encode_chunked=True)
        answer = caller.getresponse()
        same("the answer", (answer.status, answer.read()), (200, ANSWER))


def long(serving):
    """A review of more bytes than one run of the program reads, and one of them at fault."""
    objects = [crontab(item, "v1beta1") for item in range(24_000)]
    caller, body = serving.caller(), review_of(objects, "v1", "long")
    judged(post(caller, body), "long", "v1", objects)
    objects[23_000]["timeoutSeconds"] = 1001
    status, text = post(caller, review_of(objects, "v1", "long"))
    same("the fault", (status, json.loads(text)["response"]["result"]["message"]), (200, "object 23000: timeoutSeconds: Maximum"))
    return f"{len(body):,} bytes"


def by_openssl(serving, tls):
    wants("openssl")
    authority, of_name = ["-CAfile", tls / "ca.pem"], ["-verify_hostname", NAME]
    client = ["s_client", "-connect", f"127.0.0.1:{serving.port}"]
    for words, is_taken in (
        (["verify", *authority, "-purpose", "sslserver", *of_name, tls / "tls.crt"], True),
        ([*client, "-servername", NAME, *authority, "-verify_return_error", *of_name, "-brief"], True),
        ([*client, "-tls1_1"], False),
    ):
        done = subprocess.run(["openssl", *map(str, words)], input="", capture_output=True, text=True, timeout=60)
        same(" ".join(map(str, words)), done.returncode == 0, is_taken)


def curl(*words):
    done = subprocess.run(["curl", "-sS", "--data-binary", f"@{HERE / 'review.json'}", *map(str, words)], capture_output=True)
    return done.returncode, done.stdout


def by_curl(serving, tls):
    wants("curl")
    at = ["--resolve", f"{NAME}:{serving.port}:127.0.0.1", f"https://{NAME}:{serving.port}/convert"]
    same("what curl shows", curl("--cacert", tls / "ca.pem", *at), (0, ANSWER))
    same("the status of curl without the authority", curl(*at)[0], 60)


def plain(program):
    """Without --cert it serves HTTP, and curl posts a file."""
    wants("curl")
    with Serving(program) as serving:
        same("what curl shows", curl(f"http://127.0.0.1:{serving.port}/"), (0, ANSWER))
        serving.process.send_signal(signal.SIGINT)
        same("the status", serving.ended(60), 0)


def faulty(program):
    """Files that the program refuses end it before it listens."""
    words = [sys.executable, HERE / "serve.py", "0", program, "review", "--crd", FILES[3], "--rules", FILES[1]]
    done = subprocess.run(list(map(str, words)), capture_output=True, text=True)
    same("its end", (done.returncode, done.stdout, done.stderr.splitlines()[0]), (1, "", f"kubeconv: {FILES[3]}: apiVersion: Shape"))


def launched(program):
    """Of a launcher, the program that it builds is run, and the launcher itself once."""
    with tempfile.TemporaryDirectory() as to:
        out = pathlib.Path(to) / "crates/kubeconv/out"
        out.mkdir(parents=True)
        launcher = pathlib.Path(to) / "kubeconv"
        built = out / "kubeconv"
        build = f'echo building >&2\necho once >>"{to}/runs"\nln -sf "{pathlib.Path(program).resolve()}" "{built}"'
        launcher.write_text(f'#!/bin/sh\n{build}\nexec "{built}" "$@"\n')
        launcher.chmod(0o755)
        serving = Serving(launcher)
        for _ in range(3):
            same("the answer", post(serving.caller(), REVIEW), (200, ANSWER))
        serving.process.terminate()
        same("its end", (serving.ended(60), (pathlib.Path(to) / "runs").read_text()), (0, "once\n"))


def renewed(serving, tls):
    """A certificate that is put in the place of the old one is the one of the next connection."""
    before = serving.socket().getpeercert()["serialNumber"]
    certificate(tls / "new")
    for file in ("tls.key", "tls.crt"):
        os.replace(tls / "new" / file, tls / file)
    serving.trust.load_verify_locations(tls / "new" / "ca.pem")
    if serving.socket().getpeercert()["serialNumber"] == before:
        raise AssertionError("the old certificate is still served")


def silent_peers(serving):
    """A peer that says nothing, and one that says a byte now and then, are let go after 30 seconds."""
    began = time.monotonic()
    peers = [serving.socket(), serving.socket(), socket.create_connection(serving.address)]
    peers[1].sendall(b"POST / HTTP/1.1\r\nContent-Length: 90\r\n\r\n")
    ended = {}
    while len(ended) < len(peers) and time.monotonic() - began < 45:
        for place, peer in enumerate(peers):
            peer.settimeout(0.2)
            try:
                if place == 1 and place not in ended:
                    peer.sendall(b" ")
                if place not in ended and not peer.recv(1):
                    ended[place] = time.monotonic() - began
            except TimeoutError:
                pass
            except OSError:
                ended.setdefault(place, time.monotonic() - began)
    same("who is let go", sorted(ended), [0, 1, 2])
    same("when", [29 < seconds < 36 for seconds in ended.values()], [True] * 3)
    return "after " + ", ".join(f"{ended[place]:.1f}" for place in range(3)) + " s"


def stopped(serving):
    """SIGTERM while a review is answered: its answer comes, and then the end."""
    caller = serving.caller()
    objects = [crontab(item, "v1beta1") for item in range(3_000)]
    body = review_of(objects, "v1", "last")
    caller.putrequest("POST", "/convert")
    caller.putheader("Content-Length", str(len(body)))
    caller.endheaders(body[:-1])
    time.sleep(0.3)
    serving.process.send_signal(signal.SIGTERM)
    time.sleep(0.3)
    caller.send(body[-1:])
    answer = caller.getresponse()
    judged((answer.status, answer.read()), "last", "v1", objects)
    same("its end", (answer.getheader("Connection"), serving.ended(60)), ("close", 0))


def certificate(to):
    done = subprocess.run(["sh", str(HERE / "certificate.sh"), str(to), NAME], capture_output=True, text=True)
    same("certificate.sh", (done.returncode, done.stderr), (0, ""))


def manifests(program):
    """The manifests name each other rightly, and their definition is the one of examples/."""
    try:
        import yaml
    except ImportError:
        raise Skipped("there is no Python module yaml") from None
    deployment, service = yaml.safe_load_all((HERE / "manifests/webhook.yaml").read_text())
    crd = yaml.safe_load((HERE / "manifests/crd.yaml").read_text())
    asked = crd["spec"]["conversion"]["webhook"]["clientConfig"]["service"]
    named, pod, port = service["metadata"], deployment["spec"]["template"], service["spec"]["ports"][0]
    same("the service", (asked["name"], asked["namespace"], asked["port"]), (named["name"], named["namespace"], port["port"]))
    same("its name", f"{asked['name']}.{asked['namespace']}.svc", NAME)
    same("the pod's labels", service["spec"]["selector"], pod["metadata"]["labels"])
    container = pod["spec"]["containers"][0]["ports"][0]
    same("the port", port["targetPort"], container["name"])
    same("the port of the image", str(container["containerPort"]) in (HERE / "Dockerfile").read_text(), True)
    same("the versions", crd["spec"]["versions"], json.loads((TOP / "examples/crontabs.json").read_text())["spec"]["versions"])
    with tempfile.TemporaryDirectory() as to:
        made = subprocess.run([sys.executable, TOP / "tools/prepare_crd.py", HERE / "manifests/crd.yaml"], capture_output=True)
        (pathlib.Path(to) / "crd.json").write_bytes(made.stdout)
        words = [program, "review", "--crd", f"{to}/crd.json", *FILES[2:]]
        same("the answer", subprocess.run(words, input=REVIEW, capture_output=True).stdout, ANSWER)


def image(program):
    """The image is built where there is a Docker daemon, and answers a review."""
    wants("docker")
    if subprocess.run(["docker", "info"], capture_output=True).returncode != 0:
        raise Skipped("there is no Docker daemon")
    if pathlib.Path(program).read_bytes()[:2] == b"#!":
        raise Skipped("it takes a built program, and this is the launcher")
    with tempfile.TemporaryDirectory() as to:
        room = pathlib.Path(to)
        shutil.copy(program, room / "kubeconv")
        for file in HERE / "serve.py", HERE.parent / "serving.py":
            shutil.copy(file, room)
        words = ["docker", "build", "-q", "-f", str(HERE / "Dockerfile"), to]
        built = subprocess.run(words, capture_output=True, text=True)
        if built.returncode != 0:
            raise Skipped(f"docker build: {built.stderr.strip().splitlines()[-1]}")
    mounts = ["-v", f"{FILES[1]}:/definition/crd.json:ro", "-v", f"{FILES[3]}:/definition/rules.json:ro"]
    words = ["docker", "run", "--rm", "-i", *mounts, "--entrypoint", "/kubeconv", built.stdout.strip(), "review",
             "--crd", "/definition/crd.json", "--rules", "/definition/rules.json"]  # fmt: skip
    same("the answer", subprocess.run(words, input=REVIEW, capture_output=True).stdout, ANSWER)


def secure(program, slow):
    """What is looked at over HTTPS."""
    with tempfile.TemporaryDirectory() as to:
        tls = pathlib.Path(to) / "tls"
        certificate(tls)
        serving = Serving(program, tls)
        looked("openssl: the chain, the name, no TLS 1.1", by_openssl, serving, tls)
        looked("curl --cacert, and none without it", by_curl, serving, tls)
        looked("as an API server asks", many, serving)
        for look in failures, refusals, chunked, long:
            looked(look.__name__, look, serving)
        looked("a silent peer and a slow one", silent_peers if slow else skip("--slow waits for them"), serving)
        looked("a renewed certificate", renewed, serving, tls)
        looked("SIGTERM while a review is answered", stopped, serving)


def skip(why):
    def look(*_):
        raise Skipped(why)

    return look


def main(words):
    slow = words[:1] == ["--slow"]
    if len(words) != 1 + slow:
        sys.exit(__doc__)
    program = words[-1]
    if shutil.which("openssl"):
        secure(program, slow)
    else:
        looked("HTTPS", skip("there is no openssl to make a certificate"))
    looks = {"HTTP, curl and SIGINT": plain, "faulty files": faulty, "the launcher's program": launched, "manifests": manifests, "the image": image}
    for what, look in looks.items():
        looked(what, look, program)
    end()


if __name__ == "__main__":
    main(sys.argv[1:])
