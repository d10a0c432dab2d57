"""What the scripts beside it share: `kubeconv serve` and the front at free ports, over a definition with printer columns, in a folder
that goes at the end."""

import json
import pathlib
import shutil
import subprocess
import sys
import tempfile

HERE = pathlib.Path(__file__).resolve().parent
EXAMPLES = HERE.parent
sys.path.append(str(EXAMPLES.parent))
from harness.server import Listening  # noqa: E402

COLUMNS = [
    {"name": "Host", "type": "string", "jsonPath": ".host", "description": "Where it listens."},
    {"name": "Paused", "type": "boolean", "jsonPath": ".paused"},
    {"name": "Timeout", "type": "integer", "jsonPath": ".timeoutMillis", "priority": 1},
    {"name": "Age", "type": "date", "jsonPath": ".metadata.creationTimestamp"},
]


def certificate(folder):
    """A certificate of this machine's address and its key. Where there is no openssl to make them, it says that TLS is skipped."""
    openssl, cert, key = shutil.which("openssl"), folder / "cert.pem", folder / "key.pem"
    if openssl is None:
        print("skipped: TLS, since there is no openssl to make a certificate with")
        return None
    of = ["-subj", "/CN=front", "-addext", "subjectAltName=IP:127.0.0.1", "-keyout", key, "-out", cert]
    subprocess.run([openssl, "req", "-x509", "-newkey", "rsa:2048", "-nodes", "-days", "1", *of], check=True, capture_output=True)
    return cert, key


def definition():
    """The definition of the example, with columns and a short name, and with descriptions for `explain`."""
    found = json.loads((EXAMPLES / "crontabs.json").read_text())
    found["spec"]["names"].update(shortNames=["ct"], categories=["all"])
    hub = found["spec"]["versions"][0]
    hub["additionalPrinterColumns"] = COLUMNS
    schema = hub["schema"]["openAPIV3Schema"]
    schema["description"] = "What runs when."
    schema["properties"]["timeoutMillis"]["description"] = "How long a run may take, in milliseconds."
    return found


class Running:
    """The programs that run, and the folder of their files."""

    def __init__(self, program):
        self.program = program
        self.folder = tempfile.TemporaryDirectory(prefix="kubeconv-kubectl-")
        self.path = pathlib.Path(self.folder.name)
        self.crd = self.path / "crd.json"
        self.crd.write_text(json.dumps(definition()))
        self.processes = []
        self.server = ""

    def started(self, words):
        """The address at which a program listens that was just started."""
        self.processes.append(Listening(words))
        return self.processes[-1].told.rpartition(" ")[2].strip()

    def serve(self, listen="127.0.0.1:0"):
        files = ["--crd", self.crd, "--rules", EXAMPLES / "crontabs.rules.json"]
        self.server = self.started([self.program, "serve", *files, "--listen", listen])
        return self.processes[-1]

    def front(self, *words):
        program = [sys.executable, HERE / "front.py", "--crd", self.crd, "--server", self.server]
        return self.started([*program, "--listen", "127.0.0.1:0", *words])

    def stop(self):
        for process in reversed(self.processes):
            process.stop()
        self.folder.cleanup()
