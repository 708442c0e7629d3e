"""Anchors: each change of a book, of a list, of a signature or a stamp is named."""
import http.server
import shutil
import subprocess
import threading
from pathlib import Path

import pytest

from conftest import put
from dragoon.errors import Error
from dragoon.ops import anchors

EXAMPLES = Path(__file__).resolve().parents[2] / "examples"
pytestmark = pytest.mark.skipif(
    not (shutil.which("ssh-keygen") and shutil.which("openssl")), reason="no ssh-keygen or openssl"
)
AUTHORITY = """[tsa]
default_tsa = own
[own]
serial = serial
signer_cert = authority.pem
signer_key = authority.key
signer_digest = sha256
default_policy = 1.2.3.4.1
digests = sha256
ess_cert_id_alg = sha256
[req]
distinguished_name = name
x509_extensions = stamps
prompt = no
[name]
CN = a stamping authority for tests
[stamps]
basicConstraints = CA:TRUE
extendedKeyUsage = critical,timeStamping
"""


@pytest.fixture(scope="module")
def authority(tmp_path_factory):
    """A stamping authority of RFC 3161 on this machine: its URL, and its certificate."""
    folder = tmp_path_factory.mktemp("authority")
    (folder / "conf").write_text(AUTHORITY)
    (folder / "serial").write_text("01\n")
    words = "req -x509 -newkey rsa:2048 -nodes -days 9 -config conf -keyout authority.key"
    made = ["openssl", *words.split(), "-out", "authority.pem"]
    subprocess.run(made, cwd=folder, check=True, capture_output=True)

    class Stamps(http.server.BaseHTTPRequestHandler):
        def do_POST(self):
            query = self.rfile.read(int(self.headers["Content-Length"]))
            (folder / "query").write_bytes(query)
            words = ["openssl", "ts", "-reply", "-config", "conf", "-queryfile", "query"]
            done = subprocess.run(words, cwd=folder, capture_output=True)
            self.send_response(200)
            self.end_headers()
            self.wfile.write(done.stdout)

        def log_message(self, *_):
            pass

    server = http.server.HTTPServer(("127.0.0.1", 0), Stamps)
    threading.Thread(target=server.serve_forever, daemon=True).start()
    yield f"http://127.0.0.1:{server.server_port}/", folder / "authority.pem"
    server.shutdown()


@pytest.fixture(scope="module")
def anchored(tmp_path_factory, authority):
    """A book that was anchored twice: when it had one batch, and as it is."""
    folder = tmp_path_factory.mktemp("anchored")
    whole = (EXAMPLES / "worked.book").read_bytes()
    key = folder / "key"
    subprocess.run(["ssh-keygen", "-q", "-t", "ed25519", "-N", "", "-f", key], check=True)
    (folder / "signers").write_text(f"notary {(folder / 'key.pub').read_text()}")
    (folder / "list").mkdir()
    for content in (whole[:125] + b"\0", whole):
        (folder / "book").write_bytes(content)
        anchors.add(str(folder / "book"), str(folder / "list"), str(key), authority[0])
    return folder


@pytest.fixture
def there(tmp_path, anchored):
    return Path(shutil.copytree(anchored, tmp_path / "a"))


def check(there, authority=None, most=None):
    names = [str(there / it) for it in ("book", "list", "signers")]
    return anchors.check(*names, str(authority[1]) if authority else None, most)


def test_a_book_that_grew_holds(there, authority):
    assert check(there, authority, 60).startswith("clean 2: signed and stamped, from ")
    words = [str(there / it) for it in ("book", "list", "key")]
    assert anchors.add(*words).startswith("nothing is new since anchor 2")


def cut(there, at):
    (there / "book").write_bytes((there / "book").read_bytes()[:at])


def turn(there, name, place):
    content = (there / name).read_bytes()
    put(there / name, place, bytes([content[place] ^ 1]))


def drop_line(there):
    lines = (there / "list/anchors").read_bytes().splitlines(keepends=True)
    (there / "list/anchors").write_bytes(b"".join(lines[:-1]))


CHANGES = [
    ("a byte before the first anchor", lambda it: turn(it, "book", 124), "was rewritten"),
    ("a byte before the second", lambda it: turn(it, "book", 911), "its first 912 bytes"),
    ("the end is cut", lambda it: cut(it, 912), "was cut"),
    ("it is cut before the first anchor", lambda it: cut(it, 125), "was cut"),
    ("a line of the list", lambda it: turn(it, "list/anchors", 1), "anchor 1 of"),
    ("the last line is cut", drop_line, "was cut: it has 1 anchors, and 2.sig"),
    ("a line that is none", lambda it: put(it / "list/anchors", 3, b"x"), "is no anchor"),
    ("a signature is gone", lambda it: (it / "list/2.sig").unlink(), "is not signed"),
    ("a signature is empty", lambda it: (it / "list/1.sig").write_bytes(b""), "is not signed"),
    ("a signature is another's", lambda it: turn(it, "list/1.sig", 60), "is not signed"),
    ("a stamp is gone", lambda it: (it / "list/1.tsr").unlink(), "is not stamped"),
    (
        "a stamp is another's",
        lambda it: shutil.copy(it / "list/1.tsr", it / "list/2.tsr"),
        "is not stamped",
    ),
]


@pytest.mark.parametrize("name, change, said", CHANGES, ids=[it[0] for it in CHANGES])
def test_each_change_is_named(there, authority, name, change, said):
    change(there)
    with pytest.raises(anchors.Differs, match=said):
        check(there, authority)


def test_another_machine_takes_what_grew_and_refuses_what_was_cut(there, tmp_path):
    vault = tmp_path / "vault"
    vault.mkdir()
    first = tmp_path / "first"
    shutil.copytree(there / "list", first)
    (first / "2.sig").unlink()
    lines = (first / "anchors").read_bytes().splitlines(keepends=True)
    (first / "anchors").write_bytes(lines[0])
    assert anchors.take(str(first), str(vault)).startswith("taken 1")
    assert anchors.take(str(there / "list"), str(vault)) == f"taken 2: {vault} had 1 of them"
    assert anchors.take(str(there / "list"), str(vault)).startswith("nothing is new")
    with pytest.raises(anchors.Differs, match="the list was cut, or is an older copy"):
        anchors.take(str(first), str(vault))
    assert len(list(vault.glob("refused.*"))) == 1
    assert len((vault / "anchors").read_bytes().splitlines()) == 2


@pytest.mark.parametrize(
    "key, url, said",
    [
        ("signers", None, "ssh-keygen"),
        ("key", "tsa.example", "stamps nothing"),
        ("key", "http://127.0.0.1:1/", "stamps nothing"),
        ("nokey", None, "ssh-keygen"),
    ],
)
def test_what_cannot_be_signed_or_stamped_adds_nothing(there, key, url, said):
    shutil.rmtree(there / "list")
    (there / "list").mkdir()
    with pytest.raises(Error, match=said):
        anchors.add(str(there / "book"), str(there / "list"), str(there / key), url)
    assert not (there / "list/anchors").exists()


def test_an_old_anchor_is_no_word_on_today(there):
    with pytest.raises(Error, match="seconds old"):
        check(there, None, -1)
