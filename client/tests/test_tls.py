"""TLS, with certificates of openssl: the server's is checked, and the client's own is shown."""
from __future__ import annotations

import shutil
import socket
import ssl
import subprocess
import threading
from pathlib import Path

import pytest

from cqd_client.faults import Lost
from cqd_client.link import Address, connected
from conftest import Client, Listening

pytestmark = pytest.mark.skipif(not shutil.which("openssl"), reason="openssl is missing")


def certificates(folder: Path) -> None:
    """An authority, and certificates of a server at 127.0.0.1 and of a client that it signed."""
    def openssl(*words: str) -> None:
        subprocess.run(["openssl", *words], cwd=folder, check=True, capture_output=True)
    key = ("-newkey", "ec", "-pkeyopt", "ec_paramgen_curve:prime256v1", "-nodes", "-days", "2")
    openssl("req", "-x509", *key, "-keyout", "ca.key", "-out", "ca.pem", "-subj", "/CN=authority")
    for name, more in (("server", ("-addext", "subjectAltName=IP:127.0.0.1")), ("client", ())):
        openssl("req", *key[:-2], "-keyout", f"{name}.key", "-out", f"{name}.csr", "-subj", f"/CN={name}", *more)
        openssl("x509", "-req", "-in", f"{name}.csr", "-CA", "ca.pem", "-CAkey", "ca.key", "-CAcreateserial", "-out", f"{name}.pem", "-days", "2",
                "-copy_extensions", "copy")


class Ends:
    """What ends TLS in front of a server: only clients with a certificate of the authority are let through."""

    def __init__(self, folder: Path, port: int) -> None:
        self.port = port
        self.context = ssl.SSLContext(ssl.PROTOCOL_TLS_SERVER)
        self.context.load_cert_chain(folder / "server.pem", folder / "server.key")
        self.context.load_verify_locations(folder / "ca.pem")
        self.context.verify_mode = ssl.CERT_REQUIRED
        self.door = socket.create_server(("127.0.0.1", 0))
        self.addr = f"127.0.0.1:{self.door.getsockname()[1]}"
        threading.Thread(target=self.serve, daemon=True).start()

    def serve(self) -> None:
        while True:
            near, _ = self.door.accept()
            try:
                secured = self.context.wrap_socket(near, server_side=True)
            except (OSError, ssl.SSLError):
                continue
            far = socket.create_connection(("127.0.0.1", self.port))
            threading.Thread(target=self.copy, args=(far, secured), daemon=True).start()
            threading.Thread(target=self.copy, args=(secured, far), daemon=True).start()

    @staticmethod
    def copy(source: socket.socket, sink: socket.socket) -> None:
        try:
            while data := source.recv(65536):
                sink.sendall(data)
        except OSError:
            pass


def test_a_handshake_that_is_cut_off_counts_as_a_lost_connection() -> None:
    with socket.create_server(("127.0.0.1", 0)) as door:
        def hang_up() -> None:
            near, _ = door.accept()
            near.recv(65536)
            near.close()
        threading.Thread(target=hang_up, daemon=True).start()
        with pytest.raises(Lost, match="over TLS"):
            connected(Address(*door.getsockname()), ssl.create_default_context(), 5)


def test_tls(client: Client, tmp_path: Path, listening: Listening) -> None:
    certificates(tmp_path)
    (tmp_path / "a.c").write_text("int a;\n")
    ends = Ends(tmp_path, listening.port)
    words = ("verdict", "a.c", "--project", "p", "--gate", "lines>100", "--addr", ends.addr, "--tls", "--timeout", "20")
    own = ("--tls-cert", "client.pem", "--tls-key", "client.key")
    assert client(*words, "--tls-ca", "ca.pem", *own).stdout == "OK\n"
    ran = client(*words, *own)
    assert ran.returncode == 2 and "is not trusted" in ran.stderr and "--tls-ca" in ran.stderr
    assert client(*words, "--tls-ca", "ca.pem").returncode == 2
    assert client(*words[:-3], "--timeout", "5").returncode == 2
    ran = client(*words, "--tls-ca", "missing.pem")
    assert ran.returncode == 2 and "missing.pem" in ran.stderr
    assert client(*words[:-3], "--tls-ca", "ca.pem").returncode == 3
    ran = client("verdict", "a.c", "--project", "p", "--gate", "lines>100", "--addr", listening.addr, "--tls", "--timeout", "5")
    assert ran.returncode == 2 and "over TLS" in ran.stderr
