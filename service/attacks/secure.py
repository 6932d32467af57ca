"""A cluster with certificates and users, by the commands and the server's file of docs/service.md, on the loopback."""

import json
import re
import ssl
import subprocess
import time
from pathlib import Path

from cluster import NAMES, NATS, PROGRAMS, SERVICE, Cluster, Wire, free_port, start

PAGE = (SERVICE.parent / "docs" / "service.md").read_text()
# the file of a server, as the page has it
FILE = PAGE.split("`/etc/nats-server.conf` on `m0`:\n\n```\n")[1].split("```")[0]
CURVE = "-pkeyopt ec_paramgen_curve:prime256v1"
USES = "serverAuth,clientAuth"
HERE = "DNS:localhost,IP:127.0.0.1"


def openssl(words: str, folder: Path) -> None:
    """Runs openssl in a folder."""
    p = subprocess.run(["openssl", *words.split()], cwd=folder, stdout=subprocess.PIPE, stderr=subprocess.STDOUT)
    if p.returncode:
        raise RuntimeError(f"openssl {words}: {p.stdout.decode()}")


def authority(folder: Path, name: str) -> None:
    """Makes an authority."""
    openssl(f"ecparam -genkey -name prime256v1 -noout -out {name}.key", folder)
    openssl(f"req -x509 -new -key {name}.key -days 3650 -subj /CN=qlock-{name} -out {name}.pem", folder)


def certificate(folder: Path, name: str, by: str, seconds: int | None = None, names: str = HERE) -> None:
    """Makes a certificate by an authority, of a year, or of some seconds."""
    openssl(f"req -new -newkey ec {CURVE} -nodes -subj /CN=localhost -keyout {name}.key.new -out {name}.csr", folder)
    (folder / f"{name}.ext").write_text(f"subjectAltName={names}\nextendedKeyUsage={USES}\n")
    files = f"-in {name}.csr -extfile {name}.ext -out {name}.pem.new"
    if seconds is None:
        openssl(f"x509 -req -CA {by}.pem -CAkey {by}.key -CAcreateserial -days 365 {files}", folder)
    else:
        short_certificate(folder, files, by, seconds)
    for ending in ("key", "pem"):
        (folder / f"{name}.{ending}.new").rename(folder / f"{name}.{ending}")


def short_certificate(folder: Path, files: str, by: str, seconds: int) -> None:
    """Makes a certificate that ends in some seconds: `openssl ca` takes the end as a date."""
    (folder / "ca.cnf").write_text(
        f"[ca]\ndefault_ca=d\n[d]\nnew_certs_dir={folder}\ndatabase={folder}/index\nserial={folder}/next\n"
        f"default_md=sha256\npolicy=p\nunique_subject=no\nprivate_key={folder}/{by}.key\n"
        f"certificate={folder}/{by}.pem\n[p]\ncommonName=supplied\n"
    )
    (folder / "index").touch()
    if not (folder / "next").exists():
        (folder / "next").write_text("1000\n")
    first, last = (time.strftime("%Y%m%d%H%M%SZ", time.gmtime(time.time() + s)) for s in (-60, seconds))
    openssl(f"ca -batch -notext -config ca.cnf -startdate {first} -enddate {last} {files}", folder)


def server_file(own: str, keys: Path, port: int, routes: list[str]) -> str:
    """The page's file of the server with this route, on the loopback. The file with the users is beside it."""
    text = FILE
    for there, here in (
        ("/etc/qlock", str(keys)),
        ('"0.0.0.0:4222"', f'"127.0.0.1:{port}"'),
        ('"0.0.0.0:6222"', f'"127.0.0.1:{own.split(":")[1]}"'),
        ('advertise: "m0:6222"', f'advertise: "{own}"'),
        ("server_name: m0", f"server_name: {own.split(':')[0]}"),
        ("qlock/users.conf", "users.conf"),
    ):
        text = text.replace(there, here)
    return re.sub(r"routes: \[.*\]", f"routes: {json.dumps([f'tls://{route}' for route in routes])}", text)


def write_users(cluster: Path, keys: Path, to: Path) -> None:
    """Writes the users by the command of the page, and one more, web. Each has a seed, and for a Speaker a password, too."""
    words = re.findall(r"^qlockctl users -c cluster.toml (.*) --nkeys keys", PAGE, re.M)[0].split()
    command = [PROGRAMS / "qlockctl", "users", "-c", cluster, *words, "--user", "web"]
    by_seed, by_password = (
        subprocess.run([*command, *more], check=True, stdout=subprocess.PIPE, text=True).stdout.splitlines()
        for more in (["--nkeys", keys], [])
    )
    lines = [re.sub(r'user: (\S+), password: "..."', r'user: \1, password: "\1"', line) for line in by_password]
    to.write_text("\n".join([*by_seed[:-1], *lines[1:]]) + "\n")


def start_server(room: Path, name: str, text: str) -> subprocess.Popen[bytes]:
    """Starts a server of NATS with a file."""
    (room / f"{name}.conf").write_text(text)
    return start([NATS, "-c", room / f"{name}.conf"], room / f"{name}.log")


class Speaker(Wire):
    """A plain connection of a user, by TLS."""

    def __init__(self, cluster: "Secure", user: str) -> None:
        self.user, self.id = user, cluster.id
        keys = cluster.keys
        self.context = ssl.create_default_context(cafile=str(keys / "ca.pem"))
        self.context.load_cert_chain(keys / f"{cluster.job_pair}.pem", keys / f"{cluster.job_pair}.key")
        super().__init__(cluster.port)

    def connect(self, words: str = "") -> None:
        """Says who this is, by TLS."""
        self.socket = self.context.wrap_socket(self.socket, server_hostname="localhost")
        super().connect(f',"user":"{self.user}","pass":"{self.user}"{words}')
        self.settle()

    def settle(self) -> str:
        """What the server had to say until now."""
        self.socket.sendall(b"PING\r\n")
        data = b""
        while b"PONG\r\n" not in data:
            part = self.socket.recv(1 << 16)
            if not part:
                raise RuntimeError(f"the server ends the connection of {self.user}: {data!r}")
            data += part
        return data.decode(errors="replace")

    def may_say(self, subject: str, text: str) -> bool:
        """Sends a message, and returns whether the server lets it pass."""
        self.publish(f"qlock.{self.id}.{subject}", text)
        return "Permissions Violation" not in self.settle()

    def may_listen(self, subject: str) -> bool:
        """Listens to a subject, and returns whether the server lets it."""
        self.listen(f"qlock.{self.id}.{subject}")
        return "Permissions Violation" not in self.settle()


class Secure(Cluster):
    """The cluster of the page: five voters, and one of its servers."""

    def __init__(self, room: Path, name: str = "prod", ttl: str = "2s", seconds: int | None = None) -> None:
        self.keys, self.route_port, self.seconds = room / "keys", free_port(), seconds
        self.keys.mkdir()
        # the certificates that the page names, with their authorities, and that of a job
        path = r'"/etc/qlock/([\w-]+)\.'
        self.pairs = dict(re.findall(rf"tls \{{ cert_file: {path}.*?ca_file: {path}", FILE))
        self.job_pair = re.findall(r"jobs  qlockctl run .*?--cert /etc/qlock/([\w-]+)\.pem", PAGE, re.S)[0]
        self.pairs.setdefault(self.job_pair, "ca")
        self.make_keys()
        super().__init__(room, name, ttl)

    def make_keys(self) -> None:
        """Makes authorities and certificates."""
        for name in sorted(set(self.pairs.values())):
            authority(self.keys, name)
        for pair, by in self.pairs.items():
            certificate(self.keys, pair, by, seconds=self.seconds if by == "ca" else None)

    def renew(self) -> None:
        """Puts certificates of a year in place of those that there are."""
        for pair, by in self.pairs.items():
            certificate(self.keys, pair, by)

    def start_server(self) -> None:
        """Starts the server of NATS with the page's file, for one machine."""
        route = f"localhost:{self.route_port}"
        write_users(self.file, self.keys, self.room / "users.conf")
        text = server_file(route, self.keys, self.port, [route])
        self.server = start_server(self.room, "nats", text)

    def url(self) -> str:
        """Where the server is."""
        return f"tls://localhost:{self.port}"

    def init_words(self) -> list[object]:
        """Further words of `qlockctl init`."""
        return ["--ca", self.keys / "ca.pem"]

    def access(self, voter: str) -> str:
        """The lines of a voter's file that say how it shows the server who it is."""
        keys = self.keys
        pair = f'cert = "{keys}/machine.pem"\nkey = "{keys}/machine.key"\n'
        return f'seed = "{keys}/voter-{NAMES.index(voter)}.nk"\n{pair}'

    def words(self, user: str, pair: str) -> list[object]:
        """How a user shows the server who he is."""
        seed, cert, key = (self.keys / name for name in (f"{user}.nk", f"{pair}.pem", f"{pair}.key"))
        return ["--user", user, "--seed", seed, "--cert", cert, "--key", key]

    def operator_words(self) -> list[object]:
        """How an operator shows the server who he is."""
        return self.words("alice", "machine")

    def job_words(self) -> list[object]:
        """How a job shows the server who it is."""
        return self.words("jobs", self.job_pair)
