"""The programs of `make real`: tests of Go's own packages and of other projects, and the samples."""

from __future__ import annotations

import pathlib
from dataclasses import dataclass

ROOT = pathlib.Path(__file__).resolve().parents[3]
DEBIAN = pathlib.Path("/usr/share/gocode")
WANTED = (
    "golang-golang-x-net-dev golang-golang-x-crypto-dev golang-github-valyala-fasthttp-dev "
    "golang-github-gorilla-websocket-dev golang-github-miekg-dns-dev"
)
SAMPLES = ROOT / "tools/go/samples"


@dataclass(frozen=True)
class Suite:
    """A package's tests, and a selection of them."""

    package: str
    tests: str = "."

    @property
    def is_of_others(self) -> bool:
        """Whether it belongs to another project, whose name begins with a domain."""
        return "." in self.package.partition("/")[0]


@dataclass(frozen=True)
class Sample:
    """A sample program, and the arguments of each of its runs."""

    name: str
    source: str
    runs: tuple[tuple[str, ...], ...]
    processors: tuple[int, ...] = (1, 4)
    is_healthy: bool = False  # it should have no suspect


def runs_of(names: str) -> tuple[tuple[str, ...], ...]:
    return tuple((name,) for name in names.split())


HEALTHY = runs_of(
    "proxy limited local slow sendfile buffers gathered idle pool deadlines datagrams datagrams6 messages handed pipe raw"
)
OF_SAMPLES = (
    Sample("small", "main.go", runs_of("past lost leak late writers busy half")),
    Sample("hijacked", "hijacked/main.go", runs_of("once")),
    Sample("healthy", "healthy/main.go", HEALTHY * 2, is_healthy=True),
    Sample("load", "load/main.go", (("64", "2000", "0"),) * 20, (4,)),
)
OF_GO = tuple(
    Suite(package)
    for package in (
        "internal/poll", "net/rpc", "net/rpc/jsonrpc", "net/smtp", "net/textproto", "net", "os", "os/exec", "net/http/httputil",
        "net/http/httptest", "net/http/fcgi", "net/http/cgi", "net/http", "crypto/tls",
    )
)  # fmt: skip
OF_OTHERS = (
    Suite("golang.org/x/net/nettest"),
    Suite("golang.org/x/net/netutil"),
    Suite("golang.org/x/net/websocket"),
    Suite("golang.org/x/net/http2", "Server|Transport|Conn|Timeout|Stream"),
    Suite("golang.org/x/crypto/ssh"),
    Suite("golang.org/x/crypto/ssh/test"),
    Suite("github.com/gorilla/websocket"),
    Suite(
        "github.com/miekg/dns", "Serv|Client|Dial|Conn|TCP|UDP|Tls|TLS|Exchange|Timeout|Shutdown|Listen|Handler|Race"
    ),
    Suite("github.com/valyala/fasthttp", "Client|Server|Conn|Timeout|Pipeline|Dial|Listen|Shutdown"),
)
# TestSplice moves gigabytes, and each byte takes two characters in a recording. So only its subtests that move less
# data are run.
PARTS = {"TestSplice": "^TestSplice$/./^(simple|multipleWrite|honors|updates|limited|readerAtEOF|issue)"}
# The runs that the gate records: each sample once, and ten tests.
SMALL_SAMPLES = (
    Sample("small", "main.go", runs_of("past lost leak late writers busy half"), (4,)),
    Sample("healthy", "healthy/main.go", HEALTHY, (4,), is_healthy=True),
)
SMALL_TESTS = (
    Suite("net/rpc", "^(TestRPC|TestClientWriteError|TestShutdown|TestTCPClose|TestErrorAfterClientClose)$"),
    Suite(
        "net",
        "^(TestAcceptTimeout|TestReadTimeout|TestWriteTimeout|TestTCPConcurrentAccept|TestUDPZeroBytePayload)$",
    ),
)
