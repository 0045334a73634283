"""Asks the service by curl, which has to be installed, and compares each response with the right one."""
import contextlib, csv, io, os, re, resource, select, socket, subprocess, time
from concurrent.futures import ThreadPoolExecutor

from asks import is_soon, processor_time, started

BODY = 50_000_000
# what the service may have held after all these requests: its longest body, and this much more
LIMIT, BESIDE = 64 << 20, 128 << 20
# a line of the text form of Prometheus, as far as the service uses that: of a type, or of a number
LINE = re.compile(rb'# TYPE [a-z_]+ (counter|gauge)|[a-z_]+(\{[a-z]+="[^"\\\n]*"\})? \d+')


class Client:
    """Asks the service, and judges its responses."""

    def __init__(self, judge, room, at):
        self.judge, self.room, self.at = judge, room, at

    def curl(self, path, *words, given=b""):
        """What curl writes if it asks for the path: the response, and after it a line with the status; or curl itself,
        if no input is given."""
        how = {"stdin": subprocess.PIPE, "stdout": subprocess.PIPE, "stderr": subprocess.PIPE, "cwd": self.room}
        words = ["-sv", "--max-time", "60", "-X", "POST", "-w", "\n%{http_code}", *words, f"http://{self.at}{path}"]
        it = subprocess.Popen(["curl", *words], **how)
        return it if given is None else it.communicate(given)

    def expect(self, what, path, wanted, *words, given=b"", seen=b""):
        response, status = self.curl(path, *words, given=given)
        self.judge(what, response == wanted and seen in status)


def echoes(client):
    big, more = os.urandom(BODY), os.urandom(LIMIT + 1)
    chunked = ["-T", "-", "-H", "Expect:"]
    open(f"{client.room}/big", "wb").write(big)
    client.expect("50 MB of known length", "/echo", big + b"\n200", "-T", "big")
    client.expect("50 MB in chunks", "/echo", big + b"\n200", *chunked, given=big)
    client.expect("an empty body", "/echo", b"\n200", "--data-binary", "")
    twice = ["--data-binary", "once", f"http://{client.at}/echo"]
    client.expect("two on one connection", "/echo", b"once\n200once\n200", *twice, seen=b"Re-using existing connection")
    waits = ["--data-binary", "awaited", "-H", "Expect: 100-continue"]
    client.expect("a body that waits to be asked for", "/echo", b"awaited\n200", *waits, seen=b"HTTP/1.1 100 Continue")
    client.expect("a body as long as the limit", "/echo", more[1:] + b"\n200", *chunked, given=more[1:])
    client.expect("one byte beyond the limit", "/echo", b"\n413", *chunked, given=more)
    client.expect("another path", "/other", b"\n404", "--data-binary", "text")
    client.expect("another method", "/echo", b"\n404", "-X", "GET")


def counts(client):
    chunked = ["-T", "-", "-H", "Expect:"]
    text = "".join(f"wörd{i}" + (" ", "\t ", "\r\n", "\n\n")[i % 4] for i in range(500_000)).encode()
    for path, flag in ("/words", "-w"), ("/lines", "-l"):
        counted = subprocess.run(["wc", flag], input=text, capture_output=True, env={**os.environ, "LC_ALL": "C.UTF-8"})
        client.expect(f"{path} as wc {flag} has it", path, counted.stdout.split()[0] + b"\n\n200", *chunked, given=text)
    client.expect("lines, the last without a line feed", "/lines", b"2\n\n200", "--data-binary", "one\ntwo")
    client.expect("words of an empty body", "/words", b"0\n\n200", "--data-binary", "")
    client.expect("lines of an empty body", "/lines", b"0\n\n200", "--data-binary", "")
    spaced = "a\u3000b\u2028c".encode()
    client.expect("words between white space of any kind", "/words", b"3\n\n200", *chunked, given=spaced)
    twice = ["--data-binary", "@-", f"http://{client.at}/words"]
    again, wrong = b"Re-using existing connection", b"a \xff b"
    client.expect("no UTF-8, twice on one connection", "/words", b"\n400\n400", *twice, given=wrong, seen=again)
    client.expect("a character that breaks off", "/lines", b"\n400", *chunked, given="aé".encode()[:-1])


def parts(client):
    chunked, whole = ["-T", "-", "-H", "Expect:"], ["--data-binary", "@-"]
    rows = io.StringIO()
    csv.writer(rows).writerows([f"é{i}", "a,b" * (i % 3), "two\nlines"][: 1 + i % 3] for i in range(50_000))
    text = rows.getvalue().encode()
    client.expect("records of one to three fields", "/records", b"50000\n\n200", *chunked, given=text)
    client.expect("records of no text", "/records", b"2\n\n200", *whole, given=b"\xff,1\r\n\"\n\",2")
    client.expect("records of an empty body", "/records", b"0\n\n200", "--data-binary", "")
    marked = b'\xef\xbb\xbf"a""\n",b\r\n\r\n,\n"'
    client.expect("records after a mark, the last one open", "/records", b"3\n\n200", *whole, given=marked)
    client.expect("a record of 16 MiB of commas", "/records", b"1\n\n200", *chunked, given=b"," * (16 << 20))
    head = "GET /a?b=é HTTP/1.1\r\nHost: h\r\n\r\nGET /other".encode()
    client.expect("the target of a head", "/target", "/a?b=é\n200".encode(), *whole, given=head)
    client.expect("a head that breaks off", "/target", b"\n400", *whole, given=head[:30])


def heads(client):
    def expect(what, head, wanted, path="/head"):
        client.expect(what, path, wanted, "-H", "Expect:", "--data-binary", "@-", given=head)

    head = b"POST /a?b=c HTTP/1.1\r\nHost: h\r\nAccept:*/*\r\nhost:  two words \t\r\nEmpty:\r\n\r\nbody: \xff"
    shown = b"POST\n/a?b=c\nHost: h\nAccept: */*\nhost: two words\nEmpty: \n\n200"
    expect("a head of several fields, and bytes after it", head, shown)
    expect("a value beyond ASCII", "GET /é HTTP/1.0\nName: ä ö\n\n".encode(), "GET\n/é\nName: ä ö\n\n200".encode())
    expect("a head without fields", b"\r\nGET / HTTP/1.1\r\n\r\n", b"GET\n/\n\n200")
    cut = {client.curl("/head", "--data-binary", "@-", given=head[:at])[0] for at in range(head.index(b"body"))}
    client.judge("a head that breaks off anywhere", cut == {b"\n400"})
    lines = [f"F{i}: {i}" for i in range(65)]
    most, more = ("\r\n".join(["PUT * HTTP/1.1", *it, "", ""]).encode() for it in (lines[:64], lines))
    expect("the most fields", most, "\n".join(["PUT", "*", *lines[:64], "", "200"]).encode())
    expect("one field more", more, b"\n400")
    for path in "/head", "/target":
        expect(f"{path}, a value that isn't UTF-8", b"GET / HTTP/1.1\r\nName: \xff\r\n\r\n", b"\n400", path)
        expect(f"{path}, no head", b"GET/ HTTP/1.1\r\n\r\n", b"\n400", path)


def connections(client):
    host, _, port = client.at.rpartition(":")
    with socket.create_connection((host, int(port)), 60) as cut:
        cut.sendall(b"POST /echo HTTP/1.1\r\nHost: h\r\nContent-Length: 1000\r\n\r\nfirst bytes")
    client.expect("a request after one that was cut", "/echo", b"next\n200", "--data-binary", "next")
    given = {f"answer{i}": os.urandom(100_000) for i in range(64)}
    asking = [client.curl("/echo", "--data-binary", "@-", "-H", "Expect:", "-o", it, given=None) for it in given]
    for it, text in zip(asking, given.values()):
        it.stdin.write(text)
        it.stdin.close()
    said = [(it.stdout.read(), it.wait()) for it in asking]
    same = all(open(f"{client.room}/{it}", "rb").read() == text for it, text in given.items())
    client.judge("64 connections at once", same and said == 64 * [(b"\n200", 0)])


def early(client):
    """Requests that are refused by their heads, before any byte of their bodies is sent, and one that isn't."""
    host, _, port = client.at.rpartition(":")
    for what, path, fields, status in (
        ("another path", "/other", "Content-Length: 1000", 404),
        ("a stated length beyond the limit", "/echo", f"Content-Length: {LIMIT + 1}", 413),
        ("a body that waits to be asked for", "/echo", f"Content-Length: {2**64 - 1}\r\nExpect: 100-continue", 413),
        ("a coding before chunked", "/echo", "Transfer-Encoding: gzip, chunked", 501),
        ("codings in two fields", "/echo", "Transfer-Encoding: gzip\r\ntransfer-encoding: chunked", 501),
    ):
        with socket.create_connection((host, int(port)), 60) as it:
            it.sendall(f"POST {path} HTTP/1.1\r\nHost: h\r\n{fields}\r\n\r\n".encode())
            response = it.recv(1 << 16)
        client.judge(f"{what}: {status} before its body", response.startswith(b"HTTP/1.1 %d " % status))
    with socket.create_connection((host, int(port)), 60) as it:
        it.sendall(b"POST /echo HTTP/1.1\r\nHost: h\r\nTransfer-Encoding: CHUNKED\r\n\r\n3\r\nabc\r\n0\r\n\r\n")
        client.judge("chunked in capitals", it.recv(1 << 16).startswith(b"HTTP/1.1 200 "))


def half_closed(client):
    """Clients that end their side before they have the response get all of it."""
    host, _, port = client.at.rpartition(":")
    body, whole = os.urandom(10_000_000), 0
    for _ in range(30):
        with socket.create_connection((host, int(port)), 60) as it:
            it.sendall(b"POST /echo HTTP/1.1\r\nHost: h\r\nContent-Length: %d\r\n\r\n" % len(body) + body)
            it.shutdown(socket.SHUT_WR)
            whole += b"".join(iter(lambda: it.recv(1 << 20), b"")).endswith(b"\r\n\r\n" + body)
    client.judge(f"{whole} of 30 responses of 10 MB to half-closed connections whole", whole == 30)

    def ended(_):
        with socket.create_connection((host, int(port)), 10) as it:
            it.sendall(b"POST /echo HTTP/1.1\r\nHost: h\r\nContent-Length: 5\r\n\r\nshort")
            it.shutdown(socket.SHUT_WR)
            return b"".join(iter(lambda: it.recv(1 << 16), b"")).endswith(b"\r\n\r\nshort")

    with ThreadPoolExecutor(50) as pool:
        whole = sum(pool.map(ended, range(500)))
    client.judge(f"{whole} of 500 that end at once whole, and ended within 10 s", whole == 500)


def crowd(client):
    """Requests beside connections that are idle, slow or never read."""
    host, _, port = client.at.rpartition(":")
    request = b"POST /echo HTTP/1.1\r\nHost: h\r\nConnection: close\r\nContent-Length: %d\r\n\r\n%s"

    def called():
        return socket.create_connection((host, int(port)), 60)

    def read(it):
        return b"".join(iter(lambda: it.recv(1 << 16), b""))

    def took(_):
        began = time.monotonic()
        with called() as it:
            it.sendall(request % (4, b"fast"))
            return time.monotonic() - began if read(it).endswith(b"\r\n\r\nfast") else 60

    with contextlib.ExitStack() as stack, ThreadPoolExecutor(50) as pool:
        _idle, slow, deaf = ([stack.enter_context(called()) for _ in range(count)] for count in (50, 10, 5))
        for it in deaf:
            it.sendall(request % (8 << 20, bytes(8 << 20)))
        for it in slow:
            it.sendall(request % (100, b"a"))
        most = max(pool.map(took, range(135)))
        beside = "65 connections that are idle, slow or never read"
        client.judge(f"135 requests beside {beside}: {most:.2f} s, within 2", most < 2)
        for it in slow:
            it.sendall(b"a" * 99)
        client.judge("then the slow ones too", all(read(it).endswith(b"\r\n\r\n" + b"a" * 100) for it in slow))


def descriptors(client, service):
    """Without a free file descriptor the service waits, and goes on once there is one."""
    host, _, port = client.at.rpartition(":")
    soft, hard = resource.prlimit(service.pid, resource.RLIMIT_NOFILE)
    resource.prlimit(service.pid, resource.RLIMIT_NOFILE, (20, hard))
    with contextlib.ExitStack() as stack:
        for _ in range(50):
            stack.enter_context(socket.create_connection((host, int(port)), 60))
        began = processor_time(service.pid)
        time.sleep(1)
        client.judge("no free file descriptor: the service waits", processor_time(service.pid) - began < 0.5)
        held = len(os.listdir(f"/proc/{service.pid}/fd"))
        client.judge(f"50 callers and {held} descriptors of 20", held == 20)
    client.expect("a request once there is one", "/echo", b"next\n200", "--data-binary", "next")
    resource.prlimit(service.pid, resource.RLIMIT_NOFILE, (soft, hard))


def drips(client, service):
    """Bodies in small pieces, each sent alone, and the most memory held so far."""
    host, _, port = client.at.rpartition(":")
    one, link = b"a" * 100_000, os.urandom(1_448) * 20_000
    length = b"Content-Length: %d\r\n\r\n"
    chunked, chunks = b"Transfer-Encoding: chunked\r\n\r\n", [b"1\r\na\r\n"] * len(one) + [b"0\r\n\r\n"]
    for what, head, pieces, body, most in (
        ("single bytes", length % len(one), [b"a"] * len(one), one, 16 << 20),
        ("chunks of one byte", chunked, chunks, one, 16 << 20),
        ("1,448 bytes", length % len(link), [link[:1_448]] * 20_000, link, 128 << 20),
    ):
        with socket.create_connection((host, int(port)), 60) as it:
            it.setsockopt(socket.IPPROTO_TCP, socket.TCP_NODELAY, 1)
            it.sendall(b"POST /echo HTTP/1.1\r\nHost: h\r\nConnection: close\r\n" + head)
            for piece in pieces:
                it.sendall(piece)
            response = b"".join(iter(lambda: it.recv(1 << 20), b""))
        client.judge(f"a body in {what}", response.endswith(b"\r\n\r\n" + body))
        memory(client, service, most)


def resident(service, which):
    """How many bytes are resident now, `VmRSS`, or were at most, `VmHWM`."""
    return int(re.search(rf"{which}:\s+(\d+) kB", open(f"/proc/{service.pid}/status").read())[1]) << 10


def memory(client, service, most):
    held = resident(service, "VmHWM")
    client.judge(f"resident memory of {held >> 20} MiB, within {most >> 20}", held <= most)


def given_back(judge, room, _, service):
    """Bodies over the bound, and what stays of them once they have left, if large blocks are mapped alone."""
    most, long = 200_000_000, POST % (10_000_000, bytes(9_999_999))
    command = ["env", "MALLOC_MMAP_THRESHOLD_=131072", service.args[0], f"held={most}"]
    with started(command) as (running, at):
        client = Client(judge, room, at)
        with contextlib.ExitStack() as stack:
            for line in [stack.enter_context(called(client)) for _ in range(40)]:
                with contextlib.suppress(OSError):
                    line.sendall(long)
            is_held = lambda: figures(client)["service_held_bytes"] > most - 10_000_000
            judge("40 bodies of 10 MB, of which all that may be held is", is_soon(is_held))
            memory(client, running, most + (64 << 20))
        is_back = lambda: figures(client)["service_connections"] == 1 and resident(running, "VmRSS") < 48 << 20
        judge("less than 48 MiB stay once they have left", is_soon(is_back))


def figures(client):
    """The service's figures, by their names."""
    page = client.curl("/metrics", "-X", "GET")[0].decode()
    return {name: int(number) for name, number in re.findall(r"^(service_\S+) (\d+)$", page, re.M)}


def operator(client):
    """The pages for the operator."""
    client.expect("the service runs", "/health", b"ok\n\n200", "-X", "GET")
    client.expect("that page by POST", "/health", b"\n404", "--data-binary", "")
    page, said = client.curl("/metrics", "-X", "GET")
    is_form = b"content-type: text/plain; version=0.0.4" in said.lower()
    lines = page.removesuffix(b"\n200").splitlines()
    client.judge("figures in Prometheus' form", is_form and lines and all(map(LINE.fullmatch, lines)))
    before = figures(client)
    longest = bytes(LIMIT + 1)
    for path, given in ("/echo", b"1"), ("/lines", b"2"), ("/words", b"\xff"), ("/other", b""), ("/echo", longest):
        client.curl(path, "-T", "-", "-H", "Expect:", given=given)
    with called(client) as it:
        it.sendall(b"POST /echo HTTP/1.1\r\nHost: h\r\nTransfer-Encoding: gzip, chunked\r\n\r\n")
        it.recv(100)
    after = figures(client)
    # the figures were asked for twice, and the first of these responses isn't among the first figures
    wanted = {"200": 3, "400": 1, "404": 1, "408": 0, "413": 1, "501": 1, "503": 0}
    grown = {it: after[name] - before[name] for it in wanted for name in [f'service_responses_total{{status="{it}"}}']}
    opened = after["service_connections_total"] - before["service_connections_total"]
    client.judge(f"{opened} connections and responses by status {grown}", opened == 7 and grown == wanted)
    held = lambda: (figures(client)["service_held_bytes"], figures(client)["service_connections"])
    with called(client) as one, called(client) as two:
        one.sendall(HALF)
        two.sendall(HALF)
        client.judge("16,000 bytes held over two connections", is_soon(lambda: held() == (16_000, 3)))
    client.judge("they are given back", is_soon(lambda: held() == (0, 1)))


def called(client):
    host, _, port = client.at.rpartition(":")
    return socket.create_connection((host, int(port)), 10)


def bounded(judge, room, at, service):
    """The bounds that the operator sets."""
    client, chunked = Client(judge, room, at), ["-T", "-", "-H", "Expect:"]
    judge("it prints its bounds", service.stdout.readline().startswith("held=1000000 head=1 body=30 answer=30 connections=20 "))
    refused = subprocess.run([service.args[0], "other=1"], capture_output=True, timeout=10)
    judge("a bound that there isn't", refused.returncode == 1 and b"no bound is named other" in refused.stderr)
    most = bytes(1_000_000)
    client.expect("as many bytes as may be held", "/echo", most + b"\n200", *chunked, given=most)
    client.expect("one byte more", "/echo", b"\n503", *chunked, given=most + b"1")
    with contextlib.ExitStack() as stack:
        lines = [stack.enter_context(called(client)) for _ in range(19)]
        for it in lines:
            it.sendall(POST % (100_000, bytes(50_000)))
        judge("950,000 bytes of 19 bodies", is_soon(lambda: figures(client)["service_held_bytes"] == 950_000))
        client.expect("a body for which there is room", "/words", b"0\n\n200", *chunked, given=b" " * 50_000)
        client.expect("a body for which there isn't", "/words", b"\n503", *chunked, given=b" " * 50_001)
        last, more = (stack.enter_context(called(client)) for _ in range(2))
        last.sendall(HALF)
        time.sleep(0.2)
        more.sendall(ONE)
        more.settimeout(0.5)
        with contextlib.suppress(TimeoutError):
            judge(f"one connection more is served: {more.recv(100)}", False)
        last.close()
        more.settimeout(10)
        judge("one connection more waits for the end of another", more.recv(1 << 16).endswith(b"one"))
    began = time.monotonic()
    with called(client) as it:
        closed = it.recv(100)
    took = time.monotonic() - began
    judge(f"without a head the connection ends after {took:.1f} s: {closed}", 0.9 < took < 3)
    client.expect("all bytes may be held again", "/echo", most + b"\n200", *chunked, given=most)


def late(judge, room, at, service):
    """Bodies that come too slowly, and a response that isn't read."""
    client = Client(judge, room, at)
    head, piece = b"POST /echo HTTP/1.1\r\nHost: h\r\nContent-Length: %d\r\n\r\n", bytes(1 << 14)
    for what, length, sent, pause, status in (
        ("bytes that come too slowly", 100, [b"a"] * 15, 0.1, b"408"),
        ("pieces that come in time", 5 << 14, [piece] * 5, 0.5, b"200"),
    ):
        with called(client) as it:
            it.sendall(head % length)
            for one in sent:
                if select.select([it], [], [], pause)[0]:
                    break
                it.sendall(one)
            response = it.recv(100)
        judge(f"{what}: {response[9:12]}", response[9:12] == status)
    with called(client) as it:
        it.sendall(POST % (len(LONG), LONG))
        judge("a response that isn't read", is_soon(lambda: figures(client)["service_connections"] == 1))
    seen = figures(client)
    judge("what a timer closed is counted", (seen["service_timeouts_total"], seen["service_held_bytes"]) == (2, 0))


def ask(judge, room, at, service):
    """Asks the service at an address, with files of the asker's in a folder."""
    client = Client(judge, room, at)
    drips(client, service)
    parts(client)
    memory(client, service, BESIDE)
    for part in operator, echoes, early, counts, heads, connections, half_closed, crowd:
        part(client)
    descriptors(client, service)
    memory(client, service, LIMIT + BESIDE)


# a request, of which the response ends with its last bytes, and half of another one
POST = b"POST /echo HTTP/1.1\r\nHost: h\r\nContent-Length: %d\r\n\r\n%s"
ONE, HALF = POST % (3, b"one"), POST % (16_000, b"a" * 8_000)
LONG = os.urandom(1 << 20) * 20
PAGE = b"GET /metrics HTTP/1.1\r\nHost: h\r\nConnection: close\r\n\r\n"

# of each run: the program's arguments, the function that asks it, and maybe a request and the end of its reply, half
# of a request, a long one and the end of its reply, and one for the figures with the name of that of dropped lines
RUNS = [
    ([], ask, ONE, b"\r\n\r\none", HALF, POST % (len(LONG), LONG), LONG, PAGE, b"\nservice_log_dropped_total "),
    (["held=1000000", "connections=20", "head=1"], bounded),
    (["body=1", "answer=1"], late),
    ([], given_back),
]
