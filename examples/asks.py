"""What is asked of each program of examples/, beside what its own ask.py asks: where memory is refused, where a peer
has too many connections, where its listener is lost, at the end of its input, and where nobody reads its log."""
import contextlib, ctypes, os, re, resource, socket, struct, subprocess, tempfile, time

# how many bytes a program may take beyond those of its start where memory is refused, and by how many clients at most
ROOM, MOST_CALLERS = 8 << 20, 3_000
# how many eighths of half a request the clients of each crowd say
CROWDS = 8, 4, 7, 1, 8
# the system's call for a descriptor of another process
PIDFD_GETFD = 438
# a line of the log
LINE = re.compile(rb"error (\d+), (\d+) since the last line: ([^\n]*)\n")


def processor_time(pid):
    """How many seconds of processor time a process has taken."""
    ticks = open(f"/proc/{pid}/stat").read().rpartition(")")[2].split()[11:13]
    return sum(map(int, ticks)) / os.sysconf("SC_CLK_TCK")


@contextlib.contextmanager
def started(command, log=None, given=None):
    """A program that is running, and its address. It prints errors to the log."""
    with subprocess.Popen(command, stdin=given, stdout=subprocess.PIPE, stderr=log, text=True) as running:
        try:
            yield running, running.stdout.readline().strip()
        finally:
            running.kill()


class Talk:
    """What is said to a program, and what it has to reply at the end."""

    def __init__(self, at, said, reply):
        host, _, port = at.rpartition(":")
        self.at, self.said, self.reply = (host, int(port)), said, reply

    def call(self, source=None):
        return socket.create_connection(self.at, 10, source)

    def is_served(self, line):
        with contextlib.suppress(OSError):
            line.sendall(self.said)
            return line.recv(1 << 16).endswith(self.reply)

    def is_new_served(self):
        with contextlib.suppress(OSError), self.call() as line:
            return self.is_served(line)


def is_soon(holds):
    """Whether something holds within ten seconds."""
    until = time.monotonic() + 10
    while not (held := holds()) and time.monotonic() < until:
        time.sleep(0.05)
    return held


def refused(judge, command, said, reply, half, *_):
    """Clients that say a part of a request, until memory is refused: the others are served. Crowd after crowd says
    another part, so that each takes other memory than what the one before has left."""
    many = [*command, f"connections={MOST_CALLERS}", f"peer={MOST_CALLERS}"]
    with tempfile.TemporaryFile() as log, started(many, log) as (running, at), contextlib.ExitStack() as callers:
        talk, size = Talk(at, said, reply), int(open(f"/proc/{running.pid}/statm").read().split()[0])
        old = callers.enter_context(talk.call())
        is_first = talk.is_served(old)
        most = size * resource.getpagesize() + ROOM
        resource.prlimit(running.pid, resource.RLIMIT_AS, (most, most))

        def refusals():
            lines = LINE.findall(os.pread(log.fileno(), 1 << 24, 0))
            return sum(int(count) for _, count, error in lines if error == b"not accepted: out of memory")

        for eighths in CROWDS:
            part, before = half[: len(half) * eighths // 8], refusals()
            with contextlib.ExitStack() as others:
                count = call_until(lambda: refusals() > before, talk, others, part)
                is_refused = is_soon(lambda: refusals() > before)
                judge(f"{count} silent clients of {len(part):,} bytes each, under {most >> 20} MiB", is_refused)
                began = processor_time(running.pid)
                time.sleep(0.5)
                judge("it takes little processor time then", processor_time(running.pid) - began < 0.1)
                judge("an old client is served", is_first and talk.is_served(old))
            judge("a new client is served once they have left", is_soon(talk.is_new_served))
        judge("the old one too", talk.is_served(old))
        judge("the program still runs, where memory was refused", running.poll() is None)


def call_until(holds, talk, callers, said):
    """Makes clients that say this and stay, until something holds or there are as many as may be, and counts them."""
    count = 0
    while count < MOST_CALLERS and not holds():
        line = callers.enter_context(talk.call())
        with contextlib.suppress(ConnectionError):
            line.sendall(said)
        count += 1
        time.sleep(0.001)
    return count


def crowded(judge, command, said, reply, *_):
    """A peer that has as many connections as it may have: a further one is closed at once, and others are served."""
    with tempfile.TemporaryFile() as log, started([*command, "peer=5"], log) as (_, at), contextlib.ExitStack() as five:
        talk, closed = Talk(at, said, reply), 0
        lines = [five.enter_context(talk.call()) for _ in range(5)]
        judge("five connections of a peer are served", all(map(talk.is_served, lines)))
        began = time.monotonic()
        for _ in range(20):
            with talk.call() as line:
                closed += line.recv(1) == b""
        with talk.call(("127.0.0.2", 0)) as line:
            is_served, took = talk.is_served(line), time.monotonic() - began
        is_well = closed == 20 and is_served and took < 1
        judge(f"{closed} of 20 more are closed, and another peer is served: {took:.2f} s, within 1", is_well)
        errors = [error for *_, error in LINE.findall(os.pread(log.fileno(), 1 << 16, 0))]
        judge(f"the log has {errors}", errors and {*errors} == {b"not accepted: connection refused"})
        lines[0].close()
        judge("once one of the five has ended, the next one is served", is_soon(talk.is_new_served))
        judge("the other four too", all(map(talk.is_served, lines[1:])))


def listener_of(pid):
    """The listening socket of a process, or nothing where the system doesn't hand over descriptors."""
    process = os.pidfd_open(pid)
    for descriptor in os.listdir(f"/proc/{pid}/fd"):
        if os.readlink(f"/proc/{pid}/fd/{descriptor}").startswith("socket:"):
            own = ctypes.CDLL(None).syscall(PIDFD_GETFD, process, int(descriptor), 0)
            if own >= 0 and (it := socket.socket(fileno=own)).getsockopt(socket.SOL_SOCKET, socket.SO_ACCEPTCONN):
                return it


def lost(judge, command, said, reply, *_):
    """Without its listener the program ends at once, though a client stays."""
    with tempfile.TemporaryFile() as log, started(command, log) as (running, at):
        talk, listener = Talk(at, said, reply), listener_of(running.pid)
        if not listener:
            return judge("its listener can't be shut down here, so that isn't tried", True)
        with talk.call() as line:
            is_first = talk.is_served(line)
            listener.shutdown(socket.SHUT_RDWR)
            is_ended = is_soon(lambda: running.poll() is not None)
            status, error = running.poll(), os.pread(log.fileno(), 1 << 16, 0)
            is_well = is_first and is_ended and status and error
            judge(f"without its listener it ends with status {status} and {error}", is_well)


def ended(judge, command, said, reply, half, long, whole, *_):
    """At the end of its input the program responds to what runs, takes nothing new, and ends well."""
    with started([*command, "end=stdin"], given=subprocess.PIPE) as (running, at):
        talk = Talk(at, said, reply)
        with talk.call() as slow, talk.call() as idle:
            is_first = talk.is_served(idle)
            slow.sendall(long)
            began = slow.recv(1)
            running.stdin.close()

            def is_closed():
                with contextlib.suppress(ConnectionError), talk.call():
                    return False
                return True

            judge("at the end of its input it takes no new client", is_first and is_soon(is_closed))
            judge("an idle one is left", idle.recv(1) == b"")
            response = began + b"".join(iter(lambda: slow.recv(1 << 20), b""))
            judge("a slow one gets its whole response", response.endswith(whole))
        judge("then it ends well", running.wait(10) == 0)
    with started([*command, "end=stdin", "finish=1"], given=subprocess.PIPE) as (running, at):
        with Talk(at, said, reply).call() as line:
            line.sendall(half)
            time.sleep(0.2)
            began = time.monotonic()
            running.stdin.close()
            status, took = running.wait(10), time.monotonic() - began
        judge(f"half of a request holds it up for {took:.1f} s, within 3", status == 0 and took < 3)
    nothing = subprocess.run([*command, "end=stdin"], stdin=subprocess.DEVNULL, timeout=10, capture_output=True)
    judge("without input it ends at once", nothing.returncode == 0)
    without = ["sh", "-c", 'exec "$@" <&-', "sh", *command, "end=stdin"]
    closed = subprocess.run(without, timeout=10, capture_output=True)
    judge("its input has to be open", closed.returncode == 1 and b"standard input isn't open" in closed.stderr)


def ask_once(line, page, figure):
    """What comes after the name of a figure on a page."""
    line.sendall(page)
    return b"".join(iter(lambda: line.recv(1 << 16), b"")).split(figure)[-1].split()[0]


def unread(judge, command, said, reply, half, long, whole, page=None, figure=b""):
    """Nobody reads its log, which is full: no client waits for that, and the next line reports all errors. A page
    may have the number of lines that were dropped."""
    reading, writing = os.pipe()
    os.set_blocking(writing, False)
    with contextlib.suppress(BlockingIOError):
        while True:
            os.write(writing, bytes(4_096))
    os.set_blocking(writing, True)
    with open(reading, "rb", 0) as log, started(command, writing) as (running, at):
        os.close(writing)
        talk = Talk(at, said, reply)

        def vanish():
            with talk.call() as line:
                line.sendall(half)
                line.setsockopt(socket.SOL_SOCKET, socket.SO_LINGER, struct.pack("ii", 1, 0))

        for _ in range(2_000):
            vanish()
        began = time.monotonic()
        with talk.call() as line:
            is_served = talk.is_served(line)
        took = time.monotonic() - began
        judge(f"a full log and 2,000 clients that vanish: {took:.2f} s for another, within 1", is_served and took < 1)
        if page:
            with talk.call() as line:
                dropped = ask_once(line, page, figure)
            judge(f"lines of the log that were dropped: {dropped}", int(dropped) > 0)
        log.read(1 << 16)
        os.set_blocking(reading, False)

        def lines():
            vanish()
            return LINE.findall(log.read(1 << 16) or b"")

        found = is_soon(lines)
        is_all = found and int(found[0][1]) > 1_000 and found[0][2].startswith(b"127.0.0.1:")
        judge(f"then the log has {found[:1]}", is_all)


def ask_all(judge, room, command, ask, *talk):
    """Starts a program for each of these, and judges its replies; the last ones only if there is something to say."""
    # each of the clients takes a descriptor
    soft, hard = resource.getrlimit(resource.RLIMIT_NOFILE)
    resource.setrlimit(resource.RLIMIT_NOFILE, (max(soft, min(hard, 2 * MOST_CALLERS)), hard))
    with started(command) as (running, at):
        ask(judge, room, at, running)
        judge("the program still runs", running.poll() is None)
    for ask_of_another in (refused, crowded, lost, ended, unread) if talk else ():
        ask_of_another(judge, command, *talk)
