"""Talks with the chat over sockets, and compares each reply with the right one."""
import contextlib, os, re, socket, struct, subprocess, time
from concurrent.futures import ThreadPoolExecutor

# how many bytes a line or a frame has at most, and what the chat may have held after all of this
MOST, HELD = 1 << 20, 64 << 20


class Caller:
    """Talks with the chat, and judges its replies."""

    def __init__(self, judge, at):
        host, _, port = at.rpartition(":")
        self.judge, self.at = judge, (host, int(port))

    @contextlib.contextmanager
    def called(self):
        with socket.create_connection(self.at, 60) as line:
            line.setsockopt(socket.IPPROTO_TCP, socket.TCP_NODELAY, 1)
            yield line

    def reply(self, *pieces, pause=0.002):
        """What comes back until the chat ends the connection, after these pieces and then the end of the input."""
        got = []
        with self.called() as line, contextlib.suppress(ConnectionError):
            for piece in pieces:
                line.sendall(piece)
                time.sleep(pause)
            with contextlib.suppress(OSError):  # the chat may have ended the connection
                line.shutdown(socket.SHUT_WR)
            got += iter(lambda: line.recv(1 << 16), b"")
        return b"".join(got)

    def reply_to_each(self, said):
        """The reply to each of these, which is said once the reply to the one before has come."""
        with self.called() as line, line.makefile("rb") as replies, contextlib.suppress(ConnectionError):
            for it in said:
                line.sendall(it)
                yield replies.readline()

    def expect_wherever_cut(self, what, sent, wanted):
        """The same replies, wherever what is sent is cut in two, and also if it comes byte by byte."""
        cut = all(self.reply(sent[:at], sent[at:]) == wanted for at in range(1, len(sent)))
        single = self.reply(*(sent[at : at + 1] for at in range(len(sent)))) == wanted
        self.judge(what, cut and single)


def crowd(caller, said, wanted):
    """Many callers at once: those that speak wait for none of the others."""
    with contextlib.ExitStack() as stack, ThreadPoolExecutor(50) as pool:
        callers = [stack.enter_context(caller.called()) for _ in range(50)]
        for it in callers[:30]:
            it.sendall(said[:-1] * 2)
        for it in callers[20:30]:  # these vanish with a reset
            it.setsockopt(socket.SOL_SOCKET, socket.SO_LINGER, struct.pack("ii", 1, 0))
            it.close()
        for it in callers[30:35]:  # these never read
            it.settimeout(0.5)
            with contextlib.suppress(TimeoutError):
                it.sendall(said * 4_000_000)

        def took(_):
            began = time.monotonic()
            return time.monotonic() - began if caller.reply(said) == wanted else 60

        most = max(pool.map(took, range(50)))
    caller.judge(f"100 callers, of which half are silent, vanish or never read: {most:.2f} s, within 2", most < 2)


def of_many_lengths(caller, end):
    """Lines or frames of many lengths, so that a round number of bytes is held when each ends."""
    sizes = [it - len(end) for it in range(10_000, MOST, 10_000)]
    wanted = [b"%d\n" % it for it in sizes]
    is_well = [*caller.reply_to_each(bytes(it) + end for it in sizes)] == wanted
    caller.judge(f"{len(sizes)} of up to {sizes[-1]:,} bytes, each after the reply to the one before", is_well)


def memory(caller, chat, sent):
    """What comes in many small reads isn't held in a block for each."""
    caller.reply(*(sent[at : at + 1] for at in range(len(sent))), pause=0)
    held = int(re.search(r"VmHWM:\s+(\d+) kB", open(f"/proc/{chat.pid}/status").read())[1]) << 10
    caller.judge(f"resident memory of {held >> 20} MiB, within {HELD >> 20}", held <= HELD)


def lines(judge, room, at, chat):
    refused = subprocess.run([chat.args[0], "separator="], capture_output=True, timeout=10)
    judge("an empty separator", refused.returncode != 0 and b"the separator is empty" in refused.stderr)
    caller = Caller(judge, at)
    with caller.called() as line:
        replies = []
        for said in "héllo\n", "\r\n", "a b\r\n":
            line.sendall(said.encode())
            replies.append(line.recv(100))
    caller.judge("each line gets its reply before the next", replies == [b"5\n", b"0\n", b"3\n"])
    caller.expect_wherever_cut("lines cut anywhere", "héllo\r\n\r\r\nβ\n\nlast".encode(), b"5\n1\n1\n0\n")
    many = "".join("é" * (i % 50) + "\n" for i in range(20_000)).encode()
    caller.judge("20,000 lines at once", caller.reply(many) == "".join(f"{i % 50}\n" for i in range(20_000)).encode())
    caller.judge("a line that isn't UTF-8 ends the chat", caller.reply(b"one\n\xff\nthree\n") in (b"3\n", b""))
    with caller.called() as cut:
        cut.sendall(b"half of a")
    caller.judge("a chat after one that broke off", caller.reply(b"next\n") == b"4\n")
    caller.judge("a line of a MiB", caller.reply(bytes(MOST) + b"\n") == b"%d\n" % MOST)
    caller.judge("a line of one byte more", caller.reply(b"one\n", bytes(MOST + 1) + b"\n") in (b"3\n", b""))
    caller.judge("a line of 64 MiB", caller.reply(b"one\n", bytes(64 * MOST)) in (b"3\n", b""))
    of_many_lengths(caller, b"\n")
    crowd(caller, b"four\n", b"4\n")
    memory(caller, chat, bytes(100_000) + b"\n")


def frames(judge, room, at, chat):
    caller = Caller(judge, at)
    sent, wanted = b"one;;;;two;\xff;;th;ree;;;rest", b"3\n0\n5\n6\n"
    caller.expect_wherever_cut("frames cut anywhere", sent, wanted)
    big = [os.urandom(size).replace(b";", b",") for size in (1, 70_000, 0, 300_000, 1_000_000)]
    lengths = "".join(f"{len(it)}\n" for it in big).encode()
    caller.judge("long frames", caller.reply(*(it + b";;" for it in big)) == lengths)
    caller.judge("a frame of a MiB", caller.reply(bytes(MOST) + b";;") == b"%d\n" % MOST)
    caller.judge("a frame of one byte more", caller.reply(b"one;;", bytes(MOST + 1) + b";;") in (b"3\n", b""))
    many = b";;".join(b"a" * (i % 50) for i in range(20_000)) + b";;"
    caller.judge("20,000 frames at once", caller.reply(many) == "".join(f"{i % 50}\n" for i in range(20_000)).encode())
    of_many_lengths(caller, b";;")
    crowd(caller, b"four;;", b"4\n")
    memory(caller, chat, bytes(100_000) + b";;")


def silent(judge, room, at, chat):
    """The bounds that the operator sets."""
    caller = Caller(judge, at)
    judge("it prints its bounds", chat.stdout.readline() == "silence=1 connections=2 peer=1000 finish=10\n")
    began = time.monotonic()
    with caller.called() as one, caller.called() as two:
        two.settimeout(0.5)
        with contextlib.suppress(TimeoutError):
            two.sendall(b"\n" * 20_000_000)
        with caller.called() as three:
            three.sendall(b"four\n")
            is_served = three.recv(100) == b"4\n"
            took = time.monotonic() - began
        judge(f"a third one waits {took:.1f} s for the end of a silent one", is_served and 0.9 < took < 3)
        judge("the silent one is left", one.recv(100) == b"")
        time.sleep(1)
        two.settimeout(5)
        with contextlib.suppress(ConnectionError):
            while two.recv(1 << 20):
                pass
    judge("so is one that doesn't read", time.monotonic() - began < 8)


HALF = b"a" * 8_000

# of each run: the program's arguments, the function that asks it, and maybe a request and the end of its reply, half
# of a request, and a long one and its replies
RUNS = [
    ([], lines, b"one\n", b"3\n", HALF, b"\n" * 50_000, b"0\n" * 50_000),
    (["separator=;;"], frames, b"one;;", b"3\n", HALF, b";;" * 50_000, b"0\n" * 50_000),
    (["connections=2", "silence=1"], silent),
]
