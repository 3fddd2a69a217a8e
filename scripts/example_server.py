"""A server of numbered documents and of linked pages on this machine, for the programs of `examples/`. It tells how many connections were open at once.

    GET /N          document N
    GET /SITE/N     page N of a site, with links to further pages
    GET /flaky/N    an error for the first few requests, and then page N
    GET /late       no answer
    GET /in-hand    how many other requests it has in hand, once those that were closed a moment before are gone

A connection counts as open from the accept on, before its request is read, until either end closes it.
"""
import asyncio
import collections
import contextlib
import random
import select
import threading

# How long a request takes at least and at most, in seconds. By its number, so that each run is alike.
LEAST, MOST = 0.01, 0.04
# A request that is not whole by then is given up.
PATIENCE = 20
# How long the other end's closing of a connection may take to come here, in seconds.
SETTLING = 0.1
# How many pages a site has. Each links to three more, as long as there are any, and to the first.
PAGES = 100
# By site: pages that are refused, and pages that never come.
REFUSED = {"rotten": {17}}
LATE = {"rotten": {16, 18}, "stuck": {16, 17, 18}}
# A page N of this site is refused N % MOST_REFUSALS times before it comes.
FLAKY = "flaky"
MOST_REFUSALS = 5


def document(number):
    return b"%d\n" % number * (1 + number % 50)


def page(site, number):
    links = [0, *range(3 * number + 1, min(3 * number + 4, PAGES))]
    return "".join(f'<a href="/{site}/{link}">page {link}</a>\n' for link in links).encode()


def answer_to(path, times):
    """Status and body of the answer to a request that came so many times before, or nothing if none comes."""
    site, _, number = path.strip("/").rpartition("/")
    if number == "late" or int(number) in LATE.get(site, ()):
        return None
    if int(number) in REFUSED.get(site, ()) or (site == FLAKY and times < int(number) % MOST_REFUSALS):
        return "500 Internal Server Error", b""
    return "200 OK", page(site, int(number)) if site else document(int(number))


def send(writer, status, body):
    writer.write(b"HTTP/1.1 %s\r\ncontent-length: %d\r\nconnection: close\r\n\r\n%s" % (status.encode(), len(body), body))


class Server:
    """Answers each request after a delay, and closes the connection. It listens on a free port while its `with` block runs."""

    def __init__(self):
        self.in_hand = self.most_open = self.answered = self.given_up = 0
        self.connections = set()
        self.asked = collections.Counter()
        self.loop = asyncio.new_event_loop()
        self.thread = threading.Thread(target=self.loop.run_forever, daemon=True)

    def __enter__(self):
        self.thread.start()
        self.listening = self.wait_for(asyncio.start_server(self.serve, "127.0.0.1", 0, backlog=1024))
        self.port = self.listening.sockets[0].getsockname()[1]
        return self

    def __exit__(self, *_):
        self.wait_for(self.close())
        self.loop.call_soon_threadsafe(self.loop.stop)
        self.thread.join()
        self.loop.close()

    def wait_for(self, work):
        return asyncio.run_coroutine_threadsafe(work, self.loop).result(PATIENCE)

    async def close(self):
        self.listening.close()
        left = asyncio.all_tasks() - {asyncio.current_task()}
        for task in left:
            task.cancel()
        await asyncio.gather(*left, return_exceptions=True)

    async def serve(self, reader, writer):
        self.connections.add(writer)
        self.most_open = max(self.most_open, self.count_open())
        with contextlib.suppress(ConnectionError, asyncio.IncompleteReadError, asyncio.TimeoutError):
            await self.reply(reader, writer)
        self.connections.remove(writer)
        writer.close()

    def count_open(self):
        """How many connections are open. If the other end has closed one, it counts no more, though its task may not know that yet."""
        files = [writer.get_extra_info("socket").fileno() for writer in self.connections]
        closed = select.poll()
        for file in files:
            if file >= 0:
                closed.register(file, select.POLLRDHUP)
        return sum(file >= 0 for file in files) - len(closed.poll(0))

    async def reply(self, reader, writer):
        head = await asyncio.wait_for(reader.readuntil(b"\r\n\r\n"), PATIENCE)
        path = head.split()[1].decode()
        if path == "/in-hand":
            await asyncio.sleep(SETTLING)
            send(writer, "200 OK", b"%d" % self.in_hand)
        else:
            found = answer_to(path, self.asked[path])
            self.asked[path] += 1
            is_gone = await self.hold(reader, random.Random(path).uniform(LEAST, MOST) if found else PATIENCE)
            self.given_up += is_gone
            if found and not is_gone:
                send(writer, *found)
                self.answered += 1
        await writer.drain()

    async def hold(self, reader, seconds):
        """Has a request in hand so long, or until the other end closes the connection, and says whether it did."""
        self.in_hand += 1
        try:
            return not await asyncio.wait_for(reader.read(1), seconds)
        except asyncio.TimeoutError:
            return False
        finally:
            self.in_hand -= 1
