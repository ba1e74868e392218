"""A relay before a Redis, with bad weather: of what machines send it drops some, and cuts the
connection; of some the answer never comes; some comes late; some is written twice."""
import asyncio
import random
import threading

# Shares of what a machine sends at once: dropped; done, and then cut; late; written twice; held back.
SHARES = {"drop": 0.004, "cut": 0.004, "late": 0.02, "twice": 0.05, "hold": 0.0005}
LATE = 0.02  # seconds, at most


class Proxy:
    """Listens at a socket, in a thread of its own. `is_shut`: it takes no connection, and has none;
    `holds_writes`: no answer to a write comes any more, on the connections that are there."""

    def __init__(self, path, behind, seed=None):
        self.path, self.behind = path, behind
        self.draws = random.Random(seed) if seed is not None else None
        self.is_shut = self.holds_writes = False
        self.counts, self.open = dict.fromkeys(SHARES, 0), set()
        self.loop, ready = asyncio.new_event_loop(), threading.Event()
        threading.Thread(target=self.run, args=(ready,), daemon=True).start()
        ready.wait()

    def run(self, ready):
        asyncio.set_event_loop(self.loop)
        self.loop.run_until_complete(asyncio.start_unix_server(self.serve, self.path))
        ready.set()
        self.loop.run_forever()

    def close(self):
        self.shut()

    def shut(self, is_shut=True):
        """Cuts all connections, and takes none, until it is opened again."""
        self.is_shut = is_shut
        self.loop.call_soon_threadsafe(self.cut_all)

    def cut_all(self):
        for writer in list(self.open):
            writer.close()

    async def serve(self, reader, writer):
        if self.is_shut:
            writer.close()
            return
        try:
            from_redis, to_redis = await asyncio.open_unix_connection(self.behind)
        except OSError:
            writer.close()
            return
        self.open |= {writer, to_redis}
        fate = []
        back = asyncio.ensure_future(self.answer(from_redis, writer, fate))
        try:
            while sent := await reader.read(1 << 16):
                await self.pass_on(sent, to_redis, fate)
        except (OSError, EOFError):
            pass
        if fate != ["hold"]:
            back.cancel()
        for it in (writer, to_redis):
            it.close()
        self.open -= {writer, to_redis}

    async def pass_on(self, sent, to_redis, fate):
        drawn = self.drawn(sent)
        if drawn:
            self.counts[drawn] += 1
        if drawn == "drop":
            raise EOFError
        if drawn == "late":
            await asyncio.sleep(self.draws.random() * LATE)
        if drawn in ("cut", "hold"):
            fate.append(drawn)
        if drawn == "twice":
            _, again = await asyncio.open_unix_connection(self.behind)
            again.write(sent)
            await again.drain()
            again.close()
        to_redis.write(sent)
        await to_redis.drain()

    def drawn(self, sent):
        is_write = b"XADD" in sent
        if self.holds_writes and is_write:
            return "hold"
        if not self.draws:
            return None
        at = self.draws.random()
        for name, share in SHARES.items():
            if at < share:
                return name if name != "twice" or is_write and b"MULTI" not in sent else None
            at -= share
        return None

    async def answer(self, from_redis, writer, fate):
        try:
            while got := await from_redis.read(1 << 16):
                if "cut" in fate:
                    break
                if "hold" not in fate:
                    writer.write(got)
                    await writer.drain()
        except OSError:
            pass
        writer.close()
