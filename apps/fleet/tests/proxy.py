#!/usr/bin/python3
"""A bad link to a store: proxy.py LISTEN TARGET [CHANCE]

Of the answers of the store, a share of CHANCE is swallowed, whole or in part, and the connection is cut. SIGUSR1: all connections
that are there say nothing any more, in either direction, and stay open; new ones work. SIGUSR2: nobody gets through, and who
tries waits; again SIGUSR2: as before. For each signal that was taken, a line is written.
"""
import asyncio
import contextlib
import random
import signal
import sys


class Link:
    def __init__(self, target, share):
        self.target, self.share, self.chance = target, share, random.Random(7)
        self.is_open = asyncio.Event()
        self.is_open.set()
        self.holes = set()  # connections that say nothing any more
        self.all = set()

    def make_holes(self):
        self.holes |= self.all

    def toggle(self):
        self.is_open.clear() if self.is_open.is_set() else self.is_open.set()

    async def connect(self, reader, writer):
        try:
            there, back = await asyncio.open_unix_connection(self.target)
        except OSError:
            writer.close()
            return
        me = object()
        self.all.add(me)
        ways = [
            asyncio.ensure_future(self.pipe(me, reader, back, 0)),
            asyncio.ensure_future(self.pipe(me, there, writer, self.share)),
        ]
        await asyncio.wait(ways, return_when=asyncio.FIRST_COMPLETED)
        for way in ways:
            way.cancel()
        writer.close()
        back.close()
        self.all.discard(me)

    async def pipe(self, me, reader, writer, share):
        with contextlib.suppress(OSError):
            while data := await reader.read(65536):
                await self.is_open.wait()
                if me in self.holes:
                    continue
                is_cut = self.chance.random() < share
                writer.write(data[: self.chance.randrange(len(data))] if is_cut else data)
                await writer.drain()
                if is_cut:
                    return


async def main():
    listen, target = sys.argv[1:3]
    link = Link(target, float(sys.argv[3]) if len(sys.argv) > 3 else 0.0)
    loop = asyncio.get_running_loop()
    for number, work in (signal.SIGUSR1, link.make_holes), (signal.SIGUSR2, link.toggle):
        loop.add_signal_handler(number, lambda work=work: (work(), print(flush=True)))
    async with await asyncio.start_unix_server(link.connect, listen, backlog=1024) as server:
        await server.serve_forever()


if __name__ == "__main__":
    asyncio.run(main())
