#!/usr/bin/env python3
"""Passes TCP connections on, as a node's port on another machine wants it: nodes listen on their own machine alone.

    python3 examples/forward.py [HOST:]PORT=HOST:PORT ..

Each pair is where to listen (127.0.0.1 if no host is given) and where to connect for each connection that comes. What
passes is authenticated by the nodes, and not encrypted: let it pass through a private network or a tunnel.
"""
import asyncio
import sys


async def pump(reader, writer):
    """Passes bytes on in one direction, to their end."""
    try:
        while data := await reader.read(65_536):
            writer.write(data)
            await writer.drain()
    except OSError:
        pass
    finally:
        writer.close()


def passer(host, port):
    """What is done with a connection that comes."""

    async def pass_on(reader, writer):
        try:
            there, back = await asyncio.wait_for(asyncio.open_connection(host, port), 5)
        except (OSError, asyncio.TimeoutError):
            writer.close()
            return
        await asyncio.gather(pump(reader, back), pump(there, writer))

    return pass_on


def address(text):
    """The host and the port of a text."""
    host, _, port = text.rpartition(":")
    return host or "127.0.0.1", int(port)


async def serve(pairs):
    servers = [await asyncio.start_server(passer(*target), *source) for source, target in pairs]
    print("forwarding", flush=True)
    await asyncio.gather(*(server.serve_forever() for server in servers))


def main():
    try:
        pairs = [tuple(address(side) for side in pair.split("=")) for pair in sys.argv[1:]]
        (_, _), *_ = pairs
    except ValueError:
        sys.exit(__doc__)
    asyncio.run(serve(pairs))


if __name__ == "__main__":
    try:
        main()
    except KeyboardInterrupt:
        pass
