"""Who comes over TCP; the page and its data (HTTP/1.1, RFC 9112), all of it read only: no request changes anything."""

import asyncio
import json
import pathlib
import socket

MOST, BUFFER = 32, 16384                # guests at a time; bytes that the system holds for one who doesn't read
PATIENCE, SLOW = 10, 30                 # seconds for a request, and that a reader may take nothing
HEAD = ("HTTP/1.1 {}\r\nContent-Type: {}\r\nCache-Control: no-store\r\nX-Content-Type-Options: nosniff\r\nConnection: close\r\n"
        "Content-Security-Policy: default-src 'none'; style-src 'unsafe-inline'; script-src 'unsafe-inline'; connect-src 'self'; "
        "img-src data:\r\n\r\n")


async def open_to(address, settings, serve, say):
    """A server. `serve` is done for each guest; who reads nothing more then is let go after some seconds."""
    here = set()

    async def come(reader, writer):
        """One, from his coming to his going."""
        peer = writer.get_extra_info("peername")
        here.add(writer)
        try:
            writer.get_extra_info("socket").setsockopt(socket.SOL_SOCKET, socket.SO_SNDBUF, BUFFER)
            if not settings.may_come(peer):
                say(f"{peer and peer[0]} isn't let in at {address[1]} (hub.allow)")
            elif len(here) <= MOST:
                await serve(reader, writer)
            writer.close()
            async with asyncio.timeout(10):
                await writer.wait_closed()
        except* (OSError, EOFError, asyncio.LimitOverrunError, asyncio.CancelledError):
            pass
        finally:
            writer.transport.abort()
            here.discard(writer)

    return await asyncio.start_server(come, *address, limit=8192)


class Web:
    """What is answered, of what the board shows."""

    def __init__(self, board):
        self.board = board
        page = pathlib.Path(__file__).with_name("page.html").read_text(encoding="utf-8")
        self.pages = {"/": ("text/html; charset=utf-8", lambda: page), "/events": ("text/event-stream", str),
                      "/status.json": ("application/json", lambda: json.dumps(board.parts()) + "\n"),
                      "/metrics": ("text/plain; version=0.0.4", board.metrics)}

    async def serve(self, reader, writer):
        """One request, by its method and its path."""
        async with asyncio.timeout(PATIENCE):
            head = await reader.readuntil(b"\r\n\r\n")
        method, path = [*head.decode("latin-1").split("\r\n")[0].split(" "), ""][:2]
        kind, body = self.pages.get(path.partition("?")[0], ("text/plain", lambda: "There is /, /status.json and /metrics.\n"))
        status = "404 Not Found" if kind == "text/plain" else "200 OK"
        if method not in ("GET", "HEAD"):
            status, kind, body = "405 Method Not Allowed\r\nAllow: GET, HEAD", "text/plain", lambda: "This page is read only.\n"
        await self.write(writer, HEAD.format(status, kind) + body() * (method != "HEAD"))
        if kind == "text/event-stream" and method == "GET":
            await self.stream(writer)

    async def stream(self, writer):
        """Server-sent events: what has changed since the last one, each second. Who is slow gets fewer of them."""
        sent = {}
        while True:
            parts = {name: json.dumps(part) for name, part in self.board.parts().items()}
            changed = ",".join(f'"{name}":{text}' for name, text in parts.items() if sent.get(name) != text)
            await self.write(writer, f"data: {{{changed}}}\n\n")
            sent = parts
            await asyncio.sleep(1)

    async def write(self, writer, text):
        """As he takes it."""
        writer.write(text.encode())
        async with asyncio.timeout(SLOW):
            await writer.drain()
