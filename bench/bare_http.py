#!/usr/bin/python3
"""What tornado takes by itself, for bench/gateway.py: bare_http.py PORT

Reads requests and answers each with the same 86 bytes, by the parts of tornado that the gateway uses, and nothing else.
"""
import asyncio
import socket
import sys

from tornado.http1connection import HTTP1ConnectionParameters, HTTP1ServerConnection
from tornado.httputil import HTTPHeaders, HTTPMessageDelegate, HTTPServerConnectionDelegate, ResponseStartLine
from tornado.iostream import IOStream
from tornado.netutil import add_accept_handler

ANSWER = b"x" * 85 + b"}"
PARAMETERS = HTTP1ConnectionParameters(max_header_size=32_768, max_body_size=65_536)


class Exchange(HTTPMessageDelegate):
    """A request, and its answer."""

    def __init__(self, connection):
        self.connection = connection

    def headers_received(self, start_line, headers):
        pass

    def data_received(self, chunk):
        pass

    def finish(self):
        fields = HTTPHeaders({"Content-Type": "application/json", "Content-Length": str(len(ANSWER))})
        self.connection.write_headers(ResponseStartLine("HTTP/1.1", 200, "OK"), fields, ANSWER)
        self.connection.finish()


class Server(HTTPServerConnectionDelegate):
    """All connections."""

    def start_request(self, server_conn, request_conn):
        return Exchange(request_conn)

    def on_close(self, server_conn):
        pass

    def accept(self, connection, _):
        HTTP1ServerConnection(IOStream(connection), PARAMETERS).start_serving(self)


async def serve(port):
    listener = socket.create_server(("127.0.0.1", port))
    listener.setblocking(False)
    add_accept_handler(listener, Server().accept)
    await asyncio.Event().wait()


asyncio.run(serve(int(sys.argv[1])))
