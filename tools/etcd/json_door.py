"""The JSON form of the calls, over HTTP/1.1: a POST with the request, and the answer, or for a watch a line for each answer."""
from __future__ import annotations

import asyncio
import json
import ssl
from http import HTTPStatus
from typing import Any, NamedTuple

from etcd.calls import PREFIXES, REFUSED, WATCH_PATH, Call, calls, ends
from etcd.ending import ended
from etcd.gate import Gate
from etcd.messages import from_json, to_json
from etcd.refusals import Refusal, no_form
from etcd.service import RELEASE, Gateway
from etcd.watches import Stream

# The bytes of the longest head and body of a request, the seconds in which they have to be there, and the connections at the same time.
HEAD, BODY, PATIENCE, CONNECTIONS = 16_384, 1 << 20, 60.0, 1_024


class Bad(Exception):
    """The bytes are no request of HTTP/1.1 that is served. The connection ends after the answer."""

    def __init__(self, status: int, text: str):
        self.status, self.text = status, text
        super().__init__(text)


class Request(NamedTuple):
    """A request: its method and path, its fields with names in lower case, and its body."""
    method: str
    path: str
    fields: dict[str, str]
    body: bytes

    def is_last(self) -> bool:
        return self.fields.get('connection', '').lower() == 'close'


async def request_of(reader: asyncio.StreamReader) -> Request | None:
    """The next request of a connection, or None if it ends."""
    try:
        head = (await reader.readuntil(b'\r\n\r\n')).decode('latin-1')
    except asyncio.IncompleteReadError:
        return None
    except asyncio.LimitOverrunError:
        raise Bad(431, f'the head is longer than {HEAD} bytes') from None
    first, *lines = head[:-4].split('\r\n')
    words = first.split(' ')
    if len(words) != 3 or words[2] not in ('HTTP/1.1', 'HTTP/1.0'):
        raise Bad(400, 'no request of HTTP/1.1')
    fields = {name.strip().lower(): value.strip() for name, _, value in (line.partition(':') for line in lines)}
    if 'transfer-encoding' in fields:
        raise Bad(411, 'a request has a Content-Length')
    length = fields.get('content-length', '0')
    if not length.isascii() or not length.isdigit() or len(length) > 8:
        raise Bad(400, 'no Content-Length')
    if int(length) > BODY:
        raise Bad(413, f'the body is longer than {BODY} bytes')
    try:
        return Request(words[0], words[1].partition('?')[0], fields, await reader.readexactly(int(length)))
    except asyncio.IncompleteReadError:
        return None


def refused(why: Refusal) -> str:
    return json.dumps({'error': why.text, 'message': why.text, 'code': why.number()})


class JsonDoor:
    """Serves connections."""

    def __init__(self, gateway: Gateway, gate: Gate):
        self.gateway, self.gate, self.open = gateway, gate, 0
        self.calls: dict[str, Call] = {call.path: call for call in calls(gateway, gate).values()}

    async def serve(self, reader: asyncio.StreamReader, writer: asyncio.StreamWriter) -> None:
        self.open += 1
        try:
            while self.open <= CONNECTIONS:
                request = await asyncio.wait_for(request_of(reader), PATIENCE)
                if request is None or not await self.answered(request, reader, writer):
                    break
        except Bad as why:
            await refuse(why, reader, writer)
        except (OSError, asyncio.TimeoutError):
            pass
        finally:
            self.open -= 1
            writer.close()

    async def answered(self, request: Request, reader: asyncio.StreamReader, writer: asyncio.StreamWriter) -> bool:
        """Answers a request. The result is whether the connection goes on."""
        try:
            if (request.method, request.path) == ('GET', '/version'):
                return await reply(writer, 200, json.dumps({'etcdserver': RELEASE, 'etcdcluster': RELEASE}), request.is_last())
            prefix = next((prefix for prefix in PREFIXES if request.path.startswith(f'{prefix}/')), None)
            if prefix is None:
                raise Refusal('NOT_FOUND', f'there is nothing at {request.path}: paths begin with {", ".join(PREFIXES)}')
            if request.method != 'POST':
                raise Bad(405, 'a call is a POST')
            path = request.path[len(prefix):]
            if path == WATCH_PATH:
                await self.watch(request, reader, writer)
                return False
            return await reply(writer, 200, to_json(await self.called(path, request)), request.is_last())
        except Refusal as why:
            return await reply(writer, why.of_http(), refused(why), request.is_last())

    async def called(self, path: str, request: Request) -> Any:
        call = self.calls.get(path)
        if call is None:
            self.gate.check(request.fields)
            raise next((no_form(*refused) for start, refused in REFUSED.items() if path.startswith(start)), Refusal('NOT_FOUND', f'there is no call {path}'))
        if not call.is_open:
            self.gate.check(request.fields)
        return await call.made(message_of(call.request, request.body), ends())

    async def watch(self, request: Request, reader: asyncio.StreamReader, writer: asyncio.StreamWriter) -> None:
        """Sends the answers of one watch until the client ends the connection."""
        self.gate.check(request.fields)
        wanted = message_of('WatchRequest', request.body)
        await self.gateway.ready(ends())
        writer.write(b'HTTP/1.1 200 OK\r\nContent-Type: application/json\r\nTransfer-Encoding: chunked\r\nConnection: close\r\n\r\n')

        async def write(answer: Any) -> None:
            line = f'{{"result":{to_json(answer)}}}\n'.encode()
            writer.write(b'%x\r\n%s\r\n' % (len(line), line))
            await writer.drain()

        stream = Stream(self.gateway, write)
        await stream.take(wanted)
        tasks = {asyncio.ensure_future(stream.run()), asyncio.ensure_future(reader.read(1))}
        try:
            await asyncio.wait(tasks, return_when=asyncio.FIRST_COMPLETED)
        finally:
            await ended(*tasks)


def message_of(name: str, body: bytes) -> Any:
    try:
        return from_json(name, body)
    except ValueError as why:
        raise Refusal('INVALID_ARGUMENT', str(why)) from None


async def reply(writer: asyncio.StreamWriter, status: int, text: str, is_last: bool) -> bool:
    """Sends an answer. The result is whether the connection goes on."""
    body = text.encode()
    end = 'Connection: close\r\n' if is_last else ''
    head = f'HTTP/1.1 {status} {HTTPStatus(status).phrase}\r\nContent-Type: application/json\r\nContent-Length: {len(body)}\r\n{end}\r\n'
    writer.write(head.encode() + body)
    await writer.drain()
    return not is_last


async def refuse(why: Bad, reader: asyncio.StreamReader, writer: asyncio.StreamWriter) -> None:
    """Sends an answer, and takes what the client still sends until it ends the connection. If bytes were left when the connection ends, the client would
    lose the answer."""
    async def taken() -> None:
        await reply(writer, why.status, json.dumps({'error': why.text, 'message': why.text, 'code': 3}), True)
        if writer.can_write_eof():
            writer.write_eof()
        while await reader.read(BODY):
            pass
    try:
        await asyncio.wait_for(taken(), PATIENCE)
    except (OSError, asyncio.TimeoutError):
        pass


async def serve(gateway: Gateway, gate: Gate, host: str, port: int, context: ssl.SSLContext | None) -> asyncio.AbstractServer:
    """Starts the server at an address. Raises OSError if it can't be used."""
    return await asyncio.start_server(JsonDoor(gateway, gate).serve, host, port, ssl=context, limit=HEAD)
