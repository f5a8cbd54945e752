"""The gRPC form of the calls."""
from __future__ import annotations

import asyncio
from functools import partial
from typing import Any

import grpc  # type: ignore[import]
import grpc.aio  # type: ignore[import]

from etcd.calls import WATCH, Call, calls, ends
from etcd.ending import ended
from etcd.gate import Gate
from etcd.messages import CLASSES
from etcd.refusals import Refusal, no_form
from etcd.service import Gateway
from etcd.watches import Stream

# The bytes of the longest request, and the calls that are served at the same time.
LONGEST, CALLS = 1 << 20, 4_096
OPTIONS = [('grpc.max_receive_message_length', LONGEST), ('grpc.so_reuseport', 0), ('grpc.keepalive_permit_without_calls', 1),
           ('grpc.http2.min_ping_interval_without_data_ms', 5_000)]


# Seconds after which gRPC knows that a client has given up.
KNOWN = 1.0


async def refuse(context: Any, why: Refusal) -> None:
    """Ends a call with an error. A client whose time passes meanwhile has given up: gRPC cancels the task of the call once it knows, and until then would
    report a fault."""
    try:
        await context.abort(getattr(grpc.StatusCode, why.status), why.text)
    except grpc.aio.InternalError:
        await asyncio.sleep(KNOWN)
        raise


def refusing(service: str, method: str) -> Any:
    """The handler of a call that the gateway doesn't have."""
    async def refused(_: Any, context: Any) -> None:
        await refuse(context, no_form(service, method))
    return refused


class Door(grpc.GenericRpcHandler):  # type: ignore[misc]
    """Finds the handler of a call by its name. A call that the gateway doesn't have gets a sentence, whatever it sends."""

    def __init__(self, gateway: Gateway, gate: Gate):
        self.gateway, self.gate, self.calls = gateway, gate, calls(gateway, gate)

    def service(self, details: Any) -> Any:
        if details.method == WATCH:
            return grpc.stream_stream_rpc_method_handler(self.watch, CLASSES['WatchRequest'].FromString, CLASSES['WatchResponse'].SerializeToString)
        call = self.calls.get(details.method)
        if call is None:
            return grpc.stream_stream_rpc_method_handler(refusing(*details.method.lstrip('/').partition('/')[::2]))
        return grpc.unary_unary_rpc_method_handler(partial(self.one, call), CLASSES[call.request].FromString, lambda answer: answer.SerializeToString())

    def check(self, context: Any) -> None:
        self.gate.check({name.lower(): value for name, value in context.invocation_metadata() if isinstance(value, str)})

    async def one(self, call: Call, request: Any, context: Any) -> Any:
        try:
            if not call.is_open:
                self.check(context)
            return await call.made(request, ends(context.time_remaining()))
        except Refusal as why:
            await refuse(context, why)

    async def watch(self, requests: Any, context: Any) -> None:
        try:
            self.check(context)
            await self.gateway.ready(ends())
        except Refusal as why:
            await refuse(context, why)
        stream = Stream(self.gateway, context.write)
        tasks = {asyncio.ensure_future(stream.run()), asyncio.ensure_future(take_all(stream, requests))}
        try:
            await asyncio.wait(tasks, return_when=asyncio.FIRST_COMPLETED)
        finally:
            await ended(*tasks)


async def take_all(stream: Stream, requests: Any) -> None:
    async for request in requests:
        await stream.take(request)


async def serve(gateway: Gateway, gate: Gate, address: str, identity: tuple[bytes, bytes] | None, clients: bytes | None) -> Any:
    """Starts the server at an address. With an identity, a key and its certificates, it is one of TLS; with the certificate of those that sign the clients',
    each client has to have one. Raises OSError if the address can't be used."""
    server = grpc.aio.server(handlers=[Door(gateway, gate)], options=OPTIONS, maximum_concurrent_rpcs=CALLS)
    try:
        if identity:
            port = server.add_secure_port(address, grpc.ssl_server_credentials([identity], clients, clients is not None))
        else:
            port = server.add_insecure_port(address)
    except RuntimeError:
        port = 0
    if not port:
        await server.stop(None)
        raise OSError(f'{address}: it is in use, is not of this machine, or the certificate or its key is faulty')
    await server.start()
    return server
