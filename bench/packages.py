"""The Python that has Debian's packages for gRPC."""
import os
import sys

DEBIAN = '/usr/bin/python3'


def with_packages():
    """Becomes Debian's Python if this one lacks its packages."""
    try:
        import grpc.aio  # noqa: F401
        import google.protobuf  # noqa: F401
    except ImportError:
        if os.path.realpath(sys.executable) != os.path.realpath(DEBIAN) and os.path.exists(DEBIAN):
            os.execv(DEBIAN, [DEBIAN, *sys.argv])
