"""Who may call: all, or those that have the token, which is compared in constant time."""
from __future__ import annotations

import hmac
from typing import Any, Mapping

from etcd.messages import new
from etcd.refusals import BAD_PASSWORD, BAD_TOKEN, NO_AUTHENTICATION, NO_TOKEN, Refusal

# The fewest characters of a token.
SHORTEST = 16


class Gate:
    """Lets calls with the token in, or all calls if there is none."""

    def __init__(self, token: str | None):
        self.token = token

    def check(self, metadata: Mapping[str, str]) -> None:
        """Raises Refusal unless the fields of a call, with names in lower case, have the token."""
        if self.token is None:
            return
        given = metadata.get('token') or metadata.get('authorization')
        if not given:
            raise Refusal('UNAUTHENTICATED', NO_TOKEN)
        if not self.is_token(given[7:] if given.startswith('Bearer ') else given):
            raise Refusal('UNAUTHENTICATED', BAD_TOKEN)

    def is_token(self, given: str) -> bool:
        return self.token is not None and hmac.compare_digest(given.encode('utf-8', 'surrogateescape'), self.token.encode())

    def authenticate(self, request: Any, header: Any) -> Any:
        """The answer to a client that has the token as its password. The token is also that of its further calls."""
        if self.token is None:
            raise Refusal('FAILED_PRECONDITION', NO_AUTHENTICATION)
        if not self.is_token(request.password):
            raise Refusal('INVALID_ARGUMENT', BAD_PASSWORD)
        return new('AuthenticateResponse', header=header, token=self.token)
