"""Who may ask: the browser that was given the address, for a page of this server's, and nobody else.

Other users of the machine can reach the loopback interface, so the address has a random token. A page of another origin
can send requests here, and can point a name of its own at this machine (DNS rebinding). So the Host header has to be
ours, and an Origin, if there is one, too. Whatever isn't right has the same short answer.

When the command has ended, another user can listen at its port. So the page contains a secret that no request has, and
each answer to a call is sealed with it: the page believes no other.
"""

import hashlib
import hmac
import secrets
from collections.abc import Awaitable, Callable

from aiohttp import web

Handler = Callable[[web.Request], Awaitable[web.StreamResponse]]

POLICY = "; ".join((
    "default-src 'none'", "script-src 'self'", "style-src 'self'", "img-src 'self' data:", "connect-src 'self'",
    "base-uri 'none'", "form-action 'none'", "frame-ancestors 'none'", "require-trusted-types-for 'script'",
    "trusted-types reload",
))
HEADERS = {
    "Content-Security-Policy": POLICY,
    "X-Content-Type-Options": "nosniff",
    "X-Frame-Options": "DENY",
    "Referrer-Policy": "no-referrer",
    "Cross-Origin-Opener-Policy": "same-origin",
    "Cross-Origin-Resource-Policy": "same-origin",
    "Permissions-Policy": "camera=(), geolocation=(), microphone=()",
    "Cache-Control": "no-store",
}


NONCE, SEAL = "Tukyamid-Nonce", "Tukyamid-Seal"
_PLACE_OF_THE_SECRET = b'<meta name="seal" content="'


class Guard:
    """The token of this server, and what it lets through."""

    def __init__(self) -> None:
        self.token = secrets.token_urlsafe(32)
        self._secret = secrets.token_hex(32)
        self._hosts: frozenset[str] = frozenset()

    def bind(self, port: int) -> str:
        """Takes the port that was found, and returns the page's address."""
        self._hosts = frozenset(f"{name}:{port}" for name in ("127.0.0.1", "localhost"))
        return f"http://127.0.0.1:{port}/{self.token}/"

    def with_secret(self, page: bytes) -> bytes:
        """The page with the secret, which only the page and this server have."""
        return page.replace(_PLACE_OF_THE_SECRET, _PLACE_OF_THE_SECRET + self._secret.encode(), 1)

    def _seal(self, request: web.Request, response: web.StreamResponse) -> web.StreamResponse:
        """Seals the answer to a call, if its sender wants to know whose it is."""
        nonce = request.headers.get(NONCE)
        if nonce is not None and isinstance(response, web.Response) and isinstance(response.body, bytes):
            text = nonce.encode("utf-8", "replace") + b"\n" + response.body
            response.headers[SEAL] = hmac.new(bytes.fromhex(self._secret), text, hashlib.sha256).hexdigest()
        return response

    def middleware(self) -> Callable[[web.Request, Handler], Awaitable[web.StreamResponse]]:
        async def guarded(request: web.Request, handler: Handler) -> web.StreamResponse:
            if not self._is_ours(request):
                return _with_headers(web.Response(status=403, text="Not here.\n"))
            try:
                response = await handler(request)
            except web.HTTPException as failure:
                response = web.Response(status=failure.status, text=f"{failure.reason}.\n")
            return _with_headers(self._seal(request, response))
        made: Callable[[web.Request, Handler], Awaitable[web.StreamResponse]] = web.middleware(guarded)
        return made

    def _is_ours(self, request: web.Request) -> bool:
        host = request.headers.get("Host", "")
        origin = request.headers.get("Origin")
        return (host in self._hosts and origin in (None, f"http://{host}") and _is_by_page_or_user(request)
                and self._has_token(request.path))

    def _has_token(self, path: str) -> bool:
        given = path.split("/")[1] if path.startswith("/") else ""
        return hmac.compare_digest(given.encode("utf-8", "replace"), self.token.encode())


def _is_by_page_or_user(request: web.Request) -> bool:
    """Whether the browser says that the page itself asks, or that the user goes there: also from the file that leads to
    the page, which is of another origin. No other page may fetch anything, nor show the page within itself."""
    site = request.headers.get("Sec-Fetch-Site", "none")
    how = request.method, request.headers.get("Sec-Fetch-Mode"), request.headers.get("Sec-Fetch-Dest")
    return site in ("none", "same-origin") or how == ("GET", "navigate", "document")


def _with_headers(response: web.StreamResponse) -> web.StreamResponse:
    for name, value in HEADERS.items():
        response.headers[name] = value
    return response
