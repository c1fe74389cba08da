"""What the server's status port tells of a tenant."""

from __future__ import annotations

import base64
import urllib.error
import urllib.request
from typing import Optional

from .errors import OperationalError


def dump(host: str, port: int, tenant: int, key: Optional[str] = None) -> str:
    """The tenant as the commands that make it. Raises OperationalError where they can't be had."""
    request = urllib.request.Request(f"http://{host}:{port}/tenants/{tenant}/dump")
    if key is not None:
        word = base64.b64encode(f"{tenant}:{key}".encode()).decode()
        request.add_header("Authorization", f"Basic {word}")
    try:
        with urllib.request.urlopen(request, timeout=30) as answer:
            text: bytes = answer.read()
            return text.decode("ascii")
    except urllib.error.HTTPError as error:
        raise OperationalError(f"the status port answers {error.code} {error.reason}") from None
    except OSError as error:
        raise OperationalError(f"can't reach the status port: {error}") from None
