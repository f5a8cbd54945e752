"""The end of tasks."""
from __future__ import annotations

import asyncio
from typing import Any

# How often a task is canceled, and seconds from one time to the next.
TIMES, PAUSE = 50, 0.1


async def ended(*tasks: asyncio.Task[Any]) -> None:
    """Cancels tasks and waits until they end. Before Python 3.12 `asyncio.wait_for` loses a cancellation that comes together with a result, so it is done again."""
    left = {task for task in tasks if not task.done()}
    for _ in range(TIMES):
        if not left:
            break
        for task in left:
            task.cancel()
        _, left = await asyncio.wait(left, timeout=PAUSE)
    for task in tasks:
        if task.done() and not task.cancelled():
            task.exception()
