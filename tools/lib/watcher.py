"""What is watched in a thread of its own while other work goes on."""
import threading
from typing import TypeVar

Own = TypeVar("Own", bound="Watcher")


class Watcher:
    """Watches from the beginning of a `with` to its end."""

    def __init__(self) -> None:
        self.ended = threading.Event()

    def __enter__(self: Own) -> Own:
        self.thread = threading.Thread(target=self.watch, daemon=True)
        self.thread.start()
        return self

    def __exit__(self, *_: object) -> None:
        self.ended.set()
        self.thread.join()

    def watch(self) -> None:
        """Looks until `ended` is set."""
        raise NotImplementedError
