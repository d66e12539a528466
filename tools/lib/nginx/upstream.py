"""What stands behind nginx in place of the program: a Unix socket that keeps every byte that it is sent."""
import re
import socket
import threading

LENGTH = re.compile(rb"(?i)\r\ncontent-length: (\d+)\r\n")
OK = b'HTTP/1.1 200 OK\r\nContent-Length: 2\r\nConnection: close\r\n\r\n{}'


class Upstream:
    """Answers each connection with `answer`, or closes it after the request if that is empty."""

    def __init__(self, path: str) -> None:
        self.requests, self.answer = [], OK
        self.listener = socket.socket(socket.AF_UNIX)
        self.listener.bind(path)
        self.listener.listen()
        self.thread = threading.Thread(target=self.serve, daemon=True)
        self.thread.start()

    def __enter__(self) -> "Upstream":
        return self

    def __exit__(self, *_: object) -> None:
        # (a close alone does not wake the thread)
        self.listener.shutdown(socket.SHUT_RDWR)
        self.listener.close()
        self.thread.join()

    def serve(self) -> None:
        while True:
            try:
                link, _ = self.listener.accept()
            except OSError:
                return
            with link:
                self.requests.append(request_on(link))
                link.sendall(self.answer)

    def took(self) -> list[bytes]:
        """The requests that came since this was last asked."""
        found, self.requests = self.requests, []
        return found


def request_on(link: socket.socket) -> bytes:
    """A head, and the body that it announces."""
    data = b""
    while b"\r\n\r\n" not in data and (more := link.recv(1 << 16)):
        data += more
    length = LENGTH.search(data)
    wanted = data.index(b"\r\n\r\n") + 4 + int(length[1]) if length else 0
    while len(data) < wanted and (more := link.recv(1 << 16)):
        data += more
    return data
