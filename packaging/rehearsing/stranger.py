"""Another user of a machine, who tries to come in: `stranger.py WAY PORT WEB_PORT`, until SIGTERM comes.

PORT is that of a world that has a front, WEB_PORT that of its front. `reach` connects to PORT. `impostor` takes PORT on the machine's own
network and answers there as moo does, with number 999. Both try to take WEB_PORT. It prints a line for each thing that it could do, and in
the end `tried N`.
"""

import signal
import socket
import sys
import threading
import time

LOCAL = "127.0.0.1"
BODY = b'{"answers":[],"seq":999}'
ANSWER = b"HTTP/1.1 200 OK\r\ncontent-type: application/json\r\ncontent-length: %d\r\nconnection: close\r\n\r\n%s" % (len(BODY), BODY)


def reach(port: int) -> None:
    """Connects to a port, and asks who is there."""
    try:
        with socket.create_connection((LOCAL, port), 1) as peer:
            peer.sendall(b"GET /seq HTTP/1.1\r\nhost: localhost\r\n\r\n")
            print(f"reached {port}: {peer.recv(65536)!r}", flush=True)
    except OSError:
        pass


def take(port: int) -> None:
    """Listens on a port, with all that a user may ask for."""
    for option in (0, socket.SO_REUSEADDR, socket.SO_REUSEPORT):
        for address in (LOCAL, "0.0.0.0"):
            with socket.socket() as door:
                try:
                    if option:
                        door.setsockopt(socket.SOL_SOCKET, option, 1)
                    door.bind((address, port))
                    door.listen()
                    print(f"took {address}:{port} with {option}", flush=True)
                except OSError:
                    pass


def answer_at(port: int) -> None:
    """Answers as moo does, on the machine's own network."""
    with socket.create_server((LOCAL, port)) as door:
        while True:
            peer, _ = door.accept()
            with peer:
                peer.recv(65536)
                peer.sendall(ANSWER)


def main() -> None:
    """Tries until it is ended."""
    way, port, web_port = sys.argv[1], int(sys.argv[2]), int(sys.argv[3])
    signal.signal(signal.SIGTERM, lambda number, frame: sys.exit())
    if way == "impostor":
        threading.Thread(target=answer_at, args=(port,), daemon=True).start()
    tried = 0
    try:
        while True:
            if way == "reach":
                reach(port)
            take(web_port)
            tried += 1
            time.sleep(0.005)
    finally:
        print(f"tried {tried}", flush=True)


if __name__ == "__main__":
    main()
