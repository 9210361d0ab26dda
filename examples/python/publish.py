#!/usr/bin/env python3
"""Publishes messages, and ends when each is acknowledged.

    publish.py HOST PORT CLIENT TOPIC QOS PAYLOAD..
"""

import socket
import sys

from poskvari import Client, Connected


def main() -> int:
    if len(sys.argv) < 7:
        print(__doc__, file=sys.stderr)
        return 2
    host, port, name, topic, qos, *payloads = sys.argv[1:]
    stream = socket.create_connection((host, int(port)))
    with stream, Client(name) as client:
        client.connect(clean=True)
        stream.sendall(client.output())
        published = False
        while not (published and client.is_idle()):
            data = stream.recv(65_536)
            if not data:
                print("the server closed the connection", file=sys.stderr)
                return 1
            for event in client.receive(data):
                if isinstance(event, Connected):
                    for payload in payloads:
                        client.publish(topic, payload.encode(), int(qos))
                    published = True
            stream.sendall(client.output())
        client.disconnect()
        stream.sendall(client.output())
    print(f"published {len(payloads)}")
    return 0


sys.exit(main())
