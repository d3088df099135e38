#!/usr/bin/env python3
"""Makes a trace of broker.est of what tshark tells of packets as JSON: each has one message of MQTT or more.

    tshark -r FILE -Y "mqtt && tcp.stream == 0" -T json --no-duplicate-keys -j "frame tcp mqtt" | ./broker.py

They are those of one connection, and the first one is of the client. A unit of time is a tenth of a second. Where the
capture has lost bytes of either side, or a message is none of broker.est, it says so and ends with 1.
"""

import json
import sys

NAMES = {1: "conn", 2: "connack", 3: "publish", 4: "puback", 5: "pubrec", 6: "pubrel", 7: "pubcomp", 12: "ping", 13: "pong",
         14: "disc"}


def values(kind, flags, message):
    """The values of a message, as a trace has them."""
    number = message.get("mqtt.msgid", "0")
    if kind == 3:
        return f"({flags >> 1 & 3}, {number})"
    return f"({number})" if 4 <= kind <= 7 else ""


def events(layers, way):
    """The messages of a packet, in their order: a list where there are several."""
    messages = layers["mqtt"]
    for message in messages if isinstance(messages, list) else [messages]:
        kind, flags = divmod(int(message["mqtt.hdrflags"], 16), 16)
        if kind not in NAMES:
            sys.exit(f"packet {layers['frame']['frame.number']} has a message of type {kind}, which is none of broker.est")
        yield f"{way} client.{NAMES[kind]}{values(kind, flags, message)}"


def trace(packets):
    """The lines of the trace. What is sent again adds nothing."""
    yield "trace 1"
    client, before, awaited = packets[0]["tcp"]["tcp.srcport"], 0, {}
    for layers in packets:
        frame, tcp = layers["frame"], layers["tcp"]
        source, first = tcp["tcp.srcport"], int(tcp["tcp.seq"])
        if first > awaited.get(source, first):
            sys.exit(f"before packet {frame['frame.number']} the capture has lost {first - awaited[source]} bytes")
        if first < awaited.get(source, first):
            continue
        awaited[source] = int(tcp["tcp.nxtseq"])
        now = int(float(frame["frame.time_relative"]) * 10)
        if now > before:
            yield f"time {now - before}"
        before = now
        yield from events(layers, "in" if source == client else "out")
    yield "end"


def main():
    for line in trace([packet["_source"]["layers"] for packet in json.load(sys.stdin)]):
        print(line)


if __name__ == "__main__":
    main()
