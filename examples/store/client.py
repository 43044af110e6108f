#!/usr/bin/env python3
"""A client of the store, over two pipes: it sends one request at a time, and shows each reply as soon as it has come.

    python3 examples/store/client.py        where `fidl` and the compiled table `store.fct` stand in the working directory

It knows frames, headers and strings alone (docs/service.md, docs/wire.md). `fidl dump` shows what the frames hold.
"""
import struct
import subprocess
import tempfile

TABLE, PROTOCOL, SCRIPT = "store.fct", "demo.store/Store", "examples/store/store.script"
FRAME, HEADER, HANDLE_BYTES = struct.Struct("<II"), struct.Struct("<IHBBQ"), 12
VERSION_2, FLEXIBLE, MAGIC = 2, 0x80, 1
PRESENT = 2**64 - 1


def fidl(*words):
    return subprocess.run(["./fidl", *words], check=True, capture_output=True, text=True).stdout


def ordinals():
    """Returns the ordinal of each method of the table, by its name."""
    lines = [line.split() for line in fidl("table", TABLE).splitlines()]
    return {line[2]: int(line[1], 16) for line in lines if line[0] == "method"}


def string(text):
    """Returns the encoding of a struct whose one member is this string."""
    data = text.encode()
    return struct.pack("<QQ", len(data), PRESENT) + data + bytes(-len(data) % 8)


def frame(txid, flags, ordinal, body):
    """Returns the frame of a request without handles."""
    message = HEADER.pack(txid, VERSION_2, flags, MAGIC, ordinal) + body
    return FRAME.pack(len(message), 0) + message


def read_exactly(pipe, count):
    data = pipe.read(count)
    if len(data) < count:
        raise EOFError("the service has ended")
    return data


def read_frame(pipe):
    head = read_exactly(pipe, FRAME.size)
    length, handles = FRAME.unpack(head)
    return head + read_exactly(pipe, length + handles * HANDLE_BYTES)


def show(data, *options):
    """Prints what `fidl dump` says of a frame."""
    with tempfile.NamedTemporaryFile() as file:
        file.write(data)
        file.flush()
        print(fidl("dump", *options, TABLE, PROTOCOL, file.name), end="", flush=True)


def main():
    known = ordinals()
    requests = [
        frame(1, FLEXIBLE, known["demo.store/Store.List"], string("")),
        frame(2, 0, known["demo.store/Store.Read"], string("a.txt")),
        frame(3, 0, known["demo.store/Store.Read"], string("none")),
        frame(4, FLEXIBLE, 1, b""),
    ]
    with subprocess.Popen(["./fidl", "serve", TABLE, SCRIPT], stdin=subprocess.PIPE, stdout=subprocess.PIPE) as service:
        for request in requests:
            show(request)
            service.stdin.write(request)
            service.stdin.flush()
            show(read_frame(service.stdout), "--response")
        service.stdin.close()
        print("status", service.wait())


if __name__ == "__main__":
    main()
