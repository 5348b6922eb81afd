#!/usr/bin/env python3
"""Sends each line as the body of a request, and prints the body of its answer: first.py [PORT [KEY]] < BODIES"""
import socket, struct, sys

port = int(sys.argv[1]) if len(sys.argv) > 1 else 28015
key = sys.argv[2].encode() if len(sys.argv) > 2 else b""
server = socket.create_connection(("127.0.0.1", port)).makefile("rwb")
server.write(struct.pack("<II", 0x400C2D20, len(key)) + key + struct.pack("<I", 0x7E6970C7))
server.flush()
greeted = server.read(8)
if greeted != b"SUCCESS\0":
    sys.exit((greeted + server.read()).decode().strip("\0"))
followed = 0
for token, line in enumerate(sys.stdin.buffer, 1):
    body = line.strip()
    # CONTINUE and STOP go with the token of what is open: the last answer of which there is more.
    token = followed if body in (b"[2]", b"[3]") else token
    server.write(struct.pack("<QI", token, len(body)) + body)
    server.flush()
    token, length = struct.unpack("<QI", server.read(12))
    answer = server.read(length)
    followed = token if answer.endswith(b'"t":3}') else followed
    print(answer.decode())
