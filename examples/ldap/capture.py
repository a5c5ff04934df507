#!/usr/bin/env python3
"""capture.py PORT NAME COMMAND..: runs a command that speaks LDAP, and stores what it and the server at PORT sent one another.

`URI` among the words of the command is the address at which this program listens; it passes all octets on. NAME.ber gets the octets of
both sides in the order in which they came.
"""
import socket
import subprocess
import sys
import threading


def pass_on(source, target, log):
    while True:
        octets = source.recv(65536)
        log.append(octets)
        if not octets:
            try:
                target.shutdown(socket.SHUT_WR)
            except OSError:
                pass
            return
        target.sendall(octets)


def serve(listener, port, log):
    while True:
        try:
            client, _ = listener.accept()
        except OSError:
            return
        server = socket.create_connection(("127.0.0.1", port))
        for source, target in ((client, server), (server, client)):
            threading.Thread(target=pass_on, args=(source, target, log), daemon=True).start()


def main(port, name, *command):
    log = []
    listener = socket.create_server(("127.0.0.1", 0))
    threading.Thread(target=serve, args=(listener, int(port), log), daemon=True).start()
    uri = f"ldap://127.0.0.1:{listener.getsockname()[1]}"
    done = subprocess.run([uri if word == "URI" else word for word in command], capture_output=True, text=True)
    sys.stderr.write(f"{name}: status {done.returncode}\n{done.stdout}{done.stderr}")
    with open(f"{name}.ber", "wb") as file:
        file.write(b"".join(log))


main(*sys.argv[1:])
