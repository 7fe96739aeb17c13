"""Starts the server on a folder, and connects to it."""
import subprocess

import fuse_client as fuse


def start(program, root, path, words=()):
    """The server's process, with further words for it, and a client of it."""
    server = subprocess.Popen([program, "serve", "--root", root, "--socket", path, *words])
    return server, fuse.Client.connect(path)
