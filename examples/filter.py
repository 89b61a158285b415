#!/usr/bin/env python3
"""Lets only whole packets through to an old server, each in its canonical encoding.

    examples/filter.py PORT SERVER [CLASS..]

It answers POST at PORT of 127.0.0.1. A body that `amf` refuses is answered with 400, and one with an object of a class that is not
listed with 403; any other is sent to the URL SERVER, and its answer is handed back. `amf` has to be on the path.
"""
import json
import subprocess
import sys
import urllib.error
import urllib.request
from http.server import BaseHTTPRequestHandler, ThreadingHTTPServer

PORT, SERVER, CLASSES = int(sys.argv[1]), sys.argv[2], set(sys.argv[3:])
MOST = 1 << 20


def amf(*words, given):
    """What `amf` writes, or None where its status is not 0."""
    ran = subprocess.run(["amf", *words], input=given, stdout=subprocess.PIPE, stderr=subprocess.DEVNULL)
    return None if ran.returncode else ran.stdout


def classes_of(text):
    """The classes of all objects in a JSON text of `amf`."""
    found, left = set(), [json.loads(text)]
    while left:
        now = left.pop()
        if isinstance(now, dict):
            if "$class" in now:
                found.add(now["$class"] if isinstance(now["$class"], str) else "not UTF-8")
            left += now.values()
        elif isinstance(now, list):
            left += now
    return found


class Filter(BaseHTTPRequestHandler):
    def do_POST(self):
        length = self.headers.get("Content-Length", "")
        if not length.isdecimal() or int(length) > MOST:
            return self.send_error(413)
        packet = amf("canon", "--from", "packet", given=self.rfile.read(int(length)))
        text = packet and amf("json", "--from", "packet", given=packet)
        if not text:
            return self.send_error(400)
        if classes_of(text) - CLASSES:
            return self.send_error(403)
        call = urllib.request.Request(SERVER, packet, {"Content-Type": "application/x-amf"})
        try:
            with urllib.request.urlopen(call) as answer:
                body = answer.read()
        except urllib.error.URLError:
            return self.send_error(502)
        self.send_response(200)
        self.send_header("Content-Type", "application/x-amf")
        self.send_header("Content-Length", str(len(body)))
        self.end_headers()
        self.wfile.write(body)


ThreadingHTTPServer(("127.0.0.1", PORT), Filter).serve_forever()
