#!/usr/bin/env python3
"""receive.py PORT: what is posted to 127.0.0.1:PORT, a body a line, on standard output. For Alertmanager's `webhook_configs`.

Posts are read one after the other; whoever connects and sends nothing is cut off after ten seconds.
"""
import http.server
import json
import sys


class Hook(http.server.BaseHTTPRequestHandler):
    timeout = 10

    def do_POST(self):
        try:
            line = json.dumps(json.loads(self.rfile.read(int(self.headers.get("Content-Length", 0)))))
        except ValueError:
            self.send_error(400)
            return
        sys.stdout.write(line + "\n")
        sys.stdout.flush()
        self.send_response(200)
        self.end_headers()

    def log_message(self, *words):
        pass


try:
    http.server.HTTPServer(("127.0.0.1", int(sys.argv[1])), Hook).serve_forever()
except OSError as fault:
    sys.exit(f"receive.py: port {sys.argv[1]}: {fault.strerror}")
