"""A web server that counts its pages under a lock, a thread for each request; it ends after a number of them: pages.py PORT REQUESTS."""

import collections
import http.server
import sys
import threading

lock = threading.Lock()
counts = collections.Counter()
left = int(sys.argv[2])


class Pages(http.server.BaseHTTPRequestHandler):
    def do_GET(self):
        global left
        with lock:
            counts[self.path] += 1
            left -= 1
            text = ("%s: %d" % (self.path, counts[self.path])).encode()
            last = left == 0
        self.send_response(200)
        self.send_header("Content-Length", str(len(text)))
        self.end_headers()
        self.wfile.write(text)
        if last:
            threading.Thread(target=server.shutdown).start()

    def log_message(self, *_):
        pass


server = http.server.ThreadingHTTPServer(("127.0.0.1", int(sys.argv[1])), Pages)
server.serve_forever()
