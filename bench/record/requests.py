"""Asks a web server for pages: requests.py PORT REQUESTS. Waits until the server answers."""

import http.client
import sys
import time

PORT, REQUESTS = int(sys.argv[1]), int(sys.argv[2])
LIMIT = time.monotonic() + 60


def ask(page):
    connection = http.client.HTTPConnection("127.0.0.1", PORT)
    try:
        connection.request("GET", "/%d" % page)
        connection.getresponse().read()
    finally:
        connection.close()


done = 0
while done < REQUESTS:
    try:
        ask(done % 7)
        done += 1
    except OSError:
        if done > 0 or time.monotonic() > LIMIT:
            raise
        time.sleep(0.05)
