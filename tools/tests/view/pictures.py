#!/usr/bin/python3
"""Makes the pictures of the page that docs/VIEWING.md shows, by Chromium: pictures.py [FOLDER]

FOLDER is docs/ unless it is given.
"""

import base64
import os
import pathlib
import sys
import tempfile

sys.dont_write_bytecode = True
sys.path.insert(0, str(pathlib.Path(__file__).resolve().parents[2] / "view"))

from test_browser import driver, show  # noqa: E402
from viewing import TOP, edge, pair, report, ring, view, write  # noqa: E402

SERVER = """\
#include "server.h"

static void reply(struct connection *connection, struct buffer *buffer, struct pool *pool)
{
    struct reply *reply = &connection->reply;

    if (connection->state == CLOSED)
        return;

    reply->size = 0;
    connection->turns++;

    /* The reply is built under the connection's lock. */
    pthread_mutex_lock(&connection->lock);
    if (buffer->free < REPLY_SIZE) {
        pthread_mutex_lock(&pool->lock);
        grow(buffer, pool);
        pthread_mutex_unlock(&pool->lock);
    }
    fill(reply, buffer);
    pthread_mutex_unlock(&connection->lock);
}
"""
POOL = """\
#include "pool.h"

static struct pool pools[2];

/* Closes the connections that nobody has used for a while. */
void reap(struct pool *pool, time_t now)
{
    struct connection *connection;

    pthread_mutex_lock(&pool->lock);
    list_for_each(connection, &pool->connections) {
        if (connection->used > now - PATIENCE)
            continue;

        /*
         * The statistics have a lock of their own, which is
         * held only for a moment; the connection's is needed
         * as its last reply may still be under way.
         */

        pthread_mutex_lock(&stats.lock);
        pthread_mutex_lock(&connection->lock);
        close_connection(connection);
        pthread_mutex_unlock(&connection->lock);
        pthread_mutex_unlock(&stats.lock);
    }
    pthread_mutex_unlock(&pool->lock);
}

void both(struct pool *a, struct pool *b) { lock(&a->lock); lock(&b->lock); move(a, b); unlock(&b->lock); unlock(&a->lock); }
"""
SERVER_AND_POOL = [
    [
        edge(f"worker-{i % 8}", f"conn-{i}", "net/server.c:14<net/loop.c:8", "pool", "net/server.c:16<net/loop.c:8"),
        edge("reaper", "pool", "store/pool.c:10", f"conn-{i}", "store/pool.c:22", ["pool", "stats"]),
    ]
    for i in range(200)
]
ONE_LINE = pair("pools[0]", "pools[1]", ("mover", "balancer"), ("store/pool.c:30",) * 4)
RING = ring(["left", "right", "top"], "store/ring.c:1", "store/ring.c:2")


def picture(browser, path, width, height, scheme="light", opened=None):
    """What p.html shows at first; with one finding open alone, if its place is given."""
    show(browser, width, scheme, height)
    if opened is not None:
        findings = "[...document.querySelectorAll('.finding')]"
        browser.execute_script(f"{findings}.forEach((one, at) => {{ one.open = at === {opened}; }})")
    path.write_bytes(base64.b64decode(browser.execute_cdp_cmd("Page.captureScreenshot", {})["data"]))


def main(folder):
    browsers = driver.__wrapped__()
    browser = next(browsers)
    write("src/net/server.c", SERVER)
    write("src/net/loop.c", "\n" * 7 + "        reply(connection, buffer, pool);\n")
    write("src/store/pool.c", POOL)
    others = [
        pair(f"table-{i}", "index", ("writer", "reader"), (f"tables/t{i}.c:1", "2", "3", "4")) for i in range(247)
    ]
    write("many.json", report(*SERVER_AND_POOL, *others, RING))
    write("few.json", report(*SERVER_AND_POOL, ONE_LINE, RING))
    write("known", '[["store/ring.c:1","store/ring.c:2"]]\n')
    view("many.json", "-o", "p.html", "--source", "src", "--known", "known")
    picture(browser, folder / "view-wide.png", 1200, 1000)
    picture(browser, folder / "view-narrow.png", 390, 844, "dark")
    view("few.json", "-o", "p.html", "--source", "src")
    picture(browser, folder / "view-middle.png", 800, 1000, opened=1)
    next(browsers, None)


if __name__ == "__main__":
    made = pathlib.Path(sys.argv[1] if len(sys.argv) > 1 else TOP / "docs").resolve()
    with tempfile.TemporaryDirectory() as scratch:
        os.chdir(scratch)
        main(made)
