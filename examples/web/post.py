"""Takes the bundles that are posted into the mirrors of a folder: a WSGI application for `gunicorn post:app`, behind nginx.

    POST /NAME/post     the body is a bundle, or a mail that has one, gzipped or not, with or without a length

FOLDER is the folder of `../ssh/accept`, which says what is in it, and judges. Who posts is in the header X-Who, which nginx sets; without
it, it is `anybody`. The answer is text, the verdict its first line: 200 taken or nothing new; 400 malformed; 403 not allowed; 404 no such
mirror; 409 refused; 413 too large; 503 no answer, send it again later. The header X-Site, which nginx sets too, is where pages are served.
"""
import os
import re
import subprocess
import tempfile

ACCEPT = os.path.join(os.path.dirname(os.path.realpath(__file__)), "..", "ssh", "accept")
PATH = re.compile(r"/([A-Za-z0-9_][A-Za-z0-9_.-]*)/post")
SITE = re.compile(r"https?://[A-Za-z0-9_.:\[\]-]{1,300}")
MOST, SECONDS = 5 << 20, 240
# The first that begins the verdict.
CODES = (
    ("taken ", "200 OK"),
    ("nothing new", "200 OK"),
    ("malformed too-large", "413 Content Too Large"),
    ("malformed ", "400 Bad Request"),
    ("refused push too-large", "413 Content Too Large"),
    ("refused mail too-large", "413 Content Too Large"),
    ("refused mail ", "400 Bad Request"),
    ("refused push no-mirror", "404 Not Found"),
    ("refused push not-allowed", "403 Forbidden"),
    ("refused ", "409 Conflict"),
)
BUSY = "503 Service Unavailable"


def judged(who, site, name, body):
    """The answer to a body, and its code."""
    site = site if SITE.fullmatch(site) else ""
    with tempfile.TemporaryFile() as file:
        file.write(body)
        file.seek(0)
        try:
            done = subprocess.run([ACCEPT, who, os.environ["FOLDER"], name], stdin=file, stdout=subprocess.PIPE, timeout=SECONDS, check=False,
                                  env={**os.environ, "SITE": site})
        except subprocess.TimeoutExpired:
            return b"no answer\nIt took too long. Send it again later.\n", BUSY
    code = next((it for verdict, it in CODES if done.stdout.decode("utf-8", "replace").startswith(verdict)), BUSY)
    return (done.stdout, code) if done.returncode in (0, 1) else (b"no answer\nSend it again later.\n", BUSY)


def app(environ, start_response):
    found, more = PATH.fullmatch(environ.get("PATH_INFO", "")), []
    if not found:
        text, code = b"no answer\nPOST a bundle to /NAME/post\n", "404 Not Found"
    elif environ["REQUEST_METHOD"] != "POST":
        text, code, more = b"no answer\ncurl --fail-with-body --data-binary @x.dpatch URL\n", "405 Method Not Allowed", [("Allow", "POST")]
    else:
        body = environ["wsgi.input"].read(MOST + 1)
        text, code = judged(environ.get("HTTP_X_WHO") or "anybody", environ.get("HTTP_X_SITE", ""), found[1], body)
    if code == BUSY:
        more = [("Retry-After", "60")]
    start_response(code, [("Content-Type", "text/plain; charset=utf-8"), ("X-Content-Type-Options", "nosniff"), ("Content-Length", str(len(text))), *more])
    return [text]
