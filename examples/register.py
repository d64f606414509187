"""A small client of a register over HTTP, with Python's library alone. It keeps one connection, and makes a new one where the register may
be ending the old one, so that no change is ever sent over a connection that is just being closed."""
import http.client
import json
import time
import urllib.parse

# The register lets a connection go over which no request comes for 30 seconds behind an answer.
LONGEST_IDLE = 20.0
LONGEST_PAGE = 1000


class Refused(Exception):
    """An answer that is no success: its status, the code of the refusal, and what it says."""

    def __init__(self, status, code, detail):
        super().__init__(f"{code}: {detail}")
        self.status, self.code, self.detail = status, code, detail


class Register:
    def __init__(self, url):
        parts = urllib.parse.urlsplit(url)
        self.host, self.port = parts.hostname, parts.port or 80
        self.connection, self.answered = None, 0.0

    def connected(self):
        """The connection, or a new one where the old one is closed or was idle for long."""
        if self.connection is not None and time.monotonic() - self.answered > LONGEST_IDLE:
            self.connection.close()
            self.connection = None
        if self.connection is None:
            self.connection = http.client.HTTPConnection(self.host, self.port, timeout=60)
            self.answered = time.monotonic()
        return self.connection

    def ask(self, method, path, body=None):
        """What is answered to a request of /api/ipam/, as a value; a refusal is raised."""
        connection = self.connected()
        connection.request(method, "/api/ipam/" + path, None if body is None else json.dumps(body))
        answer = connection.getresponse()
        self.answered = time.monotonic()
        text = answer.read()
        if answer.will_close:
            connection.close()
            self.connection = None
        value = json.loads(text) if text else None
        if answer.status >= 400:
            raise Refused(answer.status, value["code"], value["detail"])
        return value

    def rows(self, kind, **filters):
        """All rows of a kind that the filters leave, page by page."""
        offset = 0
        while True:
            query = urllib.parse.urlencode({**filters, "limit": LONGEST_PAGE, "offset": offset})
            page = self.ask("GET", f"{kind}/?{query}")
            yield from page["results"]
            if page["next"] is None:
                return
            offset += LONGEST_PAGE

    def make(self, kind, row):
        return self.ask("POST", f"{kind}/", row)
