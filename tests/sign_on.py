"""A stub of an identity provider's agent, which sso.conf asks who somebody is."""
import contextlib
import http.server
import re
import threading


class Agent(http.server.BaseHTTPRequestHandler):
    """A stub of an identity provider's agent: its cookie is the user's name."""

    # Who signs in at the provider next.
    signs_in = "ada"
    # The header of the last request.
    header = None

    def do_POST(self):
        self.do_GET()

    def do_GET(self):
        path, _, query = self.path.partition("?")
        Agent.header = {name: text for name, text in self.headers.items()}
        user = re.search(r"signed_in=(\w+)", self.headers.get("Cookie", ""))
        if path == "/oauth2/auth" and user:
            self.answer(202, X_Auth_Request_User=user[1])
        elif path == "/oauth2/start":
            self.answer(302, Location=query.removeprefix("rd="),
                        Set_Cookie=f"signed_in={self.signs_in}; Path=/; HttpOnly")
        elif path == "/oauth2/sign_out":
            self.answer(200, Set_Cookie="signed_in=; Path=/; Max-Age=0")
        else:
            self.answer(401)

    def answer(self, status, **fields):
        self.send_response(status)
        for name, value in fields.items():
            self.send_header(name.replace("_", "-"), value)
        self.send_header("Content-Length", "0")
        self.end_headers()

    def log_message(self, *_):
        pass


@contextlib.contextmanager
def provider():
    """Its address, while it runs."""
    with http.server.ThreadingHTTPServer(("127.0.0.1", 0), Agent) as agent:
        threading.Thread(target=agent.serve_forever).start()
        try:
            yield f"127.0.0.1:{agent.server_port}"
        finally:
            agent.shutdown()
