"""What a page has in each browser that scripts/outside/lib/browsers.py starts."""

import time

# How long a browser may take to answer, and a page to come to something, on a busy machine.
ANSWER_SECONDS = 60
WAIT_SECONDS = 60


class Away(Exception):
    """The page that was asked has gone, and another comes."""


class BrowserPage:
    """A page of a browser: addresses that it `asked` for over the network, and what its console and its log `said`."""

    def __init__(self, browser):
        self.browser = browser
        self.asked = []
        self.said = []

    def value(self, expression):
        """The value of an expression in the page; a promise is waited for."""
        raise NotImplementedError

    def is_so(self, expression):
        """Whether an expression is true; not while another page comes."""
        try:
            return self.value(expression)
        except Away:
            return False

    def wait(self, expression, seconds=WAIT_SECONDS):
        """Waits until an expression is true."""
        deadline = time.monotonic() + seconds
        while not self.is_so(expression):
            assert time.monotonic() < deadline, f"not within {seconds} s: {expression}\n{self.looks()}"
            time.sleep(0.05)

    def looks(self):
        """What the page shows, and what its console said last, for who asks why a check failed."""
        try:
            shown = self.value("document.body?.innerText ?? ''")
        except (Away, AssertionError, OSError) as error:
            shown = f"nothing: {error}"
        return f"  the page shows: {shown!r:.1500}\n  its console: {self.said[-5:]!r:.1500}"
