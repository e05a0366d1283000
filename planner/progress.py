"""Says on standard error, from the second second of a command on, what is being done."""
import contextlib
import sys
import threading
import time

FIRST, NEXT = 1.0, 2.0


class Progress:
    """While it stands, a line every two seconds: the work, how far it is where it has parts, and the seconds since the command began."""

    def __init__(self):
        self.over = self.teller = None
        self.is_quiet = False
        self.doing("reading")

    def doing(self, work, count=1):
        """Names the work that begins, and how many parts it has."""
        self.work, self.count, self.done = work, count, 0

    def step(self):
        """One part more is begun."""
        self.done += 1

    @contextlib.contextmanager
    def quiet(self):
        """While it stands nothing is said: what is done then says so itself."""
        self.is_quiet = True
        try:
            yield
        finally:
            self.is_quiet = False

    def tell(self, over):
        """The lines, until it is over."""
        began, wait = time.monotonic(), FIRST
        while not over.wait(wait):
            far = f", {min(self.done, self.count):,} of {self.count:,}" if self.count > 1 else ""
            if not self.is_quiet:
                print(f"ombradiec: {self.work}{far}, {time.monotonic() - began:.0f} s", file=sys.stderr, flush=True)
            wait = NEXT

    def __enter__(self):
        self.doing("reading")
        self.over = threading.Event()
        self.teller = threading.Thread(target=self.tell, args=(self.over,), daemon=True)
        self.teller.start()

    def __exit__(self, *_):
        self.over.set()
        self.teller.join()


PROGRESS = Progress()
