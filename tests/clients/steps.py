"""Runs the steps of a script over a client, and prints a line of JSON for each."""
import inspect
import json
import sys
import time
import traceback


class Steps:
    """jobs() tells how many jobs of the wiki wait; each step begins when none does."""

    def __init__(self, jobs):
        self.jobs, self.failed = jobs, 0

    def __call__(self, function):
        ends = time.monotonic() + 120
        while self.jobs() and time.monotonic() < ends:
            time.sleep(0.01)
        line = {"step": function.__name__}
        try:
            got = function()
            line["got"] = list(got) if inspect.isgenerator(got) else got
        except Exception as it:
            traceback.print_exc()
            line["failed"] = f"{type(it).__name__}: {it}"
            self.failed += 1
        print(json.dumps(line, default=str), flush=True)

    def end(self):
        sys.exit(1 if self.failed else 0)
