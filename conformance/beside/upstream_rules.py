"""Upstream's rules, as keys of the settings of a document of version 4, and the program by such keys."""
from .program import Program

RULES_OF_1_20 = {"rules": "1.20"}
# Those of client-go 0.36 are the elections' own.
RULES_OF_0_36 = {"retries": "ticks", "respect": "record"}
# How a leader gives its Lease back where `ReleaseOnCancel` is on.
RELEASES_OF_1_20 = {"release": "own", "inRelease": "acts"}
RELEASES_OF_0_36 = {"release": "reread", "inRelease": "acts"}
NO_RELEASES = {"release": "stop", "inRelease": "still"}


class RuledProgram(Program):
    """The program, whose documents are of version 4 and have these keys where they don't say others. It shares its answers."""

    def __init__(self, program, rules, waits=None):
        self.words, self.answers, self.pool = program.words, program.answers, program.pool
        self.rules, self.more = rules, {"waits": waits} if waits else {}

    def lines(self, command, given):
        return super().lines(command, given if isinstance(given, str) or "settings" not in given else self.ruled(given))

    def ruled(self, made):
        controllers = [{**self.more, **it} for it in made["controllers"]]
        return dict(made, version=4, settings={**self.rules, **made["settings"]}, controllers=controllers)
