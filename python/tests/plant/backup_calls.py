"""The words of the command that backs up, and what it does, for its tests."""

import argparse


def args_of(into, **more):
    found = argparse.Namespace(program="/bin/P", site="/s.toml", db="/db/books.db", into=into, snapshot="",
        snapshot_size="",
                               clean=False, trial=False, keep_days=7, keep_weeks=5, recipient=[], copy_with="",
                               folder=None,
                               taken=("", ""))  # fmt: skip
    vars(found).update(more)
    return found


class Calls(list):
    """Notes what is done; `fails` has the names of what fails, with the error."""

    fails = {}

    def noted(self, name, answer=None):
        def call(*words):
            self.append((name, *words))
            if name in self.fails:
                raise self.fails[name]
            return answer

        return call


def heads(calls):
    return [it[0] for it in calls]
