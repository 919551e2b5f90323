"""The record of everything that the executor sent, as the manager keeps it."""
import json


class Record:
    """All results that were seen, in a file: the manager's own memory, to be compared with the journal."""

    def __init__(self, path):
        self.results, self.new = {}, []  # by resource and by call and run; and the results that were not looked at yet
        self.file = open(path, "a+")
        self.file.seek(0)
        for line in self.file:
            if line.endswith("\n"):
                entry = json.loads(line)
                self.keep(entry.pop("id"), entry)

    def keep(self, name, result):
        """Adds a result. Returns whether it is new."""
        key, known = (result["call"], result["run"]), self.results.setdefault(name, {})
        return key not in known and known.setdefault(key, result) is result

    def add(self, name, result):
        if self.keep(name, result):
            self.file.write(json.dumps({"id": name, **result}) + "\n")
            self.file.flush()
            self.new.append((name, result))

    def last(self, name):
        """The result of the last action other than a recurring monitor; calls are numbered in the order of their requests."""
        asked = [result for result in self.results.get(name, {}).values() if result["interval"] == 0]
        return max(asked, key=lambda result: result["call"], default=None)
