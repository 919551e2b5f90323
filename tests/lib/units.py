"""The values that the checks read from the units of examples/, to do as systemd does where there is none: each value by its section and
name."""
import shlex


class Unit:
    """A unit's values; some texts in it are first replaced by others, such as paths of this machine."""

    def __init__(self, path, places=()):
        with open(path, encoding="utf-8") as file:
            text = file.read()
        for place, here in places:
            text = text.replace(place, here)
        self.values, section = {}, ""
        for line in text.replace("\\\n", " ").splitlines():
            if line.startswith("["):
                section = line.strip("[]")
            elif line and not line.startswith("#"):
                name, value = line.split("=", 1)
                self.values.setdefault(f"{section}.{name}", []).append(value.strip())

    def get(self, name, default=""):
        """Its last value."""
        return self.values.get(name, [default])[-1]

    def commands(self, name, **variables):
        """The arguments of each of its commands, with doubled backslashes resolved, and with these variables in place of a word $NAME; a
        word without a value is left out."""
        for value in self.values.get(name, []):
            found = shlex.split(value.replace("\\\\", "\\"))
            found = [variables.get(word[1:], "") if word.startswith("$") else word for word in found]
            yield [word for word in found if word]

    def words(self, name, **variables):
        """The arguments of its last command."""
        return list(self.commands(name, **variables))[-1]
