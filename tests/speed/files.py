"""The event files that are measured, as the program by hand makes them."""

import os
import subprocess

MIXES = ["mixed", "small", "errors"]
KINDS = ["command", "open", "send", "data", "finish", "media", "link", "comreset", "log"]


class Files:
    def __init__(self, maker, folder):
        self.maker, self.folder = maker, folder
        os.makedirs(folder, exist_ok=True)

    def make(self, kind, events, *further):
        """The path of a file, and how many events of each kind it has, the settings record left out."""
        name = "-".join([kind, *map(str, further), str(events)])
        path = os.path.join(self.folder, name + ".events")
        counts = path + ".counts"
        if not os.path.exists(counts) or os.path.getmtime(counts) < os.path.getmtime(self.maker):
            words = [self.maker, "--make", kind, str(events), *map(str, further)]
            with open(path, "wb") as out:
                made = subprocess.run(words, stdout=out, stderr=subprocess.PIPE, text=True)
            if made.returncode != 0:
                raise SystemExit(f"tests/bench: {' '.join(words)}: status {made.returncode}")
            with open(counts, "w") as out:
                out.write(made.stderr)
        with open(counts) as said:
            pairs = [word.split("=") for word in said.read().split()]
        return path, {kind: int(count) for kind, count in pairs}

    def remove(self, path):
        os.remove(path)
        os.remove(path + ".counts")


def solved(rows, values):
    """x with rows . x = values, by elimination; each row is as long as there are rows."""
    size = len(rows)
    system = [[float(n) for n in row] + [float(value)] for row, value in zip(rows, values)]
    for at in range(size):
        best = max(range(at, size), key=lambda row: abs(system[row][at]))
        system[at], system[best] = system[best], system[at]
        for row in range(size):
            if row != at:
                factor = system[row][at] / system[at][at]
                system[row] = [a - factor * b for a, b in zip(system[row], system[at])]
    return [system[at][size] / system[at][at] for at in range(size)]
