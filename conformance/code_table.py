"""Reads the debug information that `cool_editor --code` prints: the source lines of addresses of compiled code, and the names of parameters and attributes."""

from tracing import HEAD_BYTES

BASIC = ("Object", "IO", "Int", "Bool", "String")


class CodeTable:
    """The rows of a program of some files, and the labels of the methods in its assembly, which are in the same order."""

    def __init__(self, rows, files, methods):
        self.files, self.methods = files, [name for name in methods if name.partition(".")[0] not in BASIC]
        self.attributes, self.formals, self.starts, self.features, self.code = {}, {}, {}, [], []
        labels = iter(self.methods)
        for kind, *words in rows:
            if kind == "class":
                names = self.attributes[words[0]] = []
            elif kind == "method":
                label = next(labels)
                self._feature(words, label)
                self.starts[label] = int(words[0])
                names = self.formals[label] = []
            elif kind == "initial":
                self._feature(words, f"the initial value of {words[2]}")
            elif kind == "code":
                file, line, _ = map(int, words[3].split(":"))
                self.code.append((int(words[0]), int(words[1]), f"{files[file]}:{line}"))
            else:  # attributes and formals, the last first
                names.insert(0, words[0])

    def _feature(self, words, name):
        self.features.append((int(words[0]), int(words[1]), name))

    def place(self, back, addresses):
        """Where the call with a return address is: its file and line, and its feature. `addresses` are those of the methods as they are traced."""
        before = [name for name in self.starts if addresses.get(name, back) < back]
        if before:
            label = max(before, key=addresses.get)
            address = self.starts[label] + back - addresses[label] - HEAD_BYTES
        else:
            label = min(self.starts, key=addresses.get)
            address = self.starts[label] + back - addresses[label]
        return tuple(next((row[2] for row in reversed(rows) if row[0] <= address - 4 < row[1]), "") for rows in (self.code, self.features))
