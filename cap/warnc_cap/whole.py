"""Files that are written as a whole: a new one beside the old, which takes its place at the end."""
import contextlib
import os


class Whole:
    """Files that take their places together, or not at all."""

    def __init__(self):
        self.paths = []

    def add(self, path, text):
        """Writes a file beside the place that it is for."""
        if os.path.isdir(path):
            raise IsADirectoryError(f"{path} is a folder")
        self.paths.append(path)
        with open(f"{path}.new", "w", encoding="utf-8", newline="") as it:
            it.write(text)

    def put(self):
        """Puts all files in their places."""
        while self.paths:
            os.replace(f"{self.paths[0]}.new", self.paths[0])
            del self.paths[0]

    def drop(self):
        """Removes what isn't in its place."""
        for it in self.paths:
            with contextlib.suppress(OSError):
                os.remove(f"{it}.new")
