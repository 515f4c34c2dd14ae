"""Edits of a crate, in the form of the must-fail folders: a line 'file:', then pairs of lines 'old:' and 'new:'. Each old text
stands once in its file. Other lines are passed over, as rt does."""
import os

def read(path):
    with open(path, encoding="utf-8") as f:
        return f.read()

def write(path, text):
    with open(path, "w", encoding="utf-8") as f:
        f.write(text)

def labels_in(folder):
    return sorted(name[:-len(".edit")] for name in os.listdir(folder) if name.endswith(".edit"))

# What stands behind a word such as 'error:' in an edit, or nothing.
def word_of(text, word):
    for line in text.splitlines():
        if line.startswith(word + ": "):
            return line[len(word) + 2:].strip()
    return ""

def pairs_of(text):
    pairs, file, old = [], "", ""
    for line in text.splitlines():
        if line.startswith("file: "):
            file = line[len("file: "):]
        elif line.startswith("old: "):
            old = line[len("old: "):]
        elif line.startswith("new:"):
            pairs.append((file, old, line[len("new:"):].removeprefix(" ")))
    return pairs

class Planted:
    """An edit that stands in a crate's folder for as long as it is entered; `trouble` says why it cannot be planted."""

    def __init__(self, folder, text):
        self.folder, self.pairs, self.before = folder, pairs_of(text), {}
        self.trouble = "" if self.pairs else "it has no 'old:' and 'new:' pair"

    def __enter__(self):
        for file, old, new in self.pairs:
            path = os.path.join(self.folder, file)
            if not os.path.isfile(path):
                self.trouble = f"there is no file '{file}'"
                break
            text = read(path)
            times = text.count(old) if old else 0
            if times != 1:
                self.trouble = f"its text '{old}' stands {times} times in {file}"
                break
            self.before.setdefault(path, text)
            write(path, text.replace(old, new))
        return self

    def __exit__(self, *_):
        for path, text in self.before.items():
            write(path, text)
