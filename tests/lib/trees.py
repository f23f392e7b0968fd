"""Files and folders, read, written and compared."""
import os


def read(*path):
    with open(os.path.join(*path), "rb") as file:
        return file.read()


def write(*path, text):
    with open(os.path.join(*path), "wb") as file:
        file.write(text)


def read_if_there(*path):
    return read(*path) if os.path.exists(os.path.join(*path)) else None


def write_script(*path, text):
    """Writes a program."""
    write(*path, text=text.encode())
    os.chmod(os.path.join(*path), 0o755)


def tree(folder):
    """Each file of a folder with its bytes, and each folder, by their names; darcs' own folder isn't among them."""
    found, folder = {}, os.fsencode(folder)
    for at, folders, files in os.walk(folder):
        folders[:] = [it for it in folders if it != b"_darcs"]
        found.update((os.path.relpath(os.path.join(at, it), folder), None) for it in folders)
        found.update((os.path.relpath(os.path.join(at, it), folder), read(at, it)) for it in files)
    return found


def all_bytes(folder):
    """Each file below a folder with its bytes, also what is darcs' own."""
    return {os.path.join(at, it): read(at, it) for at, _, files in os.walk(folder) for it in files}


class Folder:
    """Files with a name each of their own."""

    def __init__(self, path):
        self.path, self.count = path, 0

    def fresh(self):
        self.count += 1
        return os.path.join(self.path, str(self.count))

    def keep(self, text):
        """The path of a new file with this text."""
        path = self.fresh()
        write(path, text=text.encode() if isinstance(text, str) else text)
        return path
