"""The files of a package, and how they are packed: the same files and the same time give the same bytes."""
import gzip
import io
import os
import re
import tarfile

# A link of a page: its text, the file where it leads, and the heading there.
LINK = re.compile(r"\[((?:[^][]|\[[^][]*\])*)\]\(([^)\s#]+)(#[^)\s]*)?\)")
# What a page's commands have of a build, and what they have once that is installed.
INSTALLED = (
    (re.compile(r"^    \$ (\./tmwatch-c built|export PKG_CONFIG_PATH=built/.*)\n", re.M), ""),
    (re.compile(r"^(    .*) -Ibuilt/include\b", re.M), r"\1"),
    (re.compile(r"\bbuilt/lib/lib(\w+)\.a\b(?=.*\n)"), r"-l\1"),
    (re.compile(r"\bTMWATCH_LIB=\S*built/lib "), ""),
    (re.compile(r"\./tmwatch "), "tmwatch "),
)


def parents(path):
    """Returns the folders above a path, the last of them the empty one."""
    while path:
        path = os.path.dirname(path)
        yield path


class Tree:
    """What is packed: for each path the mode and the bytes, or the path that it links to."""

    def __init__(self):
        self.files, self.links = {}, {}

    def add(self, path, data, mode=0o644):
        self.files[path] = (mode, data)

    def add_file(self, path, one, mode=0o644):
        with open(one, "rb") as it:
            self.add(path, it.read(), mode)

    def add_packed(self, path, data):
        """Adds the bytes as gzip packs them, with neither a name nor a time."""
        self.add(f"{path}.gz", gzip.compress(data, mtime=0))

    def add_folder(self, path, folder):
        for at, folders, names in os.walk(folder):
            folders[:] = sorted({*folders} - {"target", "__pycache__"})
            for name in names:
                mode = 0o755 if os.access(f"{at}/{name}", os.X_OK) else 0o644
                self.add_file(f"{path}{at[len(folder) :]}/{name}", f"{at}/{name}", mode)

    def adapt(self, pages):
        """Fits these pages to what is installed: a link that leads to no file here becomes its text, and commands name no build."""
        there = {at for path in self.files for at in (path, *parents(path))}
        for page in [path for path in self.files if path.startswith(f"{pages}/") and path.endswith(".md")]:

            def keep(link):
                to = os.path.normpath(f"{os.path.dirname(page)}/{link[2]}")
                return link[0] if "://" in link[2] or to in there else link[1]

            mode, data = self.files[page]
            text = LINK.sub(keep, data.decode())
            for words, to in INSTALLED:
                text = words.sub(to, text)
            self.files[page] = (mode, text.encode())

    def size(self):
        """Returns how many KiB the files take."""
        return sum(-(-len(data) // 1024) for _, data in self.files.values())

    def pack(self, seconds):
        """Returns an archive of all, as tar and gzip pack it: root's, and of this time."""
        paths = {*self.files, *self.links}
        folders = {"." if not at else at for path in paths for at in parents(path)}
        to = io.BytesIO()
        with tarfile.open(fileobj=to, mode="w", format=tarfile.GNU_FORMAT) as archive:
            for path in sorted({*paths, *folders}):
                entry = tarfile.TarInfo("./" if path == "." else f"./{path}")
                entry.mtime, entry.uname, entry.gname = seconds, "root", "root"
                if path in self.files:
                    entry.mode, data = self.files[path]
                    entry.size = len(data)
                    archive.addfile(entry, io.BytesIO(data))
                elif path in self.links:
                    entry.type, entry.mode, entry.linkname = tarfile.SYMTYPE, 0o777, self.links[path]
                    archive.addfile(entry)
                else:
                    entry.type, entry.mode = tarfile.DIRTYPE, 0o755
                    archive.addfile(entry)
        return gzip.compress(to.getvalue(), mtime=0)
