"""Each page and image that a tool makes is as the tool makes it, each definition has a comment, and each link leads somewhere."""
import re
import subprocess
import sys

from lib.cases import Case
from lib.program import TOP

PAGES = [*(TOP / name for name in ("README.md", "CONTRIBUTING.md", "CHANGELOG.md", "examples/README.md")), *sorted(TOP.glob("docs/*.md"))]
# Texts in a page that aren't prose: blocks, and code between backquotes.
CODE = re.compile(r"^```.*?^```$|`[^`\n]*`", re.M | re.S)


def anchors(text):
    """The places that the headings of a page make."""
    headings = re.findall(r"^#+ (.*)$", re.sub(r"^```.*?^```$", "", text, flags=re.M | re.S), re.M)
    return {re.sub(r"[^\w -]", "", heading.lower()).replace(" ", "-") for heading in headings}


class Tools(Case):
    def check(self, tool):
        done = subprocess.run([sys.executable, TOP / "dev" / tool, "--check"], capture_output=True, text=True, stdin=subprocess.DEVNULL)
        self.true(tool, done.returncode == 0, done.stdout + done.stderr)

    def test_book(self):
        """docs/THEOREM.md has the theorem, and docs/LAWS.md the laws, with the definitions that they rest on. Each chapter and the
        functions of reference/shardscrub.py that compute the same name each other."""
        self.check("book.py")

    def test_comments(self):
        """Each definition has a comment of one sentence or two."""
        self.check("comments.py")

    def test_manual(self):
        """docs/shardscrub.1 has the texts of the help, and the messages."""
        self.check("manual.py")

    def test_messages(self):
        """docs/READING.md has the tables of messages."""
        self.check("messages.py")

    def test_stops(self):
        """docs/RECLAIMING.md has the tables of what act/reclaim says."""
        self.check("stops.py")

    def test_images(self):
        """The images and maps of examples/."""
        self.check("images.py")


class Links(Case):
    def test_each_link_leads_somewhere(self):
        """In each page, to a file of the repository, and to a heading if one is named."""
        texts = {path: path.read_text(encoding="utf-8") for path in PAGES}
        for path, text in texts.items():
            targets = dict.fromkeys(re.findall(r"\]\((?!https?:)([^)\s]+)\)", CODE.sub(lambda code: "" if "\n" in code[0] else "x", text)))
            for target in targets:
                name, _, anchor = target.partition("#")
                to = (path.parent / name).resolve() if name else path
                where = f"{path.relative_to(TOP)}: {target}"
                self.true(where, to.exists(), "is nowhere")
                if anchor and to in texts:
                    self.true(where, anchor in anchors(texts[to]), "has no such heading")
