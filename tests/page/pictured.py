"""The texts of a picture that `ultra picture` draws, cell by cell."""
import xml.etree.ElementTree as tree

SVG = "{http://www.w3.org/2000/svg}"
KINDS = ("request", "record", "reply", "word")


class Picture:
    """`processors` has the text of each processor, `lines` all other texts, each with its kind and after its place: as
    `stage 0 wire 3: 2 waits for 1: add 00000001`, `processor 4: ..` or `module 1: ..`. `steps` is how many steps were taken."""

    def __init__(self, text):
        root = tree.fromstring(text)
        texts = list(root.iter(SVG + "text"))
        self.steps = int(next(it.text for it in texts if it.get("class") == "heading").split(" after ")[1].split()[0])
        cells = [it for it in texts if it.get("class") == "cell"]
        if cells:
            self.take_cells(texts)
        else:
            self.take_summary(texts)

    def take_cells(self, texts):
        columns = []
        for it in texts:
            if it.get("class") == "column":
                columns.append([])
            elif it.get("class") == "cell":
                title, *lines = it.iter(SVG + "tspan")
                columns[-1].append((title.text, [(line.get("class"), line.text) for line in lines]))
        self.processors = [title for title, _ in columns[0]]
        self.lines = []
        for number, column in enumerate(columns):
            for row, (title, lines) in enumerate(column):
                place = f"processor {row}" if number == 0 else f"stage {number - 1} {title}" if number < len(columns) - 1 else title
                self.lines += [(kind, f"{place}: {text}") for kind, text in lines]

    def take_summary(self, texts):
        marks, names = [], []
        for it in texts:
            if it.get("class") == "column":
                names.append(it.text)
                marks.append([])
            elif it.get("class") == "mark":
                marks[-1].append(it.text)
        assert names[0] == "processors" and names[-1] == "modules", names
        self.processors = marks[0]
        self.lines = [(span.get("class"), span.text) for it in texts for span in it.iter(SVG + "tspan") if span.get("class") in KINDS]

    def texts(self):
        """The texts without their places, of each kind."""
        return {kind: sorted(text.split(": ", 1)[1] for its, text in self.lines if its == kind) for kind in KINDS}
