"""Charts of a run along its intervals, as SVG that stands in a page and takes its colours from there."""
import io
import re
import xml.etree.ElementTree as tree

from run_files.words import needed

matplotlib = needed("report", "matplotlib", "python3-matplotlib")
from matplotlib.figure import Figure  # noqa: E402  (needed() has said what to do where it is not there)
from matplotlib.backends.backend_svg import FigureCanvasSVG  # noqa: E402
from matplotlib.ticker import EngFormatter, MaxNLocator  # noqa: E402

WIDTH, HEIGHT = 5.4, 4.1  # inches of 72 points, each a pixel of the page where the chart has its own size
COLOURS = {  # what is drawn in a colour that the page chooses, by a name of CSS
    "#000001": "--samples", "#000002": "--errors", "#000003": "--mean", "#000004": "--greatest", "#000005": "--ink",
    "#000006": "--grid",
}
SAMPLES, ERRORS, MEAN, GREATEST, INK, GRID = COLOURS
SETTINGS = {"svg.fonttype": "none", "svg.hashsalt": "charts", "font.family": "sans-serif", "font.sans-serif": ["DejaVu Sans"],
            "font.size": 12, "text.color": INK, "axes.labelcolor": INK, "xtick.color": INK, "ytick.color": INK,
            "axes.edgecolor": GRID, "grid.color": GRID}
MARGINS = {"left": 0.11, "right": 0.96, "bottom": 0.13, "top": 0.93, "hspace": 0.3}
LINE = {"baseline": None, "linewidth": 1.6, "clip_on": False}
SVG = "http://www.w3.org/2000/svg"
tree.register_namespace("", SVG)


class Charts:
    """Draws one chart after another on the same axes: samples and failed samples above, mean and greatest times below."""

    def __init__(self, intervals, width):
        """For runs of this many intervals, of which each part of a line joins `width`. An interval's number is its middle."""
        self.edges = [edge - 0.5 for edge in (*range(0, intervals, width), intervals)]
        with matplotlib.rc_context(SETTINGS):
            self.figure = Figure(figsize=(WIDTH, HEIGHT))
            FigureCanvasSVG(self.figure)
            self.figure.patch.set_visible(False)
            above, below = self.figure.subplots(2, 1, sharex=True, gridspec_kw=MARGINS)
            prepare(above, "samples")
            prepare(below, "milliseconds")
            for axis in (above.xaxis, above.yaxis, below.yaxis):
                axis.set_label_coords(0, 0)  # they have no label, whose place would be sought anew for each chart
            below.set_xlabel("interval", labelpad=2)
            below.set_xlim(self.edges[0], self.edges[-1])
            below.xaxis.set_major_locator(MaxNLocator(nbins=6, integer=True, min_n_ticks=1))
            nothing, edges = [0], [self.edges[0], self.edges[-1]]  # `draw` sets both; many edges would be gone through here
            self.above, self.below = above, below
            self.samples = above.stairs(nothing, edges, fill=True, color=SAMPLES, clip_on=False)
            self.errors = above.stairs(nothing, edges, fill=True, color=ERRORS, clip_on=False)
            self.greatest = below.stairs(nothing, edges, color=GREATEST, linestyle=(0, (4, 1.5)), **LINE)
            self.mean = below.stairs(nothing, edges, color=MEAN, **LINE)

    def draw(self, line):
        """The chart of a line, which is the sums of each part, as the text of an SVG element."""
        nan = float("nan")
        self.samples.set_data([sums.count for sums in line], self.edges)
        self.errors.set_data([sums.errors for sums in line], self.edges)
        self.greatest.set_data([sums.greatest if sums.count else nan for sums in line], self.edges)
        self.mean.set_data([sums.mean if sums.count else nan for sums in line], self.edges)
        self.above.set_ylim(0, max(1, max(sums.count for sums in line)))
        self.below.set_ylim(0, max(1, max(sums.greatest for sums in line)))
        text = io.StringIO()
        with matplotlib.rc_context(SETTINGS):
            self.figure.canvas.print_svg(text)
        return plain(text.getvalue())


def prepare(axes, title):
    """Axes with a grid of lines across, whole numbers, and no frame."""
    axes.patch.set_visible(False)
    axes.set_title(title, loc="left", fontsize=12, pad=5, y=1.0)  # without `y` it is sought anew for each chart
    axes.grid(axis="y", linewidth=0.8)
    axes.set_axisbelow(True)
    axes.tick_params(left=False, bottom=False)
    axes.spines[["left", "right", "top"]].set_visible(False)
    axes.yaxis.set_major_locator(MaxNLocator(nbins=4, integer=True, min_n_ticks=1))
    axes.yaxis.set_major_formatter(EngFormatter(sep=""))


def plain(text):
    """Matplotlib's SVG as an element of a page: without what is for a file of its own, with the page's colours, and short."""
    root = tree.fromstring(text)
    for name in ("metadata", "defs"):
        for element in root.findall(f"{{{SVG}}}{name}"):
            root.remove(element)
    for name in ("width", "height", "version"):
        root.attrib.pop(name, None)
    root.set("aria-hidden", "true")
    for element in root.iter():
        element.attrib.pop("id", None)
        element.text, element.tail = (element.text or "").strip(), ""
        if "d" in element.attrib:
            element.set("d", re.sub(r"(?<=\d\.\d)\d+", "", " ".join(element.get("d").split())))  # one decimal is enough
    return re.sub("|".join(COLOURS), lambda found: f"var({COLOURS[found[0]]})", tree.tostring(root, encoding="unicode"))
