"""The page of a run as one text of HTML, by the templates beside this file."""
import dataclasses
import pathlib

from run_files.sums import Sums
from run_files.texts import many, mean_of, share_of, shown
from run_files.words import needed
from run_page.charts import Charts

jinja2 = needed("report", "jinja2", "python3-jinja2")

LABELS = 60  # that have charts, at most
ROWS = 1_000  # of a table, at most


@dataclasses.dataclass
class Chart:
    """A chart with the numbers that it shows."""

    label: str | None  # None for the one over all labels
    sums: Sums
    svg: object
    parts: list  # pairs of the name of a part and its sums


def charts_of(facts):
    """The chart over all labels, and one for each of the labels with the most samples, in the order of the summary."""
    timeline = facts.timeline
    if not timeline.intervals:
        return []
    labels = timeline.labels()
    kept = set(sorted(labels, key=lambda label: -labels[label].count)[:LABELS])
    order = [label for label in {**facts.totals, **labels} if label in kept]
    charts, names = Charts(timeline.intervals, timeline.width), timeline.names()

    def chart(label, sums, line):
        return Chart(label, sums, jinja2.utils.markupsafe.Markup(charts.draw(line)), list(zip(names, line)))

    of_labels = [chart(label, labels[label], timeline.line(label)) for label in order]
    return [chart(None, facts.over_all, timeline.line_over_all()), *of_labels]


def page_of(facts, results_name, reports_name):
    """The text of the page."""
    environment = jinja2.Environment(loader=jinja2.FileSystemLoader(pathlib.Path(__file__).parent), autoescape=True,
                                     undefined=jinja2.StrictUndefined, trim_blocks=True, lstrip_blocks=True)
    environment.globals.update(rows=ROWS)
    environment.filters.update(shown=shown, mean=mean_of, share=share_of, many=many, number="{:,}".format)
    charts = charts_of(facts)
    without_charts = len(facts.timeline.labels()) - max(0, len(charts) - 1)
    return environment.get_template("page.html.jinja").render(facts=facts, charts=charts, without_charts=without_charts,
                                                              results_name=results_name, reports_name=reports_name)
