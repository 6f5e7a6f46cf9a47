"""Metrics as Prometheus reads them: text of format 0.0.4, in which each metric has a line of help, one of its type, and its samples.

    answers = Counter("moo_requests_total", "Requests that were answered.", "route", "status")
    answers.add("/api/seq", "200")
    metrics_text([answers])
"""

from __future__ import annotations

import bisect
import math
import threading
from collections.abc import Iterable, Iterator, Mapping
from typing import Callable, Union

KIND = "text/plain; version=0.0.4; charset=utf-8"
# The upper bounds of the classes of a histogram, in seconds.
BOUNDS = (0.0005, 0.001, 0.0025, 0.005, 0.01, 0.025, 0.05, 0.1, 0.25, 0.5, 1.0, 2.5, 5.0, 10.0, 30.0)
# What has more labels is counted as OTHER, so that nobody fills the memory by new ones.
MOST_SERIES, OTHER = 1000, "other"

Labels = tuple[str, ...]
MetricValues = Union[float, Mapping[str, float]]


class Metric:
    """A metric: its name, what it says, and the names of its labels. A subclass has its samples."""

    kind = ""

    def __init__(self, name: str, says: str, *labels: str) -> None:
        self.name, self.says, self.labels = name, says, labels
        self.lock = threading.Lock()

    def samples(self) -> Iterator[tuple[str, str, float]]:
        """Each sample: what follows the metric's name, the labels as they are written, and the value."""
        raise NotImplementedError

    def lines(self) -> Iterator[str]:
        """The metric as text."""
        yield f"# HELP {self.name} {self.says}"
        yield f"# TYPE {self.name} {self.kind}"
        for suffix, labels, value in self.samples():
            yield f"{self.name}{suffix}{labels} {number(value)}"

    def written(self, given: Labels, *more: tuple[str, str]) -> str:
        """Labels as they are written."""
        pairs = [*zip(self.labels, given), *more]
        return "{" + ",".join(f'{name}="{escaped(value)}"' for name, value in pairs) + "}" if pairs else ""


class Counter(Metric):
    """How often something happened, by its labels."""

    kind = "counter"

    def __init__(self, name: str, says: str, *labels: str) -> None:
        super().__init__(name, says, *labels)
        self.counts: dict[Labels, float] = {} if labels else {(): 0}

    def add(self, *labels: str) -> None:
        """Counts it once more."""
        with self.lock:
            key = labels if labels in self.counts or len(self.counts) < MOST_SERIES else (OTHER,) * len(labels)
            self.counts[key] = self.counts.get(key, 0) + 1

    def samples(self) -> Iterator[tuple[str, str, float]]:
        with self.lock:
            counts = sorted(self.counts.items())
        for labels, count in counts:
            yield "", self.written(labels), count


class Gauge(Metric):
    """What something is at the moment: `read` gives a number, or a number for each value of its one label."""

    kind = "gauge"

    def __init__(self, name: str, says: str, read: Callable[[], MetricValues], *labels: str) -> None:
        super().__init__(name, says, *labels)
        self.read = read

    def samples(self) -> Iterator[tuple[str, str, float]]:
        found = self.read()
        for label, value in sorted(found.items()) if isinstance(found, Mapping) else [("", found)]:
            yield "", self.written((label,) if self.labels else ()), value


class Total(Gauge):
    """A number that only grows, and that something else counts."""

    kind = "counter"


class Histogram(Metric):
    """How long something took, in classes of seconds, by its labels."""

    kind = "histogram"

    def __init__(self, name: str, says: str, *labels: str) -> None:
        super().__init__(name, says, *labels)
        # Of each series, how many were in each class and over the last bound, and their sum.
        self.series: dict[Labels, tuple[list[int], float]] = {} if labels else {(): ([0] * (len(BOUNDS) + 1), 0.0)}

    def take(self, seconds: float, *labels: str) -> None:
        """Counts one that took so long."""
        with self.lock:
            key = labels if labels in self.series or len(self.series) < MOST_SERIES else (OTHER,) * len(labels)
            counts, total = self.series.get(key) or ([0] * (len(BOUNDS) + 1), 0.0)
            counts[bisect.bisect_left(BOUNDS, seconds)] += 1
            self.series[key] = (counts, total + seconds)

    def samples(self) -> Iterator[tuple[str, str, float]]:
        with self.lock:
            series = [(labels, list(counts), total) for labels, (counts, total) in sorted(self.series.items())]
        for labels, counts, total in series:
            seen = 0
            for bound, count in zip((*BOUNDS, math.inf), counts):
                seen += count
                yield "_bucket", self.written(labels, ("le", number(bound))), seen
            yield "_sum", self.written(labels), total
            yield "_count", self.written(labels), seen


def number(value: float) -> str:
    """A number as it is written."""
    if math.isnan(value):
        return "NaN"
    if math.isinf(value):
        return "+Inf" if value > 0 else "-Inf"
    return str(int(value)) if value == int(value) else repr(float(value))


def escaped(text: str) -> str:
    """The value of a label between its quotes."""
    return text.replace("\\", "\\\\").replace('"', '\\"').replace("\n", "\\n")


def metrics_text(metrics: Iterable[Metric]) -> str:
    """All these metrics."""
    return "".join(f"{line}\n" for metric in metrics for line in metric.lines())
