"""What the server counts, and how Prometheus reads it."""

from __future__ import annotations

from collections import Counter
from collections.abc import Callable, Iterator, Mapping
from typing import Any, cast

from ..command.exit_statuses import NoAnswer

BOUNDS = (0.001, 0.003, 0.01, 0.03, 0.1, 0.3, 1.0, 3.0, 10.0)


class Metrics:
    """Counts by call and status, the times of answers, and figures that are read when somebody asks for them."""

    def __init__(self) -> None:
        self.answered: Counter[tuple[str, int]] = Counter()
        self.refused: Counter[str] = Counter()
        self._within = [0] * len(BOUNDS)
        self._count, self._seconds = 0, 0.0
        self.figures: dict[str, tuple[str, Callable[[], float]]] = {}

    def count(self, call: str, status: int, seconds: float) -> None:
        """Notes an answer."""
        self.answered[call, status] += 1
        self._count += 1
        self._seconds += seconds
        for place, bound in enumerate(BOUNDS):
            self._within[place] += seconds <= bound

    def collect(self) -> Iterator[Any]:
        """All of it, in the families of the client library."""
        from prometheus_client.core import CounterMetricFamily, GaugeMetricFamily, HistogramMetricFamily
        answered = CounterMetricFamily("tukyamid_public_requests", "Answered requests.", labels=["call", "status"])
        for (call, status), count in self.answered.items():
            answered.add_metric([call, str(status)], count)
        refused = CounterMetricFamily("tukyamid_public_refused", "Requests that a bound refused.", labels=["reason"])
        for reason, count in self.refused.items():
            refused.add_metric([reason], count)
        times = HistogramMetricFamily("tukyamid_public_seconds", "How long answers took.")
        buckets = [(str(bound), count) for bound, count in zip(BOUNDS, self._within)]
        times.add_metric([], [*buckets, ("+Inf", self._count)], self._seconds)
        yield from (answered, refused, times)
        for name, (meaning, value) in self.figures.items():
            yield GaugeMetricFamily(f"tukyamid_public_{name}", meaning, value=value())


def exposition(metrics: Metrics) -> Callable[[], tuple[bytes, Mapping[str, str]]]:
    """What writes the metrics as Prometheus reads them, with the headers. NoAnswer if the library is missing."""
    try:
        from prometheus_client import CONTENT_TYPE_LATEST, CollectorRegistry, generate_latest
    except ModuleNotFoundError:
        raise NoAnswer("metrics need Python's prometheus_client: apt-get install python3-prometheus-client") from None
    registry = CollectorRegistry()
    registry.register(cast(Any, metrics))
    return lambda: (generate_latest(registry), {"Content-Type": CONTENT_TYPE_LATEST})
