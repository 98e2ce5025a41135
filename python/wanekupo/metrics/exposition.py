"""Metrics as Prometheus reads them (text-based format 0.0.4), and which there are: each has its name here, once.

The rules of deploy/prometheus are held to these names by a test.
"""

import math
from dataclasses import dataclass, field
from typing import Mapping, Self, Union

Value = Union[int, float, bool]

GAUGE, COUNTER = "gauge", "counter"

# What each metric is, by its name, in the order in which they are written.
METRICS = {
    "wanekupo_metrics_success": (GAUGE, "Whether a part of these metrics could be had: 1, or 0 where it couldn't."),
    "wanekupo_metrics_timestamp_seconds": (GAUGE, "When these metrics were written."),
    "wanekupo_metrics_duration_seconds": (GAUGE, "How long it took to have them."),
    "wanekupo_devices": (GAUGE, "Devices of a customer by state."),
    "wanekupo_given_up_devices_total": (COUNTER, "Devices that were quarantined, or scrapped without that."),
    "wanekupo_orders": (GAUGE, "Orders of a customer."),
    "wanekupo_orders_hidden": (GAUGE, "Open orders that have no metrics of their own, as there are too many."),
    "wanekupo_serials_left": (GAUGE, "Serial numbers of a customer's orders that nobody has yet."),
    "wanekupo_order_devices": (GAUGE, "Devices of an open order by state."),
    "wanekupo_order_quantity": (GAUGE, "Serial numbers of an open order, given or not."),
    "wanekupo_order_serials_left": (GAUGE, "Serial numbers of an open order that nobody has yet."),
    "wanekupo_pool_addresses": (GAUGE, "Hardware addresses of a pool, by its first one."),
    "wanekupo_pool_free_addresses": (GAUGE, "Addresses of a pool that no order reserved."),
    "wanekupo_pool_longest_free_addresses": (GAUGE, "Addresses of the longest free piece of a pool."),
    "wanekupo_lost_chips_total": (COUNTER, "Chips that a read-back quarantined, by a seat's journal and by reason."),
    "wanekupo_seat_out_of_step": (GAUGE, "Whether the last reply of a seat's journal is refusal 11 or 12."),
    "wanekupo_seat_unanswered_timestamp_seconds": (GAUGE, "When a seat asked what has no reply in its journal yet."),
    "wanekupo_seat_last_line_timestamp_seconds": (GAUGE, "When the last line of a seat's journal was written."),
    "wanekupo_http_requests_total": (COUNTER, "Requests to nginx since its start."),
    "wanekupo_server_requests_total": (COUNTER, "Requests that nginx passed on since the server started."),
    "wanekupo_connections_left": (GAUGE, "Connections that the server serves at the least before it ends."),
    "wanekupo_server_start_time_seconds": (GAUGE, "When the server was started."),
    "wanekupo_server_restarts_total": (COUNTER, "How often systemd started the server again by itself."),
    "wanekupo_server_memory_bytes": (GAUGE, "Memory that the server holds now."),
    "wanekupo_start_memory_bytes": (GAUGE, "Memory that a start over the store takes."),
    "wanekupo_start_memory_limit_bytes": (GAUGE, "Memory that the server may have: the bound of its unit."),
    "wanekupo_store_bytes": (GAUGE, "Bytes of the store's file and of its log."),
    "wanekupo_store_limit_bytes": (GAUGE, "Bytes that the store's file may have."),
    "wanekupo_store_disk_bytes": (GAUGE, "Bytes of the file system that has the store."),
    "wanekupo_store_disk_free_bytes": (GAUGE, "Bytes of that file system that are free."),
    "wanekupo_backup_timestamp_seconds": (GAUGE, "When the last backup ended."),
    "wanekupo_backup_success": (GAUGE, "Whether the last backup was made: 1, or 0 where it failed."),
    "wanekupo_backup_bytes": (GAUGE, "Bytes of the last backup."),
    "wanekupo_apart_success": (GAUGE, "Whether all stores' seals were compared, and nothing stands twice."),
    "wanekupo_apart_timestamp_seconds": (GAUGE, "When the oldest last seal of the stores that aren't closed was made."),
    "wanekupo_in_shift": (GAUGE, "Whether it is a time of a shift, by the plant's hours."),
}


def escaped(text: str) -> str:
    """A label's value: what isn't ASCII is written out, as nobody names an order so."""
    ascii_text = text.encode("ascii", "backslashreplace").decode("ascii")
    return ascii_text.replace("\\", "\\\\").replace('"', '\\"').replace("\n", "\\n")


def number_text(value: Value) -> str:
    """A value. A whole number stands without a point, as of bytes."""
    if isinstance(value, bool) or float(value).is_integer():
        return str(int(value))
    return repr(float(value))


@dataclass
class Samples:
    """What was found: by a metric's name the values, each by its labels."""

    found: dict[str, dict[tuple[tuple[str, str], ...], Value]] = field(default_factory=dict)

    def add(self, metric: str, value: Value, **labels: str) -> None:
        if metric not in METRICS:
            raise ValueError(f"{metric} is none of the metrics")
        if math.isfinite(value):
            self.found.setdefault(metric, {})[tuple(sorted(labels.items()))] = value

    def merge(self, others: Self) -> None:
        for metric, values in others.found.items():
            self.found.setdefault(metric, {}).update(values)

    def text(self) -> str:
        """All of it, a metric with its values behind the other."""
        lines = []
        for metric, (kind, said) in METRICS.items():
            values = self.found.get(metric, {})
            if values:
                lines += [f"# HELP {metric} {said}", f"# TYPE {metric} {kind}"]
            lines += [f"{metric}{_labels(dict(labels))} {number_text(value)}" for labels, value in values.items()]
        return "".join(f"{line}\n" for line in lines)


def _labels(labels: Mapping[str, str]) -> str:
    inner = ",".join(f'{name}="{escaped(value)}"' for name, value in labels.items())
    return f"{{{inner}}}" if inner else ""
