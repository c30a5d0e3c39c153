"""Runs kernels on Buszlogem's simulated real-time core, and reads what came out.

    import buszlogem
    report = buszlogem.run("def main():\\n    at_mu(1000)\\n    ttl0.pulse_mu(500)\\n")
    print(report.outputs, report.ok)

It is a companion over the programs `artiq_sim`, `artiq_trace` and `artiq_lab`: what they promise is proved, this package is
tested. docs/PYTHON.md has all of it.
"""

from . import steps
from .compare import Comparison, compare
from .day import Day
from .errors import BuszlogemError, KernelError, NotOk, OptionError, ProgramError, ProgramMissing
from .gates import Gate, Sensitivity, gates
from .kernels import Line, int32, int64, kernel
from .lab import SessionError, laboratory
from .lab_causes import Failure, FailureKind
from .lab_report import LabReport, RunStatus
from .margin import Basis, Margin, margin
from .optional import MissingModule
from .photons import photons
from .report import CHANNEL_NAMES, Edge, LossKind, Lost, Output, Report
from .run import check, run
from .slack import Slack, SlackWord, slack
from .sweep import grid, sweep
from .table import Row, Table
from .trace import trace
from .trace_lines import LineSlack
from .trace_parts import AskedOutput, LossReason, LostOutput, OutputAnswer, Place, Request, RequestKind
from .trace_report import Trace
from .version import VERSION as __version__

__all__ = [
    "CHANNEL_NAMES",
    "AskedOutput",
    "Basis",
    "BuszlogemError",
    "Comparison",
    "Day",
    "Edge",
    "Failure",
    "FailureKind",
    "Gate",
    "KernelError",
    "LabReport",
    "Line",
    "LineSlack",
    "LossKind",
    "LossReason",
    "Lost",
    "LostOutput",
    "Margin",
    "MissingModule",
    "NotOk",
    "OptionError",
    "Output",
    "OutputAnswer",
    "Place",
    "ProgramError",
    "ProgramMissing",
    "Report",
    "Request",
    "RequestKind",
    "Row",
    "RunStatus",
    "Sensitivity",
    "SessionError",
    "Slack",
    "SlackWord",
    "Table",
    "Trace",
    "__version__",
    "check",
    "compare",
    "gates",
    "grid",
    "int32",
    "int64",
    "kernel",
    "laboratory",
    "margin",
    "photons",
    "run",
    "slack",
    "steps",
    "sweep",
    "trace",
]
