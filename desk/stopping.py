"""What a helper does at SIGINT, SIGTERM and SIGHUP, as the script does: it leaves nothing half done behind, says one line, and ends by the
signal."""
from door.signals import SIGNALS, Stopped, end_by, held, raising, watch

__all__ = ["SIGNALS", "Stopped", "end_by", "held", "raising", "watch"]
