"""A client of the chart server: stores, sessions, and the pictures that they draw."""
from .client import is_proved
from .frames import Stopped
from .picture import Picture
from .run import Ended, Refused
from .session import Session
from .store import Checked, Point, Series, Store, Swept

__all__ = ["Checked", "Ended", "Picture", "Point", "Refused", "Series", "Session", "Stopped", "Store", "Swept", "is_proved"]
