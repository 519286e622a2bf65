"""What is shown of a store: a text and a page."""
from overview import overview
from page import page
from storefile.pages import Damaged


class NoPoint(Exception):
    """The name of a point that is not there."""


def shown(path, store, most_entries, most_keys, names=None):
    """Both. Records that break a rule which is not looked at before may make no sense to whoever shows them. What has
    no such attribute is no record, but a fault of this tool, and is told as one."""
    try:
        points = [store.point(name) for name in names or ()]
        if None in points:
            raise NoPoint(names[points.index(None)])
        return "\n".join(overview(path, store, most_entries, points)), page(path.name, store, most_keys, points)
    except (ArithmeticError, LookupError, StopIteration, TypeError, ValueError):
        raise Damaged(0, "graph") from None
