"""The themes, in the order in which they are tried, and their cases."""
import unittest

from . import damage, devices, edits, examples, groups, images
from . import locks, reader, rescue, stops, streams, texts, volumes
from .harness import Case

THEMES = (
    images,
    damage,
    devices,
    streams,
    reader,
    examples,
    volumes,
    rescue,
    edits,
    groups,
    stops,
    locks,
    texts,
)


def classes_of(theme):
    """The classes of cases of a theme, in the order in which they stand there."""
    kinds = [it for it in vars(theme).values() if isinstance(it, type) and issubclass(it, Case)]
    return [kind for kind in kinds if kind.__module__ == theme.__name__]


def suite_of(parts):
    """The cases whose names contain one of these parts."""
    kinds = [kind for theme in THEMES for kind in classes_of(theme)]
    cases = [kind(name) for kind in kinds for name in kind.names]
    return unittest.TestSuite(it for it in cases if any(part in str(it) for part in parts))
