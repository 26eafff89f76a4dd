"""An interpreter that has GDAL's modules: Debian's are for Debian's Python, which may not be the first of the path."""

import importlib.util
import os
import sys

from border import Refused

DEBIAN = "/usr/bin/python3"
MODULES = "/usr/lib/python3/dist-packages/osgeo"
MISSING = "GDAL's modules for Python aren't there: apt-get install python3-gdal"


def python_with_gdal():
    """The interpreter that has GDAL's modules: this one, or else Debian's; None where neither has them."""
    if importlib.util.find_spec("osgeo") is not None:
        return sys.executable
    another = os.path.realpath(sys.executable) != os.path.realpath(DEBIAN)
    return DEBIAN if another and os.path.isdir(MODULES) and os.access(DEBIAN, os.X_OK) else None


def go_on_with_gdal():
    """Goes on in Debian's interpreter where this one lacks GDAL's modules; refuses where neither has them."""
    found = python_with_gdal()
    if found is None:
        raise Refused(MISSING)
    if found != sys.executable:
        os.execv(found, [found, "-B", *sys.argv])
