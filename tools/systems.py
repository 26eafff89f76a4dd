"""Which systems of a package the page can reckon: transverse Mercators, as UTM is, on a datum in which devices tell.

And how PROJ is asked for the others.
"""

import re

# A device tells places in WGS 84. ETRS89 is less than a metre off in Europe, which is less than a device is off.
DATUMS = {
    "wgs_1984",
    "world_geodetic_system_1984",
    "world_geodetic_system_1984_ensemble",
    "european_terrestrial_reference_system_1989",
    "european_terrestrial_reference_system_1989_ensemble",
    "etrs89",
}
NUMBER = r"\s*(-?[0-9]+(?:\.[0-9]*)?(?:[eE][+-]?[0-9]+)?)"
# What the WKT of a system in a plane begins with.
PLANE = re.compile(r"\s*(PROJCS|PROJCRS|PROJECTEDCRS|COMPD_CS|COMPOUNDCRS|BOUNDCRS|DERIVEDPROJCRS)\[")
PARAMETERS = ("latitude_of_origin", "central_meridian", "scale_factor", "false_easting", "false_northing")


def transverse_mercator(definition):
    """The parameters of a system by its WKT, where that is a transverse Mercator in metres on such a datum."""
    projection = re.search(r'^\s*PROJCS\[.*PROJECTION\["Transverse_Mercator"', definition, re.DOTALL)
    datum = re.search(r'DATUM\["([^"]*)"', definition)
    spheroid = re.search(rf'SPHEROID\["[^"]*",{NUMBER},{NUMBER}', definition)
    unit = re.findall(rf'UNIT\["[^"]*",{NUMBER}', definition)
    found = {name: re.search(rf'PARAMETER\["{name}",{NUMBER}', definition) for name in PARAMETERS}
    if not projection or not datum or not spheroid or not all(found.values()):
        return None
    meridian = re.search(rf'PRIMEM\["[^"]*",{NUMBER}', definition)
    if datum[1].lower() not in DATUMS or [float(it) for it in unit[1:]] != [1.0] or not meridian or float(meridian[1]):
        return None
    return {
        "semi_major": float(spheroid[1]),
        "inverse_flattening": float(spheroid[2]),
        **{name: float(it[1]) for name, it in found.items()},
    }


def asked_of_proj(organization, number, definition):
    """How PROJ is asked for a system: by its number at EPSG, else by its WKT; None where neither tells one."""
    if organization.upper() == "EPSG" and number > 0:
        return {"epsg": number}
    return {"definition": definition} if PLANE.match(definition) else None


def beyond(opened):
    """By number, how PROJ is asked for the systems of a package's maps that the page can't reckon."""
    query = (
        "SELECT srs_id, organization, organization_coordsys_id, definition FROM gpkg_spatial_ref_sys "
        "WHERE srs_id IN (SELECT srs_id FROM gpkg_contents WHERE data_type = 'tiles') ORDER BY srs_id"
    )
    rows = opened.execute(query).fetchall()
    found = {number: asked_of_proj(*told) for number, *told in rows if not transverse_mercator(told[-1])}
    return {number: it for number, it in found.items() if it}
