"""Which system in metres suits a place: the zone of UTM, of ETRS89 in Europe and of WGS 84 elsewhere."""

# Where EPSG has zones of ETRS89 that are in use, in degrees: west, south, east and north.
EUROPE = (-18, 34, 42, 72)
ETRS89, NORTH, SOUTH = 25800, 32600, 32700
# How wide a map of one zone is at most: beyond that its lengths would be off by more than a percent at its sides.
MOST_DEGREES = 15


def system_at(longitude, latitude):
    """The number at EPSG of the system that suits a place in degrees, None near the poles and off the earth."""
    if not (-180 <= longitude <= 180 and -80 <= latitude <= 84):
        return None
    zone = min(int((longitude + 180) // 6) + 1, 60)
    west, south, east, north = EUROPE
    if west <= longitude < east and south <= latitude < north:
        return ETRS89 + zone
    return (NORTH if latitude >= 0 else SOUTH) + zone


def system_over(west, south, east, north):
    """The number at EPSG of the system that suits a box in degrees, None where none does."""
    return system_at((west + east) / 2, (south + north) / 2) if 0 <= east - west <= MOST_DEGREES else None
