// The nearest rows: to my place, where that is known and not old, else to the map's middle.

let nearTo = null;  // my place, as the list goes by it; null where it goes by the map's middle

/** Whether the nearest rows are those to my place. */
const isNearMe = () => nearTo !== null;

/** How far a place is east and north of that to which the nearest rows are; null where it is none of the map. */
function offsetFromNear(place) {
  const middle = map?.getCenter();
  if (!place || !middle || place.system !== shown.srs_id) return null;
  const { east, north } = nearTo ?? { east: middle.lng, north: middle.lat };
  return [place.east - east, place.north - north];
}

/** How far a place is from there, in metres. */
const farFromNear = place => Math.hypot(...offsetFromNear(place) ?? [Infinity]);

/** The way from there to a place, in words; nothing where that is none of the map. */
function wayFromNear(place) {
  const offset = offsetFromNear(place);
  return offset ? wordsOfWay(...offset) : "";
}

/** Has the nearest rows be those to the map's middle, until my place is known on it. */
function nearestToMiddle() {
  nearTo = null;
}

/** Has the list go from my place where that has moved, has come or has gone; and says from where it goes. */
function showNearest() {
  const at = isAskedWhere() && myAge() <= OLD ? onMyMap(tracked.fix) : null, isNear = byId("order").value === "near";
  const hasCome = at ? hasMoved(nearTo, at, at.accuracy) : nearTo !== null;
  if (hasCome) nearTo = at;
  if (hasCome && isNear) showRows();
  tellNearest();
}

/** Says from where the nearest rows are reckoned. */
function tellNearest() {
  const words = nearTo ? phrase("The nearest to my place are first.")
    : tracked.on ? phrase("The nearest to the map's middle are first: my place isn't known.")
    : phrase("The nearest to the map's middle are first.");
  byId("nearest").hidden = !map || byId("order").value !== "near";
  if (byId("nearest").textContent !== words) byId("nearest").textContent = words;
}
