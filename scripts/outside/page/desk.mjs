// A package as the desk shows it, as far as the page's outbox asks it (docs/FORMATS.md, sections 8 and 11).

export class Desk {
  constructor() {
    this.rows = new Map();      // by number
    this.photos = new Set();
    this.maps = new Set();      // "row photo"
    this.past = new Map();      // rows of the table 'history' by number
    this.pasts = new Set();     // "row past", of the mapping "h"
    this.held = new Set();      // rows that a row of another table is related to, which refuses their removal
  }

  /** What is related to a row; null where that isn't there. */
  relatedOf(id) {
    if (!this.rows.has(id)) return null;
    const of = pairs => [...pairs].map(it => it.split(" ").map(Number)).filter(([row]) => row === id);
    const photos = of(this.maps).map(([, it]) => ({ id: it, table: "photos", mapping: "m", name: "media" }));
    const past = { table: "history", mapping: "h", name: "simple_attributes" };
    const pasts = of(this.pasts).map(([, it]) => ({ id: it, ...past }));
    return [...pasts, ...photos];
  }

  /** The number that refuses a record; null where it is done. */
  run([word, table, one, ...more]) {
    const pair = `${one} ${more[0]}`, [maps, ends] = table === "h" ? [this.pasts, this.past] : [this.maps, this.photos];
    switch (word) {
      case "row":
        (table === "history" ? this.past : this.rows).set(one,
          { id: one, title: more[0], note: more[1], amount: more[2] });
        return null;
      case "media":
        this.photos.add(one);
        return null;
      case "map":
        if (!this.rows.has(one)) return 40;
        if (!ends.has(more[0])) return table === "h" ? 40 : 41;
        return maps.has(pair) ? 45 : (maps.add(pair), null);
      case "map-drop":
        return maps.delete(pair) ? null : 46;
      case "row-drop":
        if (this.isBase(one) || this.held.has(one)) return 42;
        return this.rows.delete(one) ? null : 40;
      case "media-drop":
        if (this.isRelated(one)) return 42;
        return this.photos.delete(one) ? null : 41;
      default:
        return 10;
    }
  }

  isBase(row) { return [...this.maps, ...this.pasts].some(it => it.startsWith(`${row} `)); }

  isRelated(photo) { return [...this.maps].some(it => it.endsWith(` ${photo}`)); }

  /** The answer's text to a list, of which at most so many records are run. */
  answer(records, most = records.length) {
    return records.slice(0, most).map((it, at) => {
      const number = this.run(it);
      return `${at + 1} ${number === null ? "ok" : `refused ${number}`}\n`;
    }).join("");
  }
}
