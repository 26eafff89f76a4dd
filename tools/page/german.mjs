// The page's words in German, by the English ones (tongue.mjs), in the order of the files that say them first. A place
// {0} is of the same value in both.

/** @type {Record<string, string>} */
export const GERMAN = {
  // page.html
  "Map package": "Kartenpaket",
  "Map": "Karte",
  "Whole map": "Ganze Karte",
  "Tables and media": "Tabellen und Medien",
  "Add the middle": "Mitte hinzufügen",
  "Undo": "Zurück",
  "End": "Ende",
  "New row": "Neuer Eintrag",
  "No tile at this zoom here": "Keine Kachel bei diesem Zoom",
  "To the tiles": "Zu den Kacheln",
  "Rows": "Einträge",
  ["This browser doesn't promise to keep what waits here: a private window loses it, and so may one whose disk is " +
    "full."]:
    "Dieser Browser verspricht nicht, zu behalten, was hier wartet: Ein privates Fenster verliert es, und bei " +
      "voller Festplatte kann es auch so verloren gehen.",
  "Table": "Tabelle",
  "Title": "Titel",
  "Note": "Notiz",
  "Take a photo": "Foto aufnehmen",
  "Choose files": "Dateien wählen",
  "Camera": "Kamera",
  "Take it": "Auslösen",
  "Other camera": "Andere Kamera",
  "Camera off": "Kamera aus",
  "Record sound": "Ton aufnehmen",
  "Amount": "Menge",
  "In table": "In Tabelle",
  "Place": "Ort",
  "East (m)": "Ost (m)",
  "North (m)": "Nord (m)",
  "By a tap": "Durch Tippen",
  "Map's middle": "Kartenmitte",
  "Here": "Hier",
  "The photo's place": "Ort des Fotos",
  "Lead me there": "Hinführen",
  "Quiet": "Lautlos",
  "Photos and files": "Fotos und Dateien",
  "Save": "Speichern",
  "Close": "Schließen",
  "Remove": "Entfernen",
  "Search": "Suche",
  "Order": "Reihenfolge",
  "Newest first": "Neueste zuerst",
  "Oldest first": "Älteste zuerst",
  "By title": "Nach Titel",
  "By amount": "Nach Menge",
  "Nearest first": "Nächste zuerst",
  "Which crew is this?": "Welcher Trupp ist das?",
  "Crew's name, for each row that is saved here": "Name des Trupps, für jeden Eintrag, der hier gespeichert wird",
  "Rows of crew": "Einträge des Trupps",
  "all": "alle",
  "Of kind": "Der Art",
  "Saved on": "Gespeichert am",
  "File or report of these rows": "Datei oder Bericht dieser Einträge",
  "Kind of file": "Art der Datei",
  "CSV": "CSV",
  "GeoJSON": "GeoJSON",
  "GPX": "GPX",
  "Get the file": "Datei holen",
  "Report": "Bericht",
  "Tables and marks on the map": "Tabellen und Zeichen auf der Karte",
  "Marks tell": "Die Zeichen zeigen",
  "their table alone": "nur ihre Tabelle",
  "the title's first word": "das erste Wort des Titels",
  "the amount": "die Menge",
  "Show more rows": "Mehr Einträge zeigen",
  "Not in the package yet": "Noch nicht im Paket",
  "Nothing waits: all that was saved stands in the package.":
    "Nichts wartet: Alles, was gespeichert wurde, steht im Paket.",
  "Keep these as a file": "Diese als Datei sichern",
  "End the day": "Tag beenden",
  "Maps behind the work": "Karten hinter der Arbeit",
  "GNSS receiver": "GNSS-Empfänger",
  "Bits a second": "Bit pro Sekunde",
  "Connect a receiver": "Empfänger verbinden",
  "Go to a place": "Zu einem Ort gehen",
  "Easting and northing in metres": "Ost- und Nordwert in Metern",
  "Go": "Los",
  "Related media": "Zugehörige Medien",
  "Of table": "Aus Tabelle",
  "ID": "ID",
  "Show": "Zeigen",
  "Tables": "Tabellen",
  "Which rows": "Welche Einträge",
  "made or changed today": "heute angelegt oder geändert",
  "all that are listed": "alle aufgelisteten",
  "Print": "Drucken",
  "Back": "Zurück",
  "Shows what isn't in the package yet": "Zeigt, was noch nicht im Paket ist",
  "Map: arrow keys move it, plus and minus zoom": "Karte: Pfeiltasten verschieben sie, Plus und Minus ändern den Zoom",
  "Where I am": "Mein Standort",
  "Measure": "Messen",
  "Keep me in the middle": "Mir folgen",
  "What is measured": "Was gemessen wird",
  "The middle of the map is the next point": "Die Kartenmitte ist der nächste Punkt",
  "Takes the last point back": "Nimmt den letzten Punkt zurück",
  "End measuring": "Messen beenden",
  "Work, tables and media": "Arbeit, Tabellen und Medien",
  "Common first words": "Häufige erste Wörter",
  "The camera of this device; a picture tells when and where it was taken":
    "Die Kamera dieses Geräts; das Bild gibt an, wann und wo es aufgenommen wurde",
  "What the camera sees": "Was die Kamera sieht",
  "The next tap on the map is the place": "Wo als Nächstes auf die Karte getippt wird, ist der Ort",
  "The middle of the map is the place": "Die Kartenmitte ist der Ort",
  "Where this device is, is the place": "Der Standort dieses Geräts ist der Ort",
  "Where the photo was taken, as its camera wrote it, is the place":
    "Wo das Foto aufgenommen wurde, wie seine Kamera es angibt, ist der Ort",
  "The device shows the way to the place, as you go": "Das Gerät zeigt unterwegs den Weg zum Ort",
  "No sound and no shake where the place is reached": "Kein Ton und kein Vibrieren, wenn der Ort erreicht ist",
  "What is played": "Was abgespielt wird",
  "A table for a spreadsheet, a layer for a GIS, or waypoints for a GNSS receiver":
    "Eine Tabelle für die Tabellenkalkulation, ein Layer für ein GIS oder Wegpunkte für einen GNSS-Empfänger",
  "A list of records, for another copy of the package": "Eine Liste von Datensätzen, für eine andere Kopie des Pakets",
  "Of a serial line; a receiver by USB or Bluetooth goes by none":
    "Für eine serielle Leitung; bei einem Empfänger über USB oder Bluetooth ohne Bedeutung",
  "a whole number from 1": "eine ganze Zahl ab 1",
  // lines of page.html, draw.js, lines.mjs, track.js
  "Track": "Track",
  "Takes the track into its row's form": "Nimmt den Track in das Formular seines Eintrags",
  "End track": "Track beenden",
  "Throws away what was recorded": "Verwirft, was aufgezeichnet wurde",
  "Drop the track": "Track verwerfen",
  "Drop": "Verwerfen",
  "Middle": "Mitte",
  "Where this device is, is the next corner": "Der Standort dieses Geräts ist die nächste Ecke",
  "Corner here": "Ecke hier",
  "Takes what is drawn into the form": "Nimmt das Gezeichnete in das Formular",
  "Done": "Fertig",
  "Throws away what is drawn": "Verwirft das Gezeichnete",
  "Drop the drawing": "Zeichnung verwerfen",
  "Pictures, PDF, sound, GeoJSON or GPX": "Bilder, PDF, Ton, GeoJSON oder GPX",
  "Lines, areas and tracks": "Linien, Flächen und Tracks",
  "Each tap on the map adds a corner of a line": "Jedes Tippen auf die Karte fügt einer Linie eine Ecke hinzu",
  "Line": "Linie",
  "Each tap on the map adds a corner of an area": "Jedes Tippen auf die Karte fügt einer Fläche eine Ecke hinzu",
  "Area": "Fläche",
  "Where this device goes becomes a track of the row": "Der Weg dieses Geräts wird ein Track des Eintrags",
  "Record a track": "Track starten",
  "What is drawn": "Was gezeichnet wird",
  "The line is in metres of system {0}: show a map of that to go on.":
    "Die Linie ist in Metern des Systems {0}: Zum Weiterzeichnen eine Karte davon zeigen.",
  "The area is in metres of system {0}: show a map of that to go on.":
    "Die Fläche ist in Metern des Systems {0}: Zum Weiterzeichnen eine Karte davon zeigen.",
  "{0}, snapped": "{0}, eingerastet",
  "{0} (no degrees: this page can't reckon them here)": "{0} (ohne Grade: diese Seite kann sie hier nicht berechnen)",
  "More than {0} corners are none: begin another.": "Mehr als {0} Ecken gehen nicht: eine weitere beginnen.",
  "The device tells this corner {0}.": "Das Gerät gibt diese Ecke an, {0}.",
  "The receiver tells this corner {0}.": "Der Empfänger gibt diese Ecke an, {0}.",
  "{0} Go on with it, or throw it away.": "{0} Weiterzeichnen oder verwerfen.",
  "A line has two corners at least.": "Eine Linie hat mindestens zwei Ecken.",
  "An area has three corners at least.": "Eine Fläche hat mindestens drei Ecken.",
  "The edge crosses itself: take corners back.": "Der Rand kreuzt sich selbst: Ecken zurücknehmen.",
  "The corners enclose nothing.": "Die Ecken schließen nichts ein.",
  "Tap the corners of the line on the map.": "Auf der Karte die Ecken der Linie antippen.",
  "Tap the corners of the area on the map.": "Auf der Karte die Ecken der Fläche antippen.",
  "Tap the next corner.": "Die nächste Ecke antippen.",
  "Line {0} m (last {1} m)": "Linie {0} m (zuletzt {1} m)",
  "Line {0} m": "Linie {0} m",
  "Side {0} m. Tap the next corner.": "Seite {0} m. Die nächste Ecke antippen.",
  "No area: it crosses itself": "Keine Fläche: sie kreuzt sich selbst",
  "Area {0} m², {1} m around (last {2} m)": "Fläche {0} m², {1} m Umfang (zuletzt {2} m)",
  "Area, {0} m², {1} m around": "Fläche, {0} m², {1} m Umfang",
  "Line, {0} m": "Linie, {0} m",
  "Track, {0} m": "Track, {0} m",
  "Track, {0} m in {1}": "Track, {0} m in {1}",
  "Shape": "Form",
  "A track is recorded already: end that first.": "Ein Track wird schon aufgezeichnet: erst diesen beenden.",
  "a new row": "ein neuer Eintrag",
  "The track goes on: a part of it begins with the next place.":
    "Der Track geht weiter: Mit dem nächsten Ort beginnt ein Teil davon.",
  "more it doesn't take: end it": "mehr nimmt er nicht auf: beenden",
  "only {0}": "nur {0}",
  "The track isn't kept ({0}): end it soon.": "Der Track wird nicht aufbewahrt ({0}): bald beenden.",
  "{0} place": "{0} Ort",
  "{0} places": "{0} Orte",
  "the last place is {0}": "der letzte Ort ist {0}",
  "no place yet": "noch kein Ort",
  "Track of {0}: {1} m": "Track von {0}: {1} m",
  "No place came, and so there is no track.": "Es kam kein Ort, also gibt es keinen Track.",
  // what rows were, and places beyond UTM: page.html, past.js, beyond.js, beyond.mjs
  "What it was before": "Wie es vorher war",
  "What it was isn't to be had now.": "Wie es war, ist gerade nicht zu bekommen.",
  "Nothing is kept of what it was before.": "Davon, wie es vorher war, ist nichts aufbewahrt.",
  "Show what it was before these ({0})": "Zeigen, wie es davor war ({0})",
  "before": "vorher",
  "until {0}": "bis {0}",
  "Take this": "Dies übernehmen",
  "Take this: {0}": "Dies übernehmen: {0}",
  "This is what it was before: Save has it stand again.": "So war es vorher: Mit Speichern gilt es wieder.",
  "The program beside the desk that knows this map's system doesn't answer: open the package again.":
    "Das Programm, das das System dieser Karte kennt, antwortet nicht: das Paket neu öffnen.",
  "The device's place isn't brought into this map's system yet.":
    "Der Ort des Geräts ist noch nicht in das System dieser Karte umgerechnet.",
  "Places of this map's system are good for {0} m only.": "Orte im System dieser Karte sind nur auf {0} m genau.",
  "How exact places are in this map's system here nobody knows: PROJ brings them there by \"{0}\".":
    "Wie genau Orte hier im System dieser Karte sind, weiß niemand: PROJ rechnet sie mit „{0}“ um.",
  "PROJ brings no place from here into this map's system.":
    "PROJ rechnet keinen Ort von hier in das System dieser Karte um.",
  "Degrees of system {0} are PROJ's, by \"{1}\", good for {2} m.":
    "Grade des Systems {0} sind von PROJ, mit „{1}“, auf {2} m genau.",
  // answers.mjs
  "it is no record": "das ist kein Datensatz",
  "a number or a text is outside its limits": "eine Zahl oder ein Text ist außerhalb der Grenzen",
  "a name is none": "ein Name ist keiner",
  "there is no such table": "diese Tabelle gibt es nicht",
  "the table is of another kind": "die Tabelle ist von anderer Art",
  "there is no such row": "diesen Eintrag gibt es nicht",
  "there is no such photo": "dieses Foto gibt es nicht",
  "something is still related to it": "etwas ist noch damit verknüpft",
  "there is no such relation": "diese Verknüpfung gibt es nicht",
  "it is related already": "es ist schon verknüpft",
  "it isn't related": "es ist nicht verknüpft",
  "the program was refused memory": "das Programm bekam keinen Speicher",
  "the file could not be read or written": "die Datei war nicht lesbar oder beschreibbar",
  "the program has to be started again": "das Programm muss neu gestartet werden",
  "the package got a part of it only": "das Paket bekam nur einen Teil",
  "the program lets no page of this address in: open the address that it prints":
    "das Programm lässt diese Adresse nicht zu: die öffnen, die es ausgibt",
  "its key has changed: open the address that the program printed last":
    "anderer Schlüssel: die zuletzt ausgegebene Adresse öffnen",
  "the program takes no such request": "das Programm nimmt keine solche Anfrage an",
  "the program wants the length of what is sent": "das Programm verlangt die Länge dessen, was gesendet wird",
  "it is too large for the package": "es ist zu groß für das Paket",
  "the program takes no such records": "das Programm nimmt keine solchen Datensätze an",
  "the row": "der Eintrag",
  "the photo": "das Foto",
  "the photo's relation to the row": "die Verknüpfung des Fotos mit dem Eintrag",
  "to remove the row": "den Eintrag entfernen",
  "to remove the photo": "das Foto entfernen",
  "to take the photo off the row": "das Foto vom Eintrag lösen",
  "it is refused": "es ist abgelehnt",
  "another program has the port": "anderes Programm am Port",
  "the answer was cut short": "die Antwort brach ab",
  "the program tells fault {0}": "das Programm meldet den Fehler {0}",
  // asking.js
  ["The package doesn't answer. What is saved here is kept in this browser, and is sent when it does. If that " +
    "takes long, open the package again."]:
    "Das Paket antwortet nicht. Was hier gespeichert wird, behält dieser Browser und sendet es, sobald es " +
      "antwortet. Wenn das lange dauert, das Paket noch einmal öffnen.",
  "The package doesn't answer: 'mmpkg serve' has ended, or isn't to be reached. Start it again.":
    "Das Paket antwortet nicht: „mmpkg serve“ ist beendet oder nicht zu erreichen. Noch einmal starten.",
  ["This address isn't the package's any more: its key has changed. Open the address that 'mmpkg desk' printed " +
    "last; what isn't in the package yet is kept in this browser."]:
    "Diese Adresse ist nicht mehr die des Pakets: Sein Schlüssel ist ein anderer. Die Adresse öffnen, die „mmpkg " +
      "desk“ zuletzt ausgegeben hat; was noch nicht im Paket ist, behält dieser Browser.",
  ["Another program has the port of this package: nothing that it tells counts. End it, and open the package " +
    "again; what isn't in the package yet is kept in this browser."]:
    "Ein anderes Programm belegt den Port dieses Pakets: Nichts, was es meldet, gilt. Es beenden und das Paket " +
      "noch einmal öffnen; was noch nicht im Paket ist, behält dieser Browser.",
  // behind.js
  "The maps don't answer: what lies behind the work is missing until they do, or the package is opened again.":
    "Die Karten antworten nicht: Was hinter der Arbeit liegt, fehlt, bis sie es tun oder das Paket neu geöffnet wird.",
  "No map lies behind one of system {0}: EPSG has no such system.":
    "Hinter einer Karte im System {0} liegt keine andere: EPSG kennt dieses System nicht.",
  // behind.mjs
  "can't be shown: {0}": "lässt sich nicht zeigen: {0}",
  "has nothing in it": "ist leer",
  "lies elsewhere": "liegt anderswo",
  "is seen from nearer on": "ist erst von näher zu sehen",
  // camera.js
  "The browser is asked for the camera ..": "Der Browser wird nach der Kamera gefragt ...",
  "The camera has gone.": "Die Kamera ist weg.",
  "What the camera saw": "Das Bild der Kamera",
  "The camera was let go, since it wasn't to be seen.": "Die Kamera wurde freigegeben, da sie nicht zu sehen war.",
  // drafts.js
  "What is in this form isn't kept ({0}): save it soon.":
    "Was in diesem Formular steht, ist nicht gesichert ({0}): bald speichern.",
  "This wasn't saved yet.": "Das ist noch nicht gespeichert.",
  "typed in a tab that is closed, and not saved": "eingegeben in einem Tab, der geschlossen ist, und nicht gespeichert",
  "Open": "Öffnen",
  "Throw away": "Verwerfen",
  // fields.js
  "Look at: {0}. Press Save again if that is right.":
    "Bitte ansehen: {0}. Noch einmal „Speichern“ drücken, wenn es stimmt.",
  "Title: {0}": "Titel: {0}",
  // fields.mjs
  "yes": "ja",
  "no": "nein",
  "This is wanted.": "Das ist erforderlich.",
  "This is no number.": "Das ist keine Zahl.",
  "This is no day, as 2026-06-15 is.": "Das ist kein Tag wie 2026-06-15.",
  "This is none of the choices.": "Das ist keine der Möglichkeiten.",
  "The note has this too.": "Die Notiz enthält es auch.",
  // files.mjs
  "to send": "zu senden",
  "refused": "abgelehnt",
  "changed meanwhile": "inzwischen geändert",
  "in the package": "im Paket",
  // fixes.mjs
  "how exact isn't told": "Genauigkeit nicht gemeldet",
  "within {0} m": "auf {0} m genau",
  "{0} s old": "{0} s alt",
  "{0} min old": "{0} min alt",
  "{0} h old": "{0} h alt",
  "asking the device ..": "Standort wird abgefragt ...",
  // form.js
  "Save or close this row first.": "Erst diesen Eintrag speichern oder schließen.",
  "Refused: {0}": "Abgelehnt: {0}",
  "Changed meanwhile by another": "Inzwischen von anderen geändert",
  "A new row": "Ein neuer Eintrag",
  "Row {0}": "Eintrag {0}",
  "East and north are two numbers of metres, with at most six decimals; or leave both empty.":
    "Ost und Nord sind zwei Zahlen in Metern mit höchstens sechs Nachkommastellen; oder beide leer lassen.",
  "A place wants a map that is shown, whose system it is in.":
    "Ein Ort braucht eine Karte, die gezeigt wird und in deren System er liegt.",
  "The amount is a whole number of at most 10^15, without leading zeros.":
    "Die Menge ist eine ganze Zahl bis 10^15, ohne führende Nullen.",
  "The title has more than 1,000 bytes.": "Der Titel hat mehr als 1000 Byte.",
  "The note, with the place in it, has more than 1,000 bytes.": "Die Notiz hat mit dem Ort mehr als 1000 Byte.",
  "{0}. Press Save again if that is right.": "{0}. Noch einmal „Speichern“ drücken, wenn es stimmt.",
  "Waiting for the photo ..": "Das Foto wird abgewartet ...",
  "Waiting for the device's place ..": "Der Standort des Geräts wird abgewartet ...",
  "This browser could not keep it ({0}): it isn't saved yet.":
    "Dieser Browser konnte es nicht behalten ({0}): Es ist noch nicht gespeichert.",
  // formplace.js
  "in metres of system {0}": "in Metern des Systems {0}",
  "The photo tells where it was taken, and this page can't reckon that in the map's system.":
    "Das Foto gibt an, wo es aufgenommen wurde, aber diese Seite kann das nicht in das System der Karte umrechnen.",
  "The photo tells this place; how exact it is it doesn't tell.":
    "Das Foto gibt diesen Ort an; wie genau, gibt es nicht an.",
  // formtold.js
  "Taken out of the note, since the place is another now: {0}":
    "Aus der Notiz genommen, da der Ort jetzt ein anderer ist: {0}",
  "The receiver tells this place {0}.": "Der Empfänger meldet diesen Ort: {0}.",
  "The device tells this place {0}.": "Das Gerät meldet diesen Ort: {0}.",
  "The note has no room for that.": "In der Notiz ist dafür kein Platz.",
  "The note keeps its own {0}.": "Die Notiz behält ihr eigenes {0}.",
  // kinds.mjs
  "{0} to {1}": "{0} bis {1}",
  // layers.js
  "{0}, of the package": "{0}, aus dem Paket",
  "How strong: {0}": "Deckkraft: {0}",
  "By {0}": "Nach {0}",
  "No names": "Keine Namen",
  "Names: {0}": "Namen: {0}",
  "Up": "Nach oben",
  "Down": "Nach unten",
  // legend.js
  "not shown": "nicht gezeigt",
  "{0} on this map, worked on": "{0} auf dieser Karte, in Arbeit",
  "{0} on this map": "{0} auf dieser Karte",
  "{0} on this map, of its first rows": "{0} auf dieser Karte, von ihren ersten Einträgen",
  "On the map: {0}": "Auf der Karte: {0}",
  "waits to be sent": "wartet auf das Senden",
  "refused, or changed meanwhile": "abgelehnt oder inzwischen geändert",
  "so many rows: a tap on it goes nearer": "so viele Einträge: Antippen geht näher heran",
  // map.js
  "The tile {0} is no picture that this browser draws.": "Die Kachel {0} ist kein Bild, das dieser Browser zeichnet.",
  "Zoom in": "Näher heran",
  "Zoom out": "Weiter weg",
  "Two numbers are asked for: easting, then northing.":
    "Gefragt sind zwei Zahlen: erst der Ostwert, dann der Nordwert.",
  "This place is outside the map.": "Dieser Ort liegt außerhalb der Karte.",
  "finger": "Finger",
  "pointer": "Zeiger",
  "{0} by {1}": "{0} mal {1}",
  "zoom {0}, {1} m a pixel, {2} times larger": "Zoom {0}, {1} m je Pixel, {2}-fach vergrößert",
  "zoom {0}, {1} m a pixel, {2} times smaller": "Zoom {0}, {1} m je Pixel, {2}-fach verkleinert",
  "zoom {0}, {1} m a pixel": "Zoom {0}, {1} m je Pixel",
  "centre": "Mitte",
  // marks.js
  "{0} rows: go nearer": "{0} Einträge: näher herangehen",
  // media.mjs
  "{0} has {1}: the package takes files of at most {2}.": "{0} hat {1}: Das Paket nimmt Dateien bis {2} an.",
  // mine.js
  "No new place comes: my place on the map is where it was told last.":
    "Es kommt kein neuer Standort: Auf der Karte steht der letzte, der gemeldet wurde.",
  "The device is asked where it is ..": "Das Gerät wird nach seinem Standort gefragt ...",
  "The device is here, {0}.": "Das Gerät ist hier, {0}.",
  "The device is here, {0}, outside the map.": "Das Gerät ist hier, {0}, außerhalb der Karte.",
  "The nearest to my place are first.": "Zuerst kommen die nächsten zu meinem Standort.",
  "The nearest to the map's middle are first: my place isn't known.":
    "Zuerst kommen die nächsten zur Kartenmitte: Mein Standort ist nicht bekannt.",
  "The nearest to the map's middle are first.": "Zuerst kommen die nächsten zur Kartenmitte.",
  // news.js
  "The package has other tables than before: load this page again to see them.":
    "Das Paket hat andere Tabellen als vorher: Diese Seite neu laden, um sie zu sehen.",
  "The package has a newer page than this: load it again. What is typed and what waits stays.":
    "Das Paket hat eine neuere Seite als diese: neu laden. Was eingegeben ist und was wartet, bleibt.",
  "Row {0}, which another has changed meanwhile": "Eintrag {0}, inzwischen von anderen geändert",
  "Row {0}, which another has removed": "Eintrag {0}, von anderen entfernt",
  // nmea.mjs
  "no place": "kein Ort",
  "GNSS": "GNSS",
  "GNSS with corrections": "GNSS mit Korrekturdaten",
  "GNSS (PPS)": "GNSS (PPS)",
  "RTK fixed": "RTK fixed",
  "RTK float": "RTK float",
  "reckoned on without satellites": "ohne Satelliten weitergerechnet",
  "set by hand": "von Hand gesetzt",
  "simulated": "simuliert",
  "{0} satellite": "{0} Satellit",
  "{0} satellites": "{0} Satelliten",
  // out.js
  "{0} row is in {1}.": "{0} Eintrag ist in {1}.",
  "{0} rows are in {1}.": "{0} Einträge sind in {1}.",
  "Left out, for want of degrees: {0}.": "Ausgelassen, da ohne Grad: {0}.",
  "Without a geometry, for want of degrees: {0}.": "Ohne Geometrie, da ohne Grad: {0}.",
  "Not in the package yet, and marked so: {0}.": "Noch nicht im Paket und so vermerkt: {0}.",
  // outbox.js
  "its storage is full": "sein Speicher ist voll",
  // photos.js
  "The package relates no photos to this table.": "Im Paket sind mit dieser Tabelle keine Fotos verknüpft.",
  "a photo comes ..": "ein Foto kommt ...",
  "{0}, not saved yet": "{0}, noch nicht gespeichert",
  "not saved yet": "noch nicht gespeichert",
  "Leave out": "Weglassen",
  "waits": "wartet",
  "The photos of the package aren't to be had now.": "Die Fotos des Pakets sind gerade nicht zu bekommen.",
  "Take off": "Lösen",
  "no picture": "kein Bild",
  "{0} is no picture that this browser draws, no PDF, no sound and no line.":
    "{0} ist kein Bild, das dieser Browser zeichnet, kein PDF, kein Ton und keine Linie.",
  "Sound": "Ton",
  // places.js
  "The browser may not tell where the device is: allow it for this address.":
    "Der Browser darf den Standort des Geräts nicht melden: für diese Adresse erlauben.",
  "The device doesn't know where it is.": "Das Gerät kennt seinen Standort nicht.",
  "The device didn't tell where it is within 20 seconds.":
    "Das Gerät hat seinen Standort 20 Sekunden lang nicht gemeldet.",
  "The device is too far from here for this map's system.": "Das Gerät ist für das System dieser Karte zu weit weg.",
  "The device tells no place: {0}": "Das Gerät meldet keinen Standort: {0}",
  // plane.mjs
  "{0} m east": "{0} m Ost",
  "{0} m west": "{0} m West",
  "{0} m north": "{0} m Nord",
  "{0} m south": "{0} m Süd",
  "{0} m up": "{0} m hinauf",
  "{0} m down": "{0} m hinunter",
  "{0} m up (within {1} m)": "{0} m hinauf (auf {1} m genau)",
  "{0} m down (within {1} m)": "{0} m hinunter (auf {1} m genau)",
  "Tap the points of a way on the map.": "Die Punkte einer Strecke auf der Karte antippen.",
  "Tap the next point.": "Den nächsten Punkt antippen.",
  "Way {0} m": "Strecke {0} m",
  "Way {0} m (last {1} m), no area: it crosses itself":
    "Strecke {0} m (zuletzt {1} m), keine Fläche: Sie kreuzt sich selbst",
  "Way {0} m (last {1} m), area {2} m²": "Strecke {0} m (zuletzt {1} m), Fläche {2} m²",
  // receiver.js
  "The receiver can't be opened: {0}": "Der Empfänger lässt sich nicht öffnen: {0}",
  "The receiver tells nothing yet.": "Der Empfänger meldet noch nichts.",
  "The receiver is gone.": "Der Empfänger ist weg.",
  "The receiver is gone: the device is asked where it is again.":
    "Der Empfänger ist weg: Das Gerät wird wieder nach seinem Standort gefragt.",
  "What comes isn't a receiver's NMEA: is the speed right?":
    "Was kommt, ist kein NMEA eines Empfängers: Stimmt die Geschwindigkeit?",
  "{0} m above the ellipsoid": "{0} m über dem Ellipsoid",
  "{0} m above the ellipsoid ({1})": "{0} m über dem Ellipsoid ({1})",
  "Leave the receiver": "Empfänger trennen",
  // related.js
  "zooms {0}, as of {1}": "Zoomstufen {0}, Stand {1}",
  "zooms {0}": "Zoomstufen {0}",
  "last change {0}": "letzte Änderung {0}",
  "{0} {1} isn't to be had": "{0} {1} ist nicht zu bekommen",
  "asking ..": "wird gefragt ...",
  "{0} has no {1}.": "{0} hat keine {1}.",
  "{0} {1} is related to no items.": "{0} {1} ist mit nichts verknüpft.",
  "{0} {1} is related to one item.": "{0} {1} ist mit einem Element verknüpft.",
  "{0} {1} is related to {2} items.": "{0} {1} ist mit {2} Elementen verknüpft.",
  // report.js
  "east {0}, north {1} of system {2}": "Ost {0}, Nord {1} im System {2}",
  "amount {0}": "Menge {0}",
  "(no title) {0}": "(ohne Titel) {0}",
  "not in the package yet": "noch nicht im Paket",
  "{0}: isn't to be had": "{0}: nicht zu bekommen",
  "Photos come: {0} of {1} rows have theirs.": "Fotos kommen: {0} von {1} Einträgen haben ihre.",
  "{0} photo.": "{0} Foto.",
  "{0} photos.": "{0} Fotos.",
  "The package doesn't answer: those that it has aren't all here.":
    "Das Paket antwortet nicht: Seine Fotos sind nicht alle da.",
  "{0} row": "{0} Eintrag",
  "{0} rows": "{0} Einträge",
  "searched for: {0}": "gesucht: {0}",
  "the first {0} are here": "die ersten {0} sind hier",
  "not in the package yet: {0}": "noch nicht im Paket: {0}",
  "Photos come ..": "Fotos kommen ...",
  // rows.js
  "{0} rows, {1} are shown": "{0} Einträge, {1} werden gezeigt",
  "{0} of {1} rows, {2} are shown": "{0} von {1} Einträgen, {2} werden gezeigt",
  "{0} of {1} row": "{0} von {1} Eintrag",
  "{0} of {1} rows": "{0} von {1} Einträgen",
  // sending.js
  "the package doesn't answer": "das Paket antwortet nicht",
  "{0} of {1} stand": "{0} von {1} stehen im Paket",
  "What waits isn't all sent: {0}.": "Was wartet, ist nicht alles gesendet: {0}.",
  "What waits isn't sent: {0}.": "Was wartet, ist nicht gesendet: {0}.",
  // shapes.js
  "more than the {0} that are drawn: go nearer": "mehr als die {0}, die gezeichnet sind: näher herangehen",
  // shots.mjs
  "The browser doesn't let this page have the microphone: allow it for this address.":
    "Der Browser gibt dieser Seite das Mikrofon nicht: für diese Adresse erlauben.",
  "The browser knows no microphone of this device.": "Der Browser kennt kein Mikrofon dieses Geräts.",
  "The microphone doesn't answer: another program may have it.":
    "Das Mikrofon antwortet nicht: Vielleicht hat es ein anderes Programm.",
  "The browser doesn't let this page have the camera: allow it for this address, or choose a file.":
    "Der Browser gibt dieser Seite die Kamera nicht: für diese Adresse erlauben oder eine Datei wählen.",
  "The browser knows no camera of this device: choose a file.":
    "Der Browser kennt keine Kamera dieses Geräts: eine Datei wählen.",
  "The camera doesn't answer: another program may have it.":
    "Die Kamera antwortet nicht: Vielleicht hat sie ein anderes Programm.",
  "The picture tells the time, the place ({0}), and the direction, {1}.":
    "Das Bild gibt die Zeit an, den Ort ({0}) und die Richtung, {1}.",
  "The picture tells the time, the place ({0}).": "Das Bild gibt die Zeit an und den Ort ({0}).",
  "The picture tells the time, no place: the device tells none yet, and the direction, {0}.":
    "Das Bild gibt die Zeit an, keinen Ort, da das Gerät noch keinen meldet, und die Richtung, {0}.",
  "The picture tells the time, no place: the device tells none yet.":
    "Das Bild gibt die Zeit an, keinen Ort: Das Gerät meldet noch keinen.",
  "The camera can't be had: {0}.": "Die Kamera ist nicht zu bekommen: {0}.",
  "Nothing can be recorded: {0}.": "Es lässt sich nichts aufnehmen: {0}.",
  // slips.mjs
  "{0} row has a word with @ that is no place": "{0} Eintrag hat ein Wort mit @, das kein Ort ist",
  "{0} rows have a word with @ that is no place": "{0} Einträge haben ein Wort mit @, das kein Ort ist",
  "{0} row has its place outside all maps": "{0} Eintrag hat seinen Ort außerhalb aller Karten",
  "{0} rows have their place outside all maps": "{0} Einträge haben ihren Ort außerhalb aller Karten",
  "less than a metre wide or high: {0}": "weniger als einen Meter breit oder hoch: {0}",
  // sound.js
  "The browser is asked for the microphone ..": "Der Browser wird nach dem Mikrofon gefragt ...",
  "The recording has as much as the package takes of one.": "Die Aufnahme ist so groß, wie das Paket eine annimmt.",
  "Recording: {0} of at most {1}.": "Aufnahme: {0} von höchstens {1}.",
  "End recording": "Aufnahme beenden",
  "The recording": "Die Aufnahme",
  "Play": "Abspielen",
  "Play {0}": "{0} abspielen",
  // stake.js
  "Here: {0}": "Hier: {0}",
  // start.js
  "The package has no map yet.": "Das Paket hat noch keine Karte.",
  ["No zoom is laid out yet for {0}: there is nothing to see of it until the office lays one out and puts in " +
    "tiles. Open the package again then."]:
    "Für {0} ist noch keine Zoomstufe angelegt: Davon ist nichts zu sehen, bis das Büro eine anlegt und Kacheln " +
      "einfügt. Das Paket dann noch einmal öffnen.",
  "This viewer was made before the zooms of {0}: make the viewer anew to see them.":
    "Diese Seite ist älter als die Zoomstufen von {0}: Sie neu erzeugen, um diese zu sehen.",
  "This page doesn't work within a page of another address.":
    "Diese Seite arbeitet nicht innerhalb einer Seite anderer Adresse.",
  "Leaflet's script, item 2 beside this page, isn't to be had. Take the viewer in anew.":
    "Das Skript von Leaflet, Element 2 neben dieser Seite, fehlt. Die Seite noch einmal ins Paket nehmen.",
  "The matrices, item 4 beside this page, aren't to be had. Take the viewer in anew.":
    "Die Zoomstufen, Element 4 neben dieser Seite, fehlen. Die Seite noch einmal ins Paket nehmen.",
  "This page failed: {0}": "Diese Seite ist gescheitert: {0}",
  // styles.mjs
  "blue, round": "blau, rund",
  "green, a diamond": "grün, eine Raute",
  "pink, a star": "rosa, ein Stern",
  "brown, a cross": "braun, ein Kreuz",
  "grey, wide with two points": "grau, breit mit zwei Spitzen",
  "blue-green, upright": "blaugrün, hochkant",
  "{0}, hollow": "{0}, hohl",
  "orange, a square": "orange, ein Quadrat",
  "red, a triangle": "rot, ein Dreieck",
  "dark, round, with a number": "dunkel, rund, mit einer Zahl",
  // systems.mjs
  "N": "N",
  "NE": "NO",
  "E": "O",
  "SE": "SO",
  "S": "S",
  "SW": "SW",
  "W": "W",
  "NW": "NW",
  // typed.mjs
  "This place is outside all maps": "Dieser Ort liegt außerhalb aller Karten",
  "The note tells a place: east {0}, north {1}": "Die Notiz gibt einen Ort an: Ost {0}, Nord {1}",
  // waiting.js
  "all is in the package": "alles ist im Paket",
  "all is in the package, {0} joined": "alles ist im Paket, {0} zusammengeführt",
  "{0} to send": "{0} zu senden",
  "{0} changed meanwhile": "{0} inzwischen geändert",
  "{0} refused": "{0} abgelehnt",
  "{0} not saved": "{0} nicht gespeichert",
  "(empty)": "(leer)",
  "mine": "meins",
  "theirs": "das andere",
  "Remove all the same": "Trotzdem entfernen",
  "Make it again": "Neu anlegen",
  "Take mine": "Meins nehmen",
  "Leave it": "Stehen lassen",
  "Throw mine away": "Meins verwerfen",
  "Take theirs": "Das andere nehmen",
  "Change": "Ändern",
  "failed {0} times: {1}; waits to be sent once more": "{0}-mal gescheitert: {1}; wartet auf erneutes Senden",
  "Send again": "Erneut senden",
  "Send it here": "Hier senden",
  "Seen": "Gesehen",
  "Show more of what waits ({0} behind these)": "Mehr Wartendes zeigen (noch {0})",
  "{0}: press again": "{0}: noch einmal drücken",
  // way.js
  "From the map's middle: {0}": "Von der Kartenmitte: {0}",
  // who.js
  "Crew: {0}": "Trupp: {0}",
  "by {0}, {1}": "von {0}, {1}",
  // words.mjs
  "was saved under another key of this package: send it here, or open the address that it was saved at":
    "wurde unter einem anderen Schlüssel dieses Pakets gespeichert: hier senden oder die Adresse öffnen, unter " +
      "der es gespeichert wurde",
  "the title": "Titel",
  "the place": "Ort",
  "the note": "Notiz",
  "title": "Titel",
  "place": "Ort",
  "note": "Notiz",
  "amount": "Menge",
  "{0}, with a photo": "{0}, mit einem Foto",
  "{0}, with a PDF": "{0}, mit einem PDF",
  "{0}, with a sound": "{0}, mit einer Tonaufnahme",
  "{0}, with a shape": "{0}, mit einer Form",
  "{0}, with a track": "{0}, mit einem Track",
  "{0}: one more photo": "{0}: noch ein Foto",
  "{0}: one more PDF": "{0}: noch ein PDF",
  "{0}: one more sound": "{0}: noch eine Tonaufnahme",
  "{0}: one more shape": "{0}: noch eine Form",
  "{0}: one more track": "{0}: noch ein Track",
  "{0} and {1}": "{0} und {1}",
  "put back what belongs to it ({0})": "zurückstellen, was dazugehört ({0})",
  "take photo {0} off {1}": "Foto {0} von {1} lösen",
  "take PDF {0} off {1}": "PDF {0} von {1} lösen",
  "take sound {0} off {1}": "Tonaufnahme {0} von {1} lösen",
  "take shape {0} off {1}": "Form {0} von {1} lösen",
  "take track {0} off {1}": "Track {0} von {1} lösen",
  "remove {0}": "{0} entfernen",
  "changed meanwhile: the row was removed": "inzwischen geändert: Der Eintrag wurde entfernt",
  "an older page saved this, which didn't keep what its form showed":
    "gespeichert von einer älteren Seite, die nicht behielt, was ihr Formular zeigte",
  "changed meanwhile: the row that you remove isn't as you saw it":
    "inzwischen geändert: Der zu entfernende Eintrag ist nicht, wie er hier zu sehen war",
  "changed meanwhile: you and another have changed {0}": "inzwischen geändert, hier und anderswo: {0}",
  "changed meanwhile: another row has this number": "inzwischen geändert: Ein anderer Eintrag hat diese Nummer",
  "in the package, joined: {0} as another changed it, the rest as you did":
    "im Paket, zusammengeführt: {0} wie anderswo geändert, das Übrige wie hier",
  "refused: {0}": "abgelehnt: {0}",
  "waits for the one above of its row": "wartet auf das darüber, vom selben Eintrag",
  // work.js
  "What waits is sent first, and then the day ends.": "Zuerst wird gesendet, was wartet, dann endet der Tag.",
  "{0}: the day isn't ended": "{0}: Tag nicht beendet",
  "the day is ended: the package is closed": "Tag beendet: Paket geschlossen",
  "the day is ended, without this: {0}": "Tag beendet, ohne dies: {0}",
  "The package is closed, and what 'Not in the package yet' lists isn't in it: open it again for that.":
    "Das Paket ist geschlossen, und was unter „Noch nicht im Paket“ steht, ist nicht darin: Dafür noch einmal " +
      "öffnen.",
  "The package is closed, and its file may be copied. This page may be closed too.":
    "Das Paket ist geschlossen, seine Datei darf kopiert werden. Auch diese Seite darf geschlossen werden.",
  "Work": "Arbeit",
  "and tables": "und Tabellen",
  "The package has no table for rows yet.": "Das Paket hat noch keine Tabelle für Einträge.",
  "This browser keeps nothing that waits ({0}): work in a window that isn't private.":
    "Dieser Browser behält nichts, was wartet ({0}): in einem Fenster arbeiten, das nicht privat ist.",
  "This browser keeps work for another package too, which isn't in that yet: open it at this port to send it.":
    "Dieser Browser behält auch Arbeit für ein anderes Paket, die dort noch nicht ist: Es an diesem Port öffnen, " +
      "um sie zu senden.",
};
