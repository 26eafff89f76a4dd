// What mmpkg does with records and kits, in C over the system's SQLite: the other side of the benches.
//
//     native [--plain] run FILE < RECORDS
//     native [--plain] kit FILE EDITION FOLDER
//
// FILE is a package that mmpkg made: its tables, keys and indexes are the same. 'run' takes records of srs, tile, stage
// (of a tile) and publish without quotes, 'kit' a folder of tiles. Each command is a transaction, with WAL and
// synchronous=FULL, makes the looks that mmpkg makes before it writes, and is answered by a line that is flushed. Bytes
// are kept once, by their SHA-256; with --plain a number stands in the digest's place, and all else is the same. The
// rules are not checked at the opening. What the benches never ask for ends the program: whatever would be refused, and
// a tile in place of another.

#include <openssl/sha.h>
#include <sqlite3.h>
#include <stdarg.h>
#include <stdio.h>
#include <stdlib.h>
#include <string.h>

enum { FIELDS = 10, DIGEST = 2 * SHA256_DIGEST_LENGTH };

// Bytes, or where there are none their length is 0.
typedef struct {
    const unsigned char *data;
    int length;
} Bytes;

typedef struct {
    const char *table;
    sqlite3_int64 zoom, column, row;
} Place;

typedef struct {
    Place at;
    sqlite3_int64 blob;
} Piece;

static sqlite3 *database;
static int is_plain;
static const char STAMP[] = "1970-01-01T00:00:00.000Z";

static void stop(const char *what) {
    fprintf(stderr, "%s: %s\n", what, database ? sqlite3_errmsg(database) : "");
    exit(1);
}

static void want(int holds, const char *what) {
    if (!holds)
        stop(what);
}

// Binds the values of a statement by their kinds: t a text, i a whole number, b Bytes.
static void bind(sqlite3_stmt *statement, const char *kinds, va_list values) {
    for (int at = 1; kinds[at - 1]; at++) {
        if (kinds[at - 1] == 't') {
            sqlite3_bind_text(statement, at, va_arg(values, const char *), -1, SQLITE_STATIC);
        } else if (kinds[at - 1] == 'i') {
            sqlite3_bind_int64(statement, at, va_arg(values, sqlite3_int64));
        } else {
            Bytes bytes = va_arg(values, Bytes);
            sqlite3_bind_blob(statement, at, bytes.data, bytes.length, SQLITE_STATIC);
        }
    }
}

// Runs a statement up to its first row, and returns whether there is one. It is compiled once, and kept in 'made'.
static int ask(sqlite3_stmt **made, const char *text, const char *kinds, ...) {
    if (*made == NULL)
        want(sqlite3_prepare_v3(database, text, -1, SQLITE_PREPARE_PERSISTENT, made, NULL) == SQLITE_OK, text);
    sqlite3_reset(*made);
    va_list values;
    va_start(values, kinds);
    bind(*made, kinds, values);
    va_end(values);
    int answer = sqlite3_step(*made);
    want(answer == SQLITE_ROW || answer == SQLITE_DONE, text);
    return answer == SQLITE_ROW;
}

// A look whose first column is a number, -1 where there is no row; and a statement without rows. Each text has a
// statement of its own.
#define NUMBER(text, ...)                                                                                              \
    ({                                                                                                                 \
        static sqlite3_stmt *made;                                                                                     \
        sqlite3_int64 it = ask(&made, text, __VA_ARGS__) ? sqlite3_column_int64(made, 0) : -1;                         \
        sqlite3_reset(made);                                                                                           \
        it;                                                                                                            \
    })
#define RUN(text, ...)                                                                                                 \
    ({                                                                                                                 \
        static sqlite3_stmt *made;                                                                                     \
        ask(&made, text, __VA_ARGS__);                                                                                 \
        sqlite3_reset(made);                                                                                           \
    })

static void begin(void) {
    RUN("BEGIN", "");
}
static void commit(void) {
    RUN("COMMIT", "");
}

// The digest of bytes, in the hexadecimal digits in which it is kept.
static const char *digest_of(Bytes bytes) {
    static char digits[DIGEST + 1];
    static long number;
    if (is_plain) {
        snprintf(digits, sizeof digits, "%0*ld", DIGEST, ++number);
        return digits;
    }
    unsigned char digest[SHA256_DIGEST_LENGTH];
    SHA256(bytes.data, bytes.length, digest);
    for (int at = 0; at < SHA256_DIGEST_LENGTH; at++) {
        digits[2 * at] = "0123456789abcdef"[digest[at] >> 4];
        digits[2 * at + 1] = "0123456789abcdef"[digest[at] & 15];
    }
    return digits;
}

// The blob of these bytes: the one that stands, or a new one.
static sqlite3_int64 keep(Bytes bytes) {
    const char *digest = digest_of(bytes);
    sqlite3_int64 stands =
        NUMBER("SELECT id FROM mm_blobs WHERE digest = ?1 AND data = ?2 LIMIT 1", "tb", digest, bytes);
    if (stands != -1)
        return stands;
    RUN("INSERT INTO mm_blobs (digest, data) VALUES (?1, ?2)", "tb", digest, bytes);
    return sqlite3_last_insert_rowid(database);
}

// Whether a table is a pyramid, and a place in the matrix at its zoom.
static void want_place(Place at) {
    static sqlite3_stmt *kind, *sides;
    want(ask(&kind, "SELECT kind FROM mm_tables WHERE table_name = ?1 LIMIT 1", "t", at.table), "no such table");
    want(strcmp((const char *)sqlite3_column_text(kind, 0), "two") == 0, "no pyramid");
    sqlite3_reset(kind);
    const char *text =
        "SELECT matrix_width, matrix_height FROM gpkg_tile_matrix WHERE table_name = ?1 AND zoom_level = ?2 LIMIT 1";
    want(ask(&sides, text, "ti", at.table, at.zoom), "no matrix");
    want(at.column < sqlite3_column_int64(sides, 0) && at.row < sqlite3_column_int64(sides, 1), "outside the matrix");
    sqlite3_reset(sides);
}

// Puts a tile that names a blob, and sets the table's last change.
static void name_tile(Place at, sqlite3_int64 blob) {
    sqlite3_int64 stands = NUMBER("SELECT blob FROM mm_tiles WHERE table_name = ?1 AND zoom_level = ?2 AND tile_column "
                                  "= ?3 AND tile_row = ?4 LIMIT 1",
        "tiii", at.table, at.zoom, at.column, at.row);
    want(stands == -1, "a tile stands there");
    RUN("INSERT INTO mm_tiles (table_name, zoom_level, tile_column, tile_row, blob) VALUES (?1, ?2, ?3, ?4, ?5)",
        "tiiii", at.table, at.zoom, at.column, at.row, blob);
    RUN("UPDATE gpkg_contents SET last_change = ?2 WHERE table_name = ?1 AND last_change <> ?2", "tt", at.table, STAMP);
}

static void put_tile(Place at, Bytes bytes) {
    want_place(at);
    name_tile(at, keep(bytes));
}

static void add_system(char **fields) {
    sqlite3_int64 number = atoll(fields[0]);
    want(
        NUMBER("SELECT 1 FROM gpkg_spatial_ref_sys WHERE srs_id = ?1 LIMIT 1", "i", number) == -1, "the system stands");
    RUN("INSERT INTO gpkg_spatial_ref_sys (srs_name, srs_id, organization, organization_coordsys_id, definition, "
        "description) "
        "VALUES (?1, ?2, ?3, ?4, ?5, ?6)",
        "tititt", fields[1], number, fields[2], (sqlite3_int64)atoll(fields[3]), fields[4], fields[5]);
}

// The piece that is looked at: its row, and its bytes.
static sqlite3_stmt *piece_row, *piece_bytes;

static void leave_piece(void) {
    sqlite3_reset(piece_row);
    sqlite3_reset(piece_bytes);
}

// The piece of a number, if the edition has one: its place and its blob, and its bytes where they are asked for. All last
// until the piece is left.
static int piece_at(const char *edition, sqlite3_int64 number, Piece *piece, Bytes *bytes) {
    const char *row = "SELECT kind, name, k1, k2, k3, k4, k5, k6, k7, t1, t2, blob FROM mm_pieces WHERE edition = ?1 "
                      "AND piece_no = ?2 LIMIT 1";
    if (!ask(&piece_row, row, "ti", edition, number))
        return 0;
    want(strcmp((const char *)sqlite3_column_text(piece_row, 0), "tile") == 0, "no tile");
    piece->at.table = (const char *)sqlite3_column_text(piece_row, 1);
    piece->at.zoom = sqlite3_column_int64(piece_row, 2);
    piece->at.column = sqlite3_column_int64(piece_row, 3);
    piece->at.row = sqlite3_column_int64(piece_row, 4);
    piece->blob = sqlite3_column_int64(piece_row, 11);
    if (bytes == NULL)
        return 1;
    want(ask(&piece_bytes, "SELECT data FROM mm_blobs WHERE id = ?1 LIMIT 1", "i", piece->blob), "no such blob");
    *bytes = (Bytes){sqlite3_column_blob(piece_bytes, 0), sqlite3_column_bytes(piece_bytes, 0)};
    return 1;
}

static void want_open(const char *edition) {
    static sqlite3_stmt *made;
    want(ask(&made, "SELECT state FROM mm_editions WHERE name = ?1 LIMIT 1", "t", edition), "no such edition");
    want(strcmp((const char *)sqlite3_column_text(made, 0), "open") == 0, "the edition is published");
    sqlite3_reset(made);
}

static void want_equal(Place at, Bytes bytes, Place other, Bytes kept) {
    want(
        strcmp(at.table, other.table) == 0 && at.zoom == other.zoom && at.column == other.column && at.row == other.row,
        "another piece");
    want(bytes.length == kept.length && memcmp(bytes.data, kept.data, kept.length) == 0, "other bytes");
}

// Stages a tile under a number, or finds the equal piece that stands there.
static void stage(const char *edition, sqlite3_int64 number, Place at, Bytes bytes) {
    Piece other;
    Bytes kept;
    want_open(edition);
    if (piece_at(edition, number, &other, &kept)) {
        want_equal(at, bytes, other.at, kept);
        leave_piece();
        return;
    }
    const char *before = "SELECT 1 FROM mm_pieces WHERE edition = ?1 AND piece_no = ?2 LIMIT 1";
    want(number == 1 || NUMBER(before, "ti", edition, number - 1) == 1, "not the next piece");
    sqlite3_int64 blob = keep(bytes);
    RUN("INSERT INTO mm_pieces (edition, piece_no, kind, name, k1, k2, k3, k4, k5, k6, k7, t1, t2, blob) "
        "VALUES (?1, ?2, 'tile', ?3, ?4, ?5, ?6, 0, 0, 0, 0, '', '', ?7)",
        "titiiii", edition, number, at.table, at.zoom, at.column, at.row, blob);
}

static int is_named(sqlite3_int64 blob) {
    return NUMBER("SELECT 1 FROM mm_tiles WHERE blob = ?1 LIMIT 1", "i", blob) == 1 ||
           NUMBER("SELECT 1 FROM mm_media WHERE blob = ?1 LIMIT 1", "i", blob) == 1 ||
           NUMBER("SELECT 1 FROM mm_pieces WHERE blob = ?1 LIMIT 1", "i", blob) == 1;
}

// Removes the pieces of an edition, and the blobs that nothing names any more.
static void remove_pieces(const char *edition, sqlite3_int64 count) {
    static sqlite3_stmt *made;
    sqlite3_int64 *blobs = calloc(count, sizeof *blobs), found = 0;
    want(blobs != NULL, "memory");
    ask(&made,
        "SELECT p.blob FROM mm_pieces AS p WHERE p.edition = ?1 AND p.blob IS NOT NULL "
        "AND NOT EXISTS (SELECT 1 FROM mm_tiles AS t WHERE t.blob = p.blob) "
        "AND NOT EXISTS (SELECT 1 FROM mm_media AS m WHERE m.blob = p.blob)",
        "t", edition);
    for (; found < count && sqlite3_data_count(made) > 0; sqlite3_step(made))
        blobs[found++] = sqlite3_column_int64(made, 0);
    sqlite3_reset(made);
    RUN("DELETE FROM mm_pieces WHERE edition = ?1", "t", edition);
    for (sqlite3_int64 at = 0; at < found; at++)
        if (!is_named(blobs[at]))
            RUN("DELETE FROM mm_blobs WHERE id = ?1", "i", blobs[at]);
    free(blobs);
}

static void publish(const char *edition) {
    Piece piece;
    sqlite3_int64 number = 1;
    want_open(edition);
    for (; piece_at(edition, number, &piece, NULL); number++) {
        want_place(piece.at);
        name_tile(piece.at, piece.blob);
        leave_piece();
    }
    RUN("UPDATE mm_editions SET state = 'published' WHERE name = ?1", "t", edition);
    remove_pieces(edition, number - 1);
}

// Parts a line at its commas, in place; fields that are not there are empty. Returns how many there are.
static int part(char *line, char **fields) {
    int count = 0;
    line[strcspn(line, "\n")] = '\0';
    for (char *field; count < FIELDS && (field = strsep(&line, ",")) != NULL;)
        fields[count++] = field;
    for (int at = count; at < FIELDS; at++)
        fields[at] = "";
    return count;
}

static Place place_of(char **fields) {
    return (Place){fields[0], atoll(fields[1]), atoll(fields[2]), atoll(fields[3])};
}

static int digit(char letter) {
    return letter <= '9' ? letter - '0' : (letter | 32) - 'a' + 10;
}

// Decodes hexadecimal digits in place.
static Bytes decoded(char *digits) {
    int length = strlen(digits) / 2;
    for (int at = 0; at < length; at++)
        digits[at] = digit(digits[2 * at]) << 4 | digit(digits[2 * at + 1]);
    return (Bytes){(unsigned char *)digits, length};
}

static void command(char **fields) {
    if (strcmp(fields[0], "srs") == 0)
        add_system(fields + 1);
    else if (strcmp(fields[0], "tile") == 0)
        put_tile(place_of(fields + 1), decoded(fields[5]));
    else if (strcmp(fields[0], "stage") == 0)
        stage(fields[1], atoll(fields[2]), place_of(fields + 4), decoded(fields[8]));
    else if (strcmp(fields[0], "publish") == 0)
        publish(fields[1]);
    else
        stop("no such record");
}

static void run(void) {
    char *line = NULL, *fields[FIELDS];
    size_t room = 0;
    for (long number = 1; getline(&line, &room, stdin) > 0; number++) {
        part(line, fields);
        begin();
        command(fields);
        commit();
        printf("%ld ok\n", number);
        fflush(stdout);
    }
    free(line);
}

// Reads a file of a kit. The bytes last until the next call.
static Bytes read_file(const char *folder, const char *name) {
    static unsigned char data[1048577];
    char path[4096];
    snprintf(path, sizeof path, "%s/%s", folder, name);
    FILE *file = fopen(path, "rb");
    want(file != NULL, path);
    int length = fread(data, 1, sizeof data, file);
    fclose(file);
    return (Bytes){data, length};
}

static void import_kit(const char *edition, const char *folder) {
    char *line = NULL, *fields[FIELDS], path[4096];
    size_t room = 0;
    long count = 0;
    snprintf(path, sizeof path, "%s/kit.csv", folder);
    FILE *list = fopen(path, "r");
    want(list != NULL, path);
    for (; getline(&line, &room, list) > 0; count++) {
        want(part(line, fields) == 7, "a kit of tiles");
        Bytes bytes = read_file(folder, fields[6]);
        begin();
        stage(edition, atoll(fields[0]), place_of(fields + 2), bytes);
        commit();
    }
    fclose(list);
    free(line);
    printf("kit complete %ld\n", count);
}

static void open_file(const char *file) {
    want(sqlite3_open_v2(file, &database, SQLITE_OPEN_READWRITE, NULL) == SQLITE_OK, file);
    // A package's connection keeps up to 2,000 pages.
    const char *settings =
        "PRAGMA journal_mode=WAL; PRAGMA synchronous=FULL; PRAGMA foreign_keys=ON; PRAGMA cache_size=2000";
    want(sqlite3_exec(database, settings, NULL, NULL, NULL) == SQLITE_OK, settings);
}

int main(int count, char **words) {
    is_plain = count > 1 && strcmp(words[1], "--plain") == 0;
    words += is_plain;
    count -= is_plain;
    want(count > 2, "native [--plain] run FILE, or kit FILE EDITION FOLDER");
    open_file(words[2]);
    if (strcmp(words[1], "kit") == 0 && count > 4)
        import_kit(words[3], words[4]);
    else
        run();
    for (sqlite3_stmt *it; (it = sqlite3_next_stmt(database, NULL)) != NULL;)
        sqlite3_finalize(it);
    want(sqlite3_close(database) == SQLITE_OK, "closing");
    return 0;
}
