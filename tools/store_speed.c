// The calls of the store that `play_desk bench` measures, by the C library over a file that it made: the same statements, each
// prepared once, with a write-ahead log and a sync at each commit. All machines are listed by one SELECT of both tables. A second
// look in the same second is no statement, and has no round here. Built and run by store_speed.sh.
//   store_speed FILE machine|address|unknown|uuid|interfaces|token|change|delete|list|second MACHINES ROUNDS
// prints the sum that play_desk prints for the log of bench_log.py with these words.
#include <sqlite3.h>
#include <stdint.h>
#include <stdio.h>
#include <stdlib.h>
#include <string.h>

#define COLUMNS "id, arch, uuid, pool, status, owner, image, tests, back, locked, version, deadline, boot, boots, waiting"

// Uefi64 and Ready in the tables.
enum { ARCH = 2, STATUS = 5 };

static sqlite3 *db;

static void fail(const char *where) {
    fprintf(stderr, "store_speed: %s: %s\n", where, sqlite3_errmsg(db));
    exit(1);
}

static void run(const char *sql) {
    if (sqlite3_exec(db, sql, 0, 0, 0) != SQLITE_OK) fail(sql);
}

static sqlite3_stmt *prepared(const char *sql) {
    sqlite3_stmt *statement;
    if (sqlite3_prepare_v3(db, sql, -1, SQLITE_PREPARE_PERSISTENT, &statement, 0) != SQLITE_OK) fail(sql);
    return statement;
}

static sqlite3_stmt *find_machine, *find_wipe, *find_address, *find_uuid, *find_interfaces, *find_token, *list_machines, *find_expired;
static sqlite3_stmt *add_machine, *set_machine, *remove_machine, *remove_wipe, *add_interface, *remove_interfaces, *remove_boots;
static sqlite3_stmt *remove_orders, *add_receipt, *find_count, *set_count, *begin, *commit;

static void prepare_all(void) {
    find_machine = prepared("SELECT " COLUMNS " FROM machines WHERE id = ?1");
    find_wipe = prepared("SELECT machine, erase FROM wipes WHERE machine = ?1");
    find_address = prepared("SELECT mac, machine FROM interfaces WHERE mac = ?1 ORDER BY mac");
    find_uuid = prepared("SELECT id FROM machines WHERE uuid = ?1 ORDER BY id");
    find_interfaces = prepared("SELECT mac, machine FROM interfaces WHERE machine = ?1 ORDER BY mac");
    find_token = prepared("SELECT name, role, digest, enabled FROM operators WHERE digest = ?1 ORDER BY name");
    list_machines = prepared("SELECT " COLUMNS ", erase FROM machines LEFT JOIN wipes ON machine = id ORDER BY id");
    find_expired = prepared("SELECT " COLUMNS " FROM machines WHERE deadline <= ?1 ORDER BY deadline, id LIMIT 1");
    add_machine = prepared("INSERT INTO machines (" COLUMNS ") VALUES (?1, ?2, ?3, ?4, ?5, ?6, ?7, ?8, ?9, ?10, ?11, ?12, ?13, ?14, ?15)");
    set_machine = prepared("UPDATE machines SET arch = ?2, uuid = ?3, pool = ?4, status = ?5, owner = ?6, image = ?7, tests = ?8, back = ?9, "
        "locked = ?10, version = ?11, deadline = ?12, boot = ?13, boots = ?14, waiting = ?15 WHERE id = ?1 AND version = ?16 RETURNING version");
    remove_machine = prepared("DELETE FROM machines WHERE id = ?1");
    remove_wipe = prepared("DELETE FROM wipes WHERE machine = ?1");
    add_interface = prepared("INSERT INTO interfaces (mac, machine) VALUES (?1, ?2)");
    remove_interfaces = prepared("DELETE FROM interfaces WHERE machine = ?1");
    remove_boots = prepared("DELETE FROM boots WHERE machine = ?1");
    remove_orders = prepared("DELETE FROM orders WHERE machine = ?1");
    add_receipt = prepared("INSERT INTO receipts (operator, request, command, status, body) VALUES (?1, ?2, ?3, ?4, ?5)");
    find_count = prepared("SELECT machines FROM counts WHERE pool = ?1 AND status = ?2 ORDER BY pool, status");
    set_count = prepared("UPDATE counts SET machines = ?3 WHERE pool = ?1 AND status = ?2");
    begin = prepared("BEGIN");
    commit = prepared("COMMIT");
}

static void step(sqlite3_stmt *statement) {
    int answer = sqlite3_step(statement);
    if (answer != SQLITE_ROW && answer != SQLITE_DONE) fail("step");
    sqlite3_reset(statement);
}

// A statement whose one parameter is a machine's number.
static void step_of(sqlite3_stmt *statement, uint32_t id) {
    sqlite3_bind_int64(statement, 1, id);
    step(statement);
}

// The number in a column of the first row, each column of which is read once; -1 where there is no row.
static int64_t read_row(sqlite3_stmt *statement, int column) {
    int64_t value = -1;
    if (sqlite3_step(statement) == SQLITE_ROW) {
        value = sqlite3_column_int64(statement, column);
        for (int at = 0; at < sqlite3_column_count(statement); at++) (void)sqlite3_column_blob(statement, at);
    }
    sqlite3_reset(statement);
    return value;
}

static void put_number(uint8_t *octets, uint64_t number, int count) {
    for (int at = 0; at < count; at++) octets[at] = (uint8_t)(number >> (8 * (count - 1 - at)));
}

static void bind_address(sqlite3_stmt *statement, uint8_t second, uint32_t id) {
    uint8_t mac[6] = {0x52, second};
    put_number(mac + 2, id, 4);
    sqlite3_bind_blob(statement, 1, mac, sizeof mac, SQLITE_TRANSIENT);
}

static void bind_uuid(sqlite3_stmt *statement, int parameter, uint32_t id) {
    uint8_t uuid[16];
    memset(uuid, 0x40, sizeof uuid);
    put_number(uuid, id, 4);
    sqlite3_bind_blob(statement, parameter, uuid, sizeof uuid, SQLITE_TRANSIENT);
}

static uint64_t ask_machine(uint32_t id) {
    sqlite3_bind_int64(find_machine, 1, id);
    int64_t version = read_row(find_machine, 10);
    sqlite3_bind_int64(find_wipe, 1, id);
    if (version < 0 || read_row(find_wipe, 1) >= 0) fail("machine");
    return (uint64_t)version;
}

static uint64_t ask_address(uint32_t id) {
    bind_address(find_address, 0x54, id);
    return (uint64_t)read_row(find_address, 1);
}

static uint64_t ask_unknown(uint32_t id) {
    bind_address(find_address, 0x55, id);
    if (read_row(find_address, 1) >= 0) fail("unknown");
    return 1;
}

static uint64_t ask_uuid(uint32_t id) {
    bind_uuid(find_uuid, 1, id);
    return (uint64_t)read_row(find_uuid, 0);
}

// How many rows a statement shows, or the sum of a column of theirs; each column is read once.
static uint64_t all_rows(sqlite3_stmt *statement, int summed) {
    uint64_t sum = 0;
    while (sqlite3_step(statement) == SQLITE_ROW) {
        for (int at = 0; at < sqlite3_column_count(statement); at++) (void)sqlite3_column_blob(statement, at);
        sum += summed < 0 ? 1 : (uint64_t)sqlite3_column_int64(statement, summed);
    }
    sqlite3_reset(statement);
    return sum;
}

static uint64_t ask_interfaces(uint32_t id) {
    sqlite3_bind_int64(find_interfaces, 1, id);
    return all_rows(find_interfaces, -1);
}

// SHA-256 of `abc`.
static uint64_t ask_token(void) {
    static const uint8_t digest[32] = {
        0xba, 0x78, 0x16, 0xbf, 0x8f, 0x01, 0xcf, 0xea, 0x41, 0x41, 0x40, 0xde, 0x5d, 0xae, 0x22, 0x23,
        0xb0, 0x03, 0x61, 0xa3, 0x96, 0x17, 0x7a, 0x9c, 0xb4, 0x10, 0xff, 0x61, 0xf2, 0x00, 0x15, 0xad};
    sqlite3_bind_blob(find_token, 1, digest, sizeof digest, SQLITE_TRANSIENT);
    return (uint64_t)read_row(find_token, 3);
}

static uint64_t ask_expired(uint32_t second) {
    sqlite3_bind_int64(find_expired, 1, second);
    if (read_row(find_expired, 0) >= 0) fail("second");
    return 1;
}

// The values of a machine's row; those that aren't bound are NULL.
static void bind_machine(sqlite3_stmt *statement, uint32_t id, int64_t version) {
    sqlite3_bind_int64(statement, 1, id);
    sqlite3_bind_int64(statement, 2, ARCH);
    bind_uuid(statement, 3, id);
    sqlite3_bind_text(statement, 4, "lab", 3, SQLITE_STATIC);
    sqlite3_bind_int64(statement, 5, STATUS);
    sqlite3_bind_int64(statement, 8, 0);
    sqlite3_bind_int64(statement, 10, 0);
    sqlite3_bind_int64(statement, 11, version);
    sqlite3_bind_int64(statement, 14, 0);
}

static void put_receipt(uint32_t id, uint64_t version) {
    uint8_t key[16] = {0};
    put_number(key, id, 8);
    put_number(key + 8, version, 8);
    sqlite3_bind_text(add_receipt, 1, "ada", 3, SQLITE_STATIC);
    sqlite3_bind_blob(add_receipt, 2, key, sizeof key, SQLITE_TRANSIENT);
    sqlite3_bind_text(add_receipt, 3, "{\"command\":\"lock\",\"machine\":1,\"version\":1}", -1, SQLITE_STATIC);
    sqlite3_bind_int64(add_receipt, 4, 200);
    sqlite3_bind_text(add_receipt, 5, "{\"id\":1,\"status\":\"Ready\",\"version\":2}", -1, SQLITE_STATIC);
    step(add_receipt);
}

static uint64_t change(uint32_t id) {
    int64_t was = (int64_t)ask_machine(id);
    step(begin);
    sqlite3_bind_int64(find_machine, 1, id);
    read_row(find_machine, 4);
    bind_machine(set_machine, id, was + 1);
    sqlite3_bind_int64(set_machine, 16, was);
    if (read_row(set_machine, 0) != was + 1) fail("change");
    step_of(remove_wipe, id);
    put_receipt(id, (uint64_t)(was + 1));
    step(commit);
    return (uint64_t)(was + 1);
}

// How many machines are Ready in the pool lab is changed by one. There are others before and after, so that the row stays.
static void count(int64_t more) {
    for (int at = 0; at < 2; at++) {
        sqlite3_stmt *statement = at == 0 ? find_count : set_count;
        sqlite3_bind_text(statement, 1, "lab", 3, SQLITE_STATIC);
        sqlite3_bind_int64(statement, 2, STATUS);
    }
    sqlite3_bind_int64(set_count, 3, read_row(find_count, 0) + more);
    step(set_count);
}

static uint64_t delete(uint32_t id) {
    step(begin);
    bind_machine(add_machine, id, 1);
    step(add_machine);
    count(1);
    step_of(remove_wipe, id);
    bind_address(add_interface, 0x54, id);
    sqlite3_bind_int64(add_interface, 2, id);
    step(add_interface);
    step(commit);

    step(begin);
    sqlite3_bind_int64(find_machine, 1, id);
    read_row(find_machine, 4);
    step_of(remove_interfaces, id);
    step_of(remove_boots, id);
    step_of(remove_orders, id);
    step_of(remove_wipe, id);
    step_of(remove_machine, id);
    count(-1);
    step(commit);
    return 2;
}

static int is(const char *word, const char *other) { return strcmp(word, other) == 0; }

static uint64_t one(const char *what, uint32_t machines, uint32_t round) {
    uint32_t id = round % machines + 1;
    if (is(what, "machine")) return ask_machine(id);
    if (is(what, "address")) return ask_address(id);
    if (is(what, "unknown")) return ask_unknown(id);
    if (is(what, "uuid")) return ask_uuid(id);
    if (is(what, "interfaces")) return ask_interfaces(id);
    if (is(what, "token")) return ask_token();
    if (is(what, "change")) return change(id);
    if (is(what, "delete")) return delete(machines + 1);
    if (is(what, "list")) return all_rows(list_machines, 0);
    if (is(what, "second")) return ask_expired(round + 1);
    fail("words");
    return 0;
}

static void close_all(void) {
    sqlite3_stmt *statement;
    while ((statement = sqlite3_next_stmt(db, 0)) != 0) sqlite3_finalize(statement);
    if (sqlite3_close(db) != SQLITE_OK) fail("close");
}

int main(int count, char **words) {
    if (count != 5 || sqlite3_open_v2(words[1], &db, SQLITE_OPEN_READWRITE, 0) != SQLITE_OK) fail("FILE WHAT MACHINES ROUNDS");
    uint32_t machines = (uint32_t)atoi(words[3]), rounds = (uint32_t)atoi(words[4]);
    if (machines == 0) fail("MACHINES");
    run("PRAGMA journal_mode = WAL");
    run("PRAGMA synchronous = FULL");
    run("PRAGMA foreign_keys = ON");
    prepare_all();
    uint64_t sum = 0;
    for (uint32_t round = 0; round < rounds; round++) sum += one(words[2], machines, round);
    close_all();
    printf("%llu\n", (unsigned long long)sum);
    return 0;
}
