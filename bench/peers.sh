#!/usr/bin/env bash
# Puts the store beside its peers over real files, all in one run: FDB5's `fdb-write`, `fdb-read` and `fdb-list`, a program of four
# processes over FDB5's C interface, LMDB, SQLite, and a plain C program that makes the same syncs. Each archives SMALL messages of
# 183 octets (10,000, in 16 datasets) and LARGE ones of 130 KB (1,000), retrieves those of the whole days among them (9,750 and 650)
# in the order of a request, lists the small ones' keys, and retrieves one of these. SMALL and LARGE are 650 at least.
# What is acknowledged is firm in each: LMDB and SQLite commit with syncs for each 2,048 messages, the C program makes a folder a
# dataset with the syncs that `fdb` makes there, and FDB5 flushes at the end (the tool) and each 2,048 messages too (its interface).
# LMDB, SQLite and the C program get the keys as texts, beside the messages or in place of the request, and so does FDB5's interface:
# none of these reads a message, and none but `fdb` checks a digest. What each writes and lists is compared with what was archived.
# Prints medians of RUNS runs (5), with the start of the process and all syncs, and behind them a table of the least and the most. A
# column is `-` where its tools or its library aren't installed (Debian: fdb5, libfdb5-dev, liblmdb-dev, libsqlite3-dev) or where there
# is no such command. Wants python3, and a C compiler for all but FDB5's tools. FDB names the program, where it isn't to be built
# here; WORK a folder on the file system to be measured. No part of the gate.
set -eu
top=$(cd "$(dirname "$0")/.." && pwd)
fdb=${FDB:-$top/fdb}
"$fdb" pick step=0 < /dev/null > /dev/null 2>&1 || true
work=$(mktemp -d "${WORK:-/tmp}/fdb-peers.XXXXXX")
out=$(mktemp -d "$([ -d /dev/shm ] && echo /dev/shm || echo "$work")/fdb-peers.XXXXXX")
trap 'rm -rf "$work" "$out"' EXIT
cat > "$work/common.h" <<'C'
/* What the peers share. Their words are: archive STORE KEYS STREAM SIZE, retrieve STORE KEYS, list STORE. KEYS has a key a line,
   STREAM a message of SIZE octets for each. What is retrieved goes to standard output, or a line of key and length for each key. */
#define _GNU_SOURCE
#include <fcntl.h>
#include <stdio.h>
#include <stdlib.h>
#include <string.h>
#include <sys/stat.h>
#include <unistd.h>

#define BATCH 2048
#define LINE 4096

static void die(const char *what) {
    perror(what);
    exit(1);
}

static FILE *opened(const char *path) {
    FILE *file = fopen(path, "rb");
    if (!file) die(path);
    return file;
}

/* The next line without its end; 0 where there is none. */
static size_t next_line(FILE *lines, char *line) {
    if (!fgets(line, LINE, lines)) return 0;
    size_t length = strcspn(line, "\n");
    line[length] = 0;
    return length;
}

static void next_message(FILE *stream, char *message, size_t size) {
    if (fread(message, 1, size, stream) != size) die("message");
}

static void written(const void *bytes, size_t length) {
    if (fwrite(bytes, 1, length, stdout) != length) die("output");
}

static int archive(const char *store, FILE *keys, FILE *stream, size_t size);
static int retrieve(const char *store, FILE *keys);
static int list(const char *store);

int main(int count, char **words) {
    static char gathered[65536];
    setvbuf(stdout, gathered, _IOFBF, sizeof gathered);
    int status = 2;
    if (count == 6 && !strcmp(words[1], "archive"))
        status = archive(words[2], opened(words[3]), opened(words[4]), atol(words[5]));
    else if (count == 4 && !strcmp(words[1], "retrieve"))
        status = retrieve(words[2], opened(words[3]));
    else if (count == 3 && !strcmp(words[1], "list"))
        status = list(words[2]);
    if (fflush(stdout)) die("output");
    return status;
}
C
cat > "$work/plain.c" <<'C'
#include "common.h"
#include <dirent.h>

/* A store has a folder for each dataset, which the first four pairs of a key name. In it `toc` has a head and an entry for each batch,
   and each batch a file of fields and an index of records in the order of their keys. */
#define HEAD 321
#define ENTRY 64

struct record {
    char key[104];
    long batch, at, size;
};

struct dataset {
    char folder[LINE], *name;
    int names, fields, *files;
    long batches, count;
    struct record *records;
    struct dataset *next;
};

static struct dataset *datasets;

static size_t name_length(const char *key) {
    const char *end = key - 1;
    for (int pair = 0; pair < 4; pair++)
        if (!(end = strchr(end + 1, ','))) die(key);
    return end - key;
}

static int made(const struct dataset *of, const char *kind, long batch, int how) {
    char path[LINE + 64];
    if (batch) snprintf(path, sizeof path, "%s/1-%ld.%s", of->folder, batch, kind);
    else snprintf(path, sizeof path, "%s/%s", of->folder, kind);
    int file = open(path, how | O_CLOEXEC, 0666);
    if (file < 0) die(path);
    return file;
}

static void put(int file, const char *bytes, size_t length, off_t at) {
    while (length) {
        ssize_t done = pwrite(file, bytes, length, at);
        if (done <= 0) die("pwrite");
        bytes += done;
        length -= done;
        at += done;
    }
}

static void got(int file, char *bytes, size_t length, off_t at) {
    while (length) {
        ssize_t done = pread(file, bytes, length, at);
        if (done <= 0) die("pread");
        bytes += done;
        length -= done;
        at += done;
    }
}

static void firm(int file) {
    if (fsync(file)) die("fsync");
}

static long size_of(int file) {
    struct stat told;
    if (fstat(file, &told)) die("fstat");
    return told.st_size;
}

static int by_key(const void *left, const void *right) {
    const struct record *one = left, *other = right;
    int order = strcmp(one->key, other->key);
    return order ? order : (one->batch < other->batch) - (one->batch > other->batch);
}

static int of_key(const void *key, const void *record) { return strcmp(key, ((const struct record *)record)->key); }

/* Both files of the next batch, which its first message makes, so that one sync of the folder serves both. */
static int begun(const struct dataset *of) {
    close(made(of, "index", of->batches + 1, O_WRONLY | O_CREAT | O_TRUNC));
    return made(of, "fields", of->batches + 1, O_WRONLY | O_CREAT | O_TRUNC);
}

/* A new dataset is founded: three syncs. */
static void found(const char *store, struct dataset *it) {
    static char head[HEAD];
    char table[LINE + 64], unfinished[LINE + 64];
    snprintf(table, sizeof table, "%s/toc", it->folder);
    snprintf(unfinished, sizeof unfinished, "%s/toc.new", it->folder);
    int above = open(store, O_RDONLY | O_DIRECTORY | O_CLOEXEC);
    if (above < 0 || mkdir(it->folder, 0777)) die(it->folder);
    firm(above);
    close(above);
    it->names = open(it->folder, O_RDONLY | O_DIRECTORY | O_CLOEXEC);
    int file = made(it, "toc.new", 0, O_WRONLY | O_CREAT | O_TRUNC);
    put(file, head, HEAD, 0);
    firm(file);
    if (rename(unfinished, table)) die(table);
    firm(it->names);
    close(file);
    it->records = malloc(BATCH * sizeof *it->records);
}

/* The batch is listed: five syncs. */
static void listed(struct dataset *it) {
    char entry[ENTRY] = {0};
    long batch = ++it->batches;
    firm(it->fields);
    close(it->fields);
    firm(it->names);
    qsort(it->records, it->count, sizeof *it->records, by_key);
    int index = made(it, "index", batch, O_WRONLY), table = made(it, "toc", 0, O_WRONLY);
    put(index, (char *)it->records, it->count * sizeof *it->records, 0);
    firm(index);
    close(index);
    memcpy(entry, &batch, sizeof batch);
    put(table, entry, ENTRY, HEAD + ENTRY * (batch - 1));
    firm(table);
    put(table, "O", 1, HEAD - 1 + ENTRY * (batch - 1));
    firm(table);
    close(table);
    it->count = 0;
}

/* The newest record of each key of a dataset. */
static void looked(struct dataset *it) {
    int table = made(it, "toc", 0, O_RDONLY);
    it->batches = (size_of(table) - HEAD) / ENTRY;
    close(table);
    it->files = malloc((it->batches + 1) * sizeof *it->files);
    for (long batch = 1; batch <= it->batches; batch++) {
        int index = made(it, "index", batch, O_RDONLY);
        long octets = size_of(index), count = octets / sizeof *it->records;
        it->records = realloc(it->records, (it->count + count) * sizeof *it->records);
        got(index, (char *)(it->records + it->count), octets, 0);
        close(index);
        it->files[batch] = made(it, "fields", batch, O_RDONLY);
        it->count += count;
    }
    if (it->batches < 2) return;
    long kept = 0;
    qsort(it->records, it->count, sizeof *it->records, by_key);
    for (long i = 0; i < it->count; i++)
        if (!kept || strcmp(it->records[kept - 1].key, it->records[i].key)) it->records[kept++] = it->records[i];
    it->count = kept;
}

/* The dataset of this name, opened the first time; founded where a batch is to be put into it. */
static struct dataset *dataset(const char *store, const char *name, size_t length, int puts) {
    for (struct dataset *it = datasets; it; it = it->next)
        if (!strncmp(it->name, name, length) && !it->name[length]) return it;
    struct dataset *it = calloc(1, sizeof *it);
    snprintf(it->folder, sizeof it->folder, "%s/%.*s", store, (int)length, name);
    it->name = it->folder + strlen(store) + 1;
    if (puts) found(store, it);
    else looked(it);
    it->next = datasets;
    return datasets = it;
}

static int archive(const char *store, FILE *keys, FILE *stream, size_t size) {
    char line[LINE], *message = malloc(size);
    while (next_line(keys, line)) {
        size_t length = name_length(line);
        struct dataset *it = dataset(store, line, length, 1);
        struct record *record = &it->records[it->count];
        next_message(stream, message, size);
        *record = (struct record){.batch = it->batches + 1, .at = it->count * size, .size = size};
        if (strlen(line + length + 1) >= sizeof record->key) die(line);
        strcpy(record->key, line + length + 1);
        if (!it->count) it->fields = begun(it);
        put(it->fields, message, size, record->at);
        if (++it->count == BATCH) listed(it);
    }
    for (struct dataset *it = datasets; it; it = it->next)
        if (it->count) listed(it);
    return 0;
}

static int retrieve(const char *store, FILE *keys) {
    char line[LINE], *message = NULL;
    while (next_line(keys, line)) {
        size_t length = name_length(line);
        struct dataset *it = dataset(store, line, length, 0);
        struct record *record = bsearch(line + length + 1, it->records, it->count, sizeof *record, of_key);
        if (!record) die(line);
        message = realloc(message, record->size);
        got(it->files[record->batch], message, record->size, record->at);
        written(message, record->size);
    }
    return 0;
}

static int is_dataset(const struct dirent *entry) { return entry->d_name[0] != '.'; }

static int list(const char *store) {
    struct dirent **entries;
    int count = scandir(store, &entries, is_dataset, alphasort);
    if (count < 0) die(store);
    for (int i = 0; i < count; i++) {
        struct dataset *it = dataset(store, entries[i]->d_name, strlen(entries[i]->d_name), 0);
        for (long j = 0; j < it->count; j++) printf("%s,%s %ld\n", it->name, it->records[j].key, it->records[j].size);
    }
    return 0;
}
C
cat > "$work/lmdb.c" <<'C'
#include "common.h"
#include <lmdb.h>

static MDB_env *environment;
static MDB_dbi fields;

static void checked(int fault) {
    if (fault) {
        fprintf(stderr, "lmdb: %s\n", mdb_strerror(fault));
        exit(1);
    }
}

/* Makes the names in a folder firm, which the library leaves to the system. */
static void firm_names(const char *folder) {
    int file = open(folder, O_RDONLY | O_DIRECTORY | O_CLOEXEC);
    if (file < 0 || fsync(file)) die(folder);
    close(file);
}

static MDB_txn *begun(unsigned flags) {
    MDB_txn *change;
    checked(mdb_txn_begin(environment, NULL, flags, &change));
    return change;
}

static MDB_txn *started(const char *store, size_t room, unsigned flags) {
    checked(mdb_env_create(&environment));
    checked(mdb_env_set_mapsize(environment, room));
    checked(mdb_env_open(environment, store, flags, 0666));
    MDB_txn *change = begun(flags);
    checked(mdb_dbi_open(change, NULL, 0, &fields));
    return change;
}

static int archive(const char *store, FILE *keys, FILE *stream, size_t size) {
    char line[LINE], *message = malloc(size);
    struct stat whole;
    if (fstat(fileno(stream), &whole)) die("stream");
    MDB_txn *change = started(store, 2 * whole.st_size + (1 << 28), 0);
    size_t length, put = 0;
    while ((length = next_line(keys, line))) {
        if (put && put % BATCH == 0) {
            checked(mdb_txn_commit(change));
            if (put == BATCH) firm_names(store);
            change = begun(0);
        }
        next_message(stream, message, size);
        MDB_val key = {length, line}, value = {size, message};
        checked(mdb_put(change, fields, &key, &value, 0));
        put++;
    }
    checked(mdb_txn_commit(change));
    if (put <= BATCH) firm_names(store);
    mdb_env_close(environment);
    return 0;
}

static int retrieve(const char *store, FILE *keys) {
    char line[LINE];
    MDB_txn *look = started(store, 0, MDB_RDONLY);
    size_t length;
    while ((length = next_line(keys, line))) {
        MDB_val key = {length, line}, value;
        checked(mdb_get(look, fields, &key, &value));
        written(value.mv_data, value.mv_size);
    }
    mdb_txn_abort(look);
    mdb_env_close(environment);
    return 0;
}

static int list(const char *store) {
    MDB_txn *look = started(store, 0, MDB_RDONLY);
    MDB_cursor *place;
    MDB_val key, value;
    checked(mdb_cursor_open(look, fields, &place));
    int fault;
    while (!(fault = mdb_cursor_get(place, &key, &value, MDB_NEXT)))
        printf("%.*s %zu\n", (int)key.mv_size, (char *)key.mv_data, value.mv_size);
    if (fault != MDB_NOTFOUND) checked(fault);
    mdb_cursor_close(place);
    mdb_txn_abort(look);
    mdb_env_close(environment);
    return 0;
}
C
cat > "$work/sqlite.c" <<'C'
#include "common.h"
#include <sqlite3.h>

static sqlite3 *database;

static void checked(int fault) {
    if (fault != SQLITE_OK && fault != SQLITE_DONE && fault != SQLITE_ROW) {
        fprintf(stderr, "sqlite: %s\n", database ? sqlite3_errmsg(database) : sqlite3_errstr(fault));
        exit(1);
    }
}

static void run(const char *text) { checked(sqlite3_exec(database, text, NULL, NULL, NULL)); }

static sqlite3_stmt *prepared(const char *text) {
    sqlite3_stmt *statement;
    checked(sqlite3_prepare_v2(database, text, -1, &statement, NULL));
    return statement;
}

static void started(const char *store, int flags) {
    char path[LINE];
    snprintf(path, sizeof path, "%s/fields", store);
    checked(sqlite3_open_v2(path, &database, flags, NULL));
}

static int archive(const char *store, FILE *keys, FILE *stream, size_t size) {
    char line[LINE], *message = malloc(size);
    started(store, SQLITE_OPEN_READWRITE | SQLITE_OPEN_CREATE);
    run("PRAGMA journal_mode = TRUNCATE; PRAGMA synchronous = FULL;");
    run("BEGIN; CREATE TABLE fields (key TEXT PRIMARY KEY NOT NULL, message BLOB NOT NULL)");
    sqlite3_stmt *put = prepared("INSERT OR REPLACE INTO fields VALUES (?, ?)");
    size_t length, count = 0;
    while ((length = next_line(keys, line))) {
        if (count && count % BATCH == 0) run("COMMIT; BEGIN");
        next_message(stream, message, size);
        checked(sqlite3_bind_text(put, 1, line, length, SQLITE_STATIC));
        checked(sqlite3_bind_blob64(put, 2, message, size, SQLITE_STATIC));
        checked(sqlite3_step(put));
        checked(sqlite3_reset(put));
        count++;
    }
    run("COMMIT");
    checked(sqlite3_finalize(put));
    checked(sqlite3_close(database));
    return 0;
}

static int retrieve(const char *store, FILE *keys) {
    char line[LINE];
    started(store, SQLITE_OPEN_READWRITE);
    run("BEGIN");
    sqlite3_stmt *get = prepared("SELECT message FROM fields WHERE key = ?");
    size_t length;
    while ((length = next_line(keys, line))) {
        checked(sqlite3_bind_text(get, 1, line, length, SQLITE_STATIC));
        int found = sqlite3_step(get);
        checked(found);
        if (found != SQLITE_ROW) die(line);
        const void *message = sqlite3_column_blob(get, 0);
        written(message, sqlite3_column_bytes(get, 0));
        checked(sqlite3_reset(get));
    }
    checked(sqlite3_finalize(get));
    run("COMMIT");
    checked(sqlite3_close(database));
    return 0;
}

static int list(const char *store) {
    started(store, SQLITE_OPEN_READWRITE);
    sqlite3_stmt *next = prepared("SELECT key, length(message) FROM fields ORDER BY key");
    int found;
    while ((found = sqlite3_step(next)) == SQLITE_ROW)
        printf("%s %lld\n", sqlite3_column_text(next, 0), sqlite3_column_int64(next, 1));
    checked(found);
    checked(sqlite3_finalize(next));
    checked(sqlite3_close(database));
    return 0;
}
C
cat > "$work/api.c" <<'C'
/* api archive PROCESSES KEYS STREAM SIZE   each process archives its part of the messages, and flushes each 2,048 and at the end
   api retrieve REQUESTS OUT                a process a line: what this one asks for goes to OUT.0, OUT.1 and so on
   api list REQUESTS OUT                    the same, with a line for each field */
#include <fdb5/api/fdb_c.h>
#include <stdio.h>
#include <stdlib.h>
#include <string.h>
#include <sys/wait.h>
#include <unistd.h>

#define BATCH 2048
#define LINE 65536
#define PIECE (1 << 20)

static char line[LINE];
static fdb_handle_t *fdb;

static void die(const char *what) {
    perror(what);
    exit(1);
}

static void checked(int fault) {
    if (fault) {
        fprintf(stderr, "api: %s\n", fdb_error_string(fault));
        exit(1);
    }
}

static FILE *opened(const char *path, const char *how) {
    FILE *file = fopen(path, how);
    if (!file) die(path);
    return file;
}

static int next_line(FILE *lines) {
    if (!fgets(line, LINE, lines)) return 0;
    line[strcspn(line, "\n")] = 0;
    return 1;
}

static void archive(long process, long processes, const char *keys, const char *stream, size_t size) {
    FILE *lines = opened(keys, "rb"), *messages = opened(stream, "rb");
    char *message = malloc(size), *rest;
    if (fseek(messages, 0, SEEK_END)) die(stream);
    long count = ftell(messages) / size, first = count * process / processes, last = count * (process + 1) / processes;
    if (fseek(messages, first * size, SEEK_SET)) die(stream);
    for (long i = 0; i < last && next_line(lines); i++) {
        if (i < first) continue;
        if (fread(message, 1, size, messages) != size) die(stream);
        fdb_key_t *key;
        checked(fdb_new_key(&key));
        for (char *pair = strtok_r(line, ",", &rest); pair; pair = strtok_r(NULL, ",", &rest)) {
            char *value = strchr(pair, '=');
            *value++ = 0;
            checked(fdb_key_add(key, pair, value));
        }
        checked(fdb_archive(fdb, key, message, size));
        checked(fdb_delete_key(key));
        if ((i - first) % BATCH == BATCH - 1) checked(fdb_flush(fdb));
    }
    checked(fdb_flush(fdb));
}

/* The request of the line. */
static fdb_request_t *asked(void) {
    fdb_request_t *request;
    char *rest, *inner;
    checked(fdb_new_request(&request));
    for (char *pair = strtok_r(line, ",", &rest); pair; pair = strtok_r(NULL, ",", &rest)) {
        const char *values[1024];
        int count = 0;
        char *name = strtok_r(pair, "=", &inner), *value;
        while (count < 1024 && (value = strtok_r(NULL, "/", &inner))) values[count++] = value;
        checked(fdb_request_add(request, name, values, count));
    }
    return request;
}

static void retrieve(FILE *out) {
    static char piece[PIECE];
    fdb_datareader_t *reader;
    long size, got;
    fdb_request_t *request = asked();
    checked(fdb_new_datareader(&reader));
    checked(fdb_retrieve(fdb, request, reader));
    checked(fdb_datareader_open(reader, &size));
    do {
        checked(fdb_datareader_read(reader, piece, PIECE, &got));
        if (fwrite(piece, 1, got, out) != (size_t)got) die("output");
    } while (got);
    checked(fdb_datareader_close(reader));
    checked(fdb_delete_datareader(reader));
    checked(fdb_delete_request(request));
}

static void list(FILE *out) {
    fdb_listiterator_t *place;
    const char *text;
    bool more;
    fdb_request_t *request = asked();
    checked(fdb_new_listiterator(&place));
    checked(fdb_list(fdb, request, place));
    for (;;) {
        checked(fdb_listiterator_next(place, &more, &text));
        if (!more) break;
        fprintf(out, "%s\n", text);
    }
    checked(fdb_delete_listiterator(place));
    checked(fdb_delete_request(request));
}

static void work(long process, long processes, char **words) {
    checked(fdb_initialise());
    checked(fdb_new_handle(&fdb));
    if (!strcmp(words[1], "archive")) {
        archive(process, processes, words[3], words[4], atol(words[5]));
    } else {
        char path[4096];
        snprintf(path, sizeof path, "%s.%ld", words[3], process);
        FILE *lines = opened(words[2], "rb"), *out = opened(path, "wb");
        for (long i = 0; i <= process; i++)
            if (!next_line(lines)) die(words[2]);
        if (!strcmp(words[1], "list")) list(out);
        else retrieve(out);
        if (fclose(out)) die(path);
    }
    checked(fdb_delete_handle(fdb));
}

int main(int count, char **words) {
    long processes = 0;
    if (count == 6) processes = atol(words[2]);
    if (count == 4) {
        FILE *lines = opened(words[2], "rb");
        while (next_line(lines)) processes++;
        fclose(lines);
    }
    for (long process = 0; process < processes; process++) {
        pid_t child = fork();
        if (child < 0) die("fork");
        if (!child) {
            work(process, processes, words);
            exit(0);
        }
    }
    int status, failed = processes == 0;
    while (wait(&status) > 0) failed |= status != 0;
    return failed;
}
C
# A program for each library that is here.
has() { echo "#include <$1>" | cc -E - > "$work/log" 2>&1; }
make() { cc -O2 -o "$work/$1" "$work/$1.c" ${2:+"-l$2"}; }
if has stdio.h; then make plain; fi
if has lmdb.h; then make lmdb lmdb; fi
if has sqlite3.h; then make sqlite sqlite3; fi
if has fdb5/api/fdb_c.h; then make api fdb5; fi
python3 - "$fdb" "$work" "$out" "${RUNS:-5}" "${SMALL:-10000}" "${LARGE:-1000}" "$top/bench" <<'PY'
import datetime, os, shutil, statistics, subprocess, sys, time

fdb, work, out, runs, small, large = *sys.argv[1:4], *map(int, sys.argv[4:7])
sys.path.insert(0, sys.argv[7])
from messages import LEVELS, PARAMETERS, message, request

DAY = len(LEVELS) * 10 * len(PARAMETERS)
SCHEMA = b"[class, expver, date, time [centre, type, levtype [param, step, levelist?]]]\n"
GIVEN = ["--with", "class=od,expver=0001"]
SCHEMA5 = ("param: Param;\nstep: Step;\ndate: Date;\ntime: Time;\nlevelist: Double;\n"
           "[ date, time\n  [ levtype\n    [ param, step, levelist ]]]")
# The numbers that ecCodes has for the parameters.
NUMBERS = dict(zip(PARAMETERS, (130, 157, 131, 132, 156)))
store, answer = f"{work}/store", f"{out}/answer"
assert min(small, large) >= DAY, f"SMALL and LARGE are {DAY} at least"


def write(name, lines):
    with open(f"{work}/{name}", "w") as file:
        file.writelines(f"{line}\n" for line in lines)
    return file.name


def day(number):
    return f"{datetime.date(2024, 1, 1) + datetime.timedelta(days=number):%Y%m%d}"


def parts(i):
    """The values that change from message to message: date, parameter, step and level."""
    return day(i // DAY), PARAMETERS[i // 130 % 5], 6 * (i // 13 % 10), LEVELS[i % 13]


def key(i):
    date, (category, number), step, level = parts(i)
    return f"class=od,expver=0001,date={date},time=0000,centre=98,type=1,levtype=100,param=0.{category}.{number},step={step},levelist={level}"


def key5(i):
    date, parameter, step, level = parts(i)
    return f"date={date},time=0000,levtype=pl,param={NUMBERS[parameter]},step={step},levelist={level // 100}"


def listed5(i):
    date, parameter, step, level = parts(i)
    return f"{{date={date},time=0000}}{{levtype=pl}}{{param={NUMBERS[parameter]},step={step},levelist={level // 100}}}"


def request5(dates, parameters):
    values = {"date": dates, "time": ["0000"], "levtype": ["pl"], "param": [NUMBERS[it] for it in parameters],
              "step": range(0, 60, 6), "levelist": [level // 100 for level in LEVELS]}
    return ",".join(f"{name}={'/'.join(map(str, values[name]))}" for name in values)


def shares(whole):
    """What four processes get, each what follows on the one before; none gets nothing."""
    cuts = [len(whole) * i // 4 for i in range(5)]
    return [whole[a:b] for a, b in zip(cuts, cuts[1:]) if a < b]


class Asked:
    """Keys that are asked for, in files: in each form of a request, and key by key; and what is to be answered."""

    def __init__(self, name, ours, theirs, several, keys, messages):
        self.ours = write(f"{name}.request", [ours])
        self.theirs = write(f"{name}.request5", [f"retrieve,{theirs}"])
        self.several = write(f"{name}.requests5", several)
        self.keys = write(f"{name}.asked", keys)
        self.count, self.whole = len(messages), f"{work}/{name}.whole"
        with open(self.whole, "wb") as file:
            file.writelines(messages)


class Load:
    """Messages of one length in a file, with their keys, and the request for those of the whole days among them."""

    def __init__(self, name, count, octets):
        messages = [message(i, octets) for i in range(count)]
        self.name, self.stream = name, f"{work}/{name}"
        self.count, self.size = count, len(messages[0])
        with open(self.stream, "wb") as file:
            file.writelines(messages)
        self.keys = write(f"{name}.keys", map(key, range(count)))
        self.keys5 = write(f"{name}.keys5", map(key5, range(count)))
        wanted = count - count % DAY
        dates = [day(i) for i in range(wanted // DAY)]
        parted = [(some, PARAMETERS) for some in shares(dates)] if len(dates) > 1 else [(dates, some) for some in shares(PARAMETERS)]
        self.asked = Asked(name, request(wanted), request5(dates, PARAMETERS), [request5(*one) for one in parted],
                           map(key, range(wanted)), messages[:wanted])


class Column:
    """What makes a store, and for each work tells its words, its standard input and its standard output."""
    here = lists = True

    def fresh(self):
        os.mkdir(store)


class Ours(Column):
    """`fdb` with so many workers."""

    def __init__(self, workers):
        self.workers, self.lists = ["--workers", workers], workers == "1"

    def fresh(self):
        subprocess.run([fdb, "create", store], input=SCHEMA, check=True, capture_output=True)

    def archive(self, load):
        return [fdb, "archive", store, *GIVEN, *self.workers], load.stream, None

    def retrieve(self, asked):
        return [fdb, "retrieve", store, *self.workers], asked.ours, answer

    def list(self):
        return [fdb, "list", store], everything, answer

    def has_listed(self, lines):
        rows = [line.split(" ") for line in lines]
        return [f"{dataset},{index},{datum} {length}" for dataset, index, datum, length, _ in rows] == listing


class Peer(Column):
    """LMDB, SQLite, or the C program."""

    def __init__(self, name):
        self.program = f"{work}/{name}"
        self.here = os.path.exists(self.program)

    def archive(self, load):
        return [self.program, "archive", store, load.keys, load.stream, str(load.size)], None, None

    def retrieve(self, asked):
        return [self.program, "retrieve", store, asked.keys], None, answer

    def list(self):
        return [self.program, "list", store], None, answer

    def has_listed(self, lines):
        return lines == listing


class Tools(Column):
    """The tools of FDB5."""
    here = all(map(shutil.which, ("fdb-write", "fdb-read", "fdb-list")))

    def archive(self, load):
        return ["fdb-write", load.stream], None, None

    def retrieve(self, asked):
        return ["fdb-read", "--raw", asked.theirs, answer], None, None

    def list(self):
        return ["fdb-list", "--raw", "--minimum-keys=date", f"date={'/'.join(days)}"], None, answer

    def has_listed(self, lines):
        return sorted(line for line in lines if line.startswith("{")) == [f"{line},length={loads[0].size}" for line in listing5]


class Interface(Column):
    """Four processes over FDB5's C interface, each with a quarter of the messages or of the request."""
    here = os.path.exists(f"{work}/api")

    def archive(self, load):
        return [f"{work}/api", "archive", "4", load.keys5, load.stream, str(load.size)], None, None

    def retrieve(self, asked):
        return [f"{work}/api", "retrieve", asked.several, answer], None, None

    def list(self):
        return [f"{work}/api", "list", everything5, answer], None, None

    def has_listed(self, lines):
        return sorted(lines) == listing5


def timed(words, given, to):
    """Seconds from the start of the process to its end. What is still to be written before it has no part in them."""
    for name in os.listdir(out):
        os.remove(f"{out}/{name}")
    os.sync()
    with open(given or os.devnull, "rb") as stdin, open(to or os.devnull, "wb") as stdout, open(f"{work}/told", "wb") as stderr:
        start = time.perf_counter()
        status = subprocess.run(words, stdin=stdin, stdout=stdout, stderr=stderr).returncode
        spent = time.perf_counter() - start
    assert status == 0, (words, status, open(f"{work}/told", errors="replace").read())
    return spent


def answered():
    """All that was written, that of one process behind that of the one before."""
    return b"".join(open(f"{out}/{name}", "rb").read() for name in sorted(os.listdir(out)))


def retrieved(column, asked):
    spent = timed(*column.retrieve(asked))
    assert answered() == open(asked.whole, "rb").read(), (type(column), asked.whole)
    return spent


def measure(name, column, load):
    """A store of its own for each load, filled, read, and removed."""
    column.fresh()
    part = 1 if load is loads[0] else load.size / 1e6
    spent = timed(*column.archive(load))
    found["archive " + load.name, name].append(load.count * part / spent)
    found["retrieve " + load.name, name].append(load.asked.count * part / retrieved(column, load.asked))
    if load is loads[0]:
        if column.lists:
            found["list", name].append(timed(*column.list()) * 1e3)
            assert column.has_listed(answered().decode().splitlines()), type(column)
        found["one", name].append(retrieved(column, one) * 1e3)
    shutil.rmtree(store)


loads = [Load("small", small, 4), Load("large", large, 130_000)]
days = [day(i) for i in range((small - 1) // DAY + 1)]
listing = sorted(f"{key(i)} {loads[0].size}" for i in range(small))
listing5 = sorted(map(listed5, range(small)))
everything = write("everything", ["list"])
everything5 = write("everything5", [f"date={'/'.join(some)}" for some in shares(days)])
middle = small // 2
one = Asked("one", f"retrieve,{key(middle)}", key5(middle), [key5(middle)], [key(middle)], [message(middle)])
rules = write("schema5", [SCHEMA5])
os.environ["FDB5_CONFIG_FILE"] = write("config5.yaml", [
    f"---\ntype: local\nengine: toc\nschema: {rules}\nspaces:\n- handler: Default\n  roots:\n  - path: {store}"])
columns = {"FDB5 tool": Tools(), "FDB5 API (4 processes)": Interface(), "LMDB": Peer("lmdb"), "SQLite": Peer("sqlite"),
           "C, same syncs": Peer("plain"), "`fdb`": Ours("1"), "`fdb`, 2 workers": Ours("2"), "4 workers": Ours("4")}
rows = {
    "archive small": f"archive {small:,} small messages ({loads[0].size} octets) in {len(days)} datasets, messages/s",
    "archive large": f"archive {large:,} large ({loads[1].size / 1e3:.0f} KB), MB/s",
    "retrieve small": f"retrieve {loads[0].asked.count:,} small by a request, messages/s",
    "retrieve large": f"retrieve {loads[1].asked.count:,} large by a request, MB/s",
    "list": f"list {small:,} keys, ms",
    "one": f"one key of {small:,}, ms",
}
found = {(row, name): [] for row in rows for name in columns}
for _ in range(runs):
    for load in loads:
        for name in columns:
            if columns[name].here:
                measure(name, columns[name], load)


def number(it):
    return f"{it:,.0f}" if it >= 100 else f"{it:.1f}"


def table(title, told):
    print(f"| {title} | {' | '.join(columns)} |\n|{'---|' * (len(columns) + 1)}")
    for row in rows:
        cells = [told(found[row, name]) if found[row, name] else "-" for name in columns]
        print(f"| {rows[row]} | {' | '.join(cells)} |")
    print()


table("Work", lambda values: number(statistics.median(values)))
table("Least to most", lambda values: f"{number(min(values))} to {number(max(values))}")
print(f"load {os.getloadavg()[0]:.1f}; {runs} runs")
PY
