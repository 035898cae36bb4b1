/* sqlite LOAD DATABASE EVENTS COUNT MODE PAGES: what SQLite takes for the first new orders and payments of a file of events, one
   transaction a command, by statements that are prepared once. MODE is FULL or NORMAL, as in PRAGMA synchronous; the journal is a
   log written ahead (WAL), which is brought into the database each time that it has so many PAGES, and the cache has room for all
   pages. The database is made from the files of the folder LOAD. The answers are printed as `hyper script` prints them; on
   standard error are the seconds that the commands took, without the load. Where EVENTS is `-` they are read from standard input,
   `ready` is printed first, and each answer as soon as it is known. */
#include <sqlite3.h>
#include <stdint.h>
#include <stdio.h>
#include <stdlib.h>
#include <string.h>
#include <time.h>

static const char *const TABLES =
    "create table warehouse (w_id integer primary key, w_name text, w_tax integer, w_ytd integer);"
    "create table district (d_id integer, d_w_id integer, d_name text, d_tax integer, d_ytd integer, d_next_o_id integer,"
    " primary key (d_w_id, d_id)) without rowid;"
    "create table customer (c_id integer, c_d_id integer, c_w_id integer, c_first text, c_middle text, c_last text,"
    " c_credit text, c_discount integer, c_balance integer, c_ytd_payment integer, c_payment_cnt integer,"
    " c_delivery_cnt integer, c_data text, primary key (c_w_id, c_d_id, c_id)) without rowid;"
    "create table item (i_id integer primary key, i_im_id integer, i_name text, i_price integer);"
    "create table stock (s_i_id integer, s_w_id integer, s_quantity integer, s_ytd integer, s_order_cnt integer,"
    " s_remote_cnt integer, primary key (s_w_id, s_i_id)) without rowid;"
    "create table orders (o_id integer, o_d_id integer, o_w_id integer, o_c_id integer, o_entry_d integer,"
    " o_carrier_id integer, o_ol_cnt integer, o_all_local integer, primary key (o_w_id, o_d_id, o_id)) without rowid;"
    "create table neworder (no_o_id integer, no_d_id integer, no_w_id integer,"
    " primary key (no_w_id, no_d_id, no_o_id)) without rowid;"
    "create table orderline (ol_o_id integer, ol_d_id integer, ol_w_id integer, ol_number integer, ol_i_id integer,"
    " ol_supply_w_id integer, ol_delivery_d integer, ol_quantity integer, ol_amount integer,"
    " primary key (ol_w_id, ol_d_id, ol_o_id, ol_number)) without rowid;"
    "create table history (h_c_id integer, h_c_d_id integer, h_c_w_id integer, h_d_id integer, h_w_id integer,"
    " h_date integer, h_amount integer, h_data text);";

static const char *const FILES[] = {"warehouse", "district", "customer", "item", "stock", "orders", "neworder", "orderline", "history"};

/* The statements of the commands. */
enum {
  BEGIN, COMMIT, WAREHOUSE, NEXT_ORDER, DISCOUNT, ADD_ORDER, ADD_NEW_ORDER, PRICE, SUPPLY, ADD_LINE,
  PAID_WAREHOUSE, PAID_DISTRICT, PAID_CUSTOMER, ADD_HISTORY, STATEMENTS
};

static const char *const TEXTS[STATEMENTS] = {
    [BEGIN] = "begin immediate",
    [COMMIT] = "commit",
    [WAREHOUSE] = "select w_tax from warehouse where w_id = ?1",
    [NEXT_ORDER] = "update district set d_next_o_id = d_next_o_id + 1 where d_w_id = ?1 and d_id = ?2 returning d_next_o_id - 1, d_tax",
    [DISCOUNT] = "select c_discount from customer where c_w_id = ?1 and c_d_id = ?2 and c_id = ?3",
    [ADD_ORDER] = "insert into orders values (?1, ?2, ?3, ?4, ?5, 0, ?6, ?7)",
    [ADD_NEW_ORDER] = "insert into neworder values (?1, ?2, ?3)",
    [PRICE] = "select i_price from item where i_id = ?1",
    [SUPPLY] = "update stock set s_quantity = s_quantity - ?3 + case when s_quantity - ?3 >= 10 then 0 else 91 end,"
               " s_ytd = s_ytd + ?3, s_order_cnt = s_order_cnt + 1, s_remote_cnt = s_remote_cnt + ?4 where s_w_id = ?1 and s_i_id = ?2",
    [ADD_LINE] = "insert into orderline values (?1, ?2, ?3, ?4, ?5, ?6, 0, ?7, ?8)",
    [PAID_WAREHOUSE] = "update warehouse set w_ytd = w_ytd + ?2 where w_id = ?1 returning w_name",
    [PAID_DISTRICT] = "update district set d_ytd = d_ytd + ?3 where d_w_id = ?1 and d_id = ?2 returning d_name",
    [PAID_CUSTOMER] = "update customer set c_balance = c_balance - ?4, c_ytd_payment = c_ytd_payment + ?4,"
                      " c_payment_cnt = c_payment_cnt + 1, c_data = case when c_credit = 'BC' then substr(?5 || c_data, 1, 500)"
                      " else c_data end where c_w_id = ?1 and c_d_id = ?2 and c_id = ?3 returning c_balance",
    [ADD_HISTORY] = "insert into history values (?1, ?2, ?3, ?4, ?5, ?6, ?7, ?8 || '    ' || ?9)",
};

static sqlite3 *database;
static sqlite3_stmt *statements[STATEMENTS];

static void fail(const char *what) {
  fprintf(stderr, "sqlite: %s: %s\n", what, database ? sqlite3_errmsg(database) : "no database");
  exit(1);
}

static void run(const char *text) {
  if (sqlite3_exec(database, text, NULL, NULL, NULL) != SQLITE_OK) fail(text);
}

/* Gives a statement so many numbers, and does its first step; whether there is a row. */
static int step(int which, int count, const int64_t *values) {
  sqlite3_stmt *it = statements[which];
  for (int place = 0; place < count; place++) sqlite3_bind_int64(it, place + 1, values[place]);
  int found = sqlite3_step(it);
  if (found != SQLITE_ROW && found != SQLITE_DONE) fail(TEXTS[which]);
  return found == SQLITE_ROW;
}

static void done(int which) {
  sqlite3_reset(statements[which]);
}

/* Does a statement that has no row. */
static void act(int which, int count, const int64_t *values) {
  if (step(which, count, values)) fail("a row where none should be");
  done(which);
}

/* Does a statement that has one row; the number in a column of it. */
static int64_t ask(int which, int count, const int64_t *values) {
  if (!step(which, count, values)) fail("no row");
  int64_t found = sqlite3_column_int64(statements[which], 0);
  done(which);
  return found;
}

#define VALUES(...) (int)(sizeof((int64_t[]){__VA_ARGS__}) / sizeof(int64_t)), (int64_t[]){__VA_ARGS__}

static void load(const char *folder) {
  char line[4096], path[4096];
  run(TABLES);
  run("begin");
  for (size_t table = 0; table < sizeof FILES / sizeof *FILES; table++) {
    snprintf(path, sizeof path, "%s/%s.csv", folder, FILES[table]);
    FILE *file = fopen(path, "r");
    if (!file || !fgets(line, sizeof line, file)) fail(path);
    int columns = 1;
    for (char *it = line; *it; it++) columns += *it == ',';
    char text[256];
    int length = snprintf(text, sizeof text, "insert into %s values (?", FILES[table]);
    for (int it = 1; it < columns; it++) length += snprintf(text + length, sizeof text - (size_t)length, ",?");
    snprintf(text + length, sizeof text - (size_t)length, ")");
    sqlite3_stmt *insert;
    if (sqlite3_prepare_v2(database, text, -1, &insert, NULL) != SQLITE_OK) fail(text);
    while (fgets(line, sizeof line, file)) {
      char *rest = line;
      line[strcspn(line, "\n")] = 0;
      for (int column = 1; column <= columns; column++) {
        char *field = strsep(&rest, ",");
        sqlite3_bind_text(insert, column, field ? field : "", -1, SQLITE_TRANSIENT);
      }
      if (sqlite3_step(insert) != SQLITE_DONE) fail(text);
      sqlite3_reset(insert);
    }
    sqlite3_finalize(insert);
    fclose(file);
  }
  run("commit");
}

static int64_t number(char **rest, const char *ends) {
  char *word = strsep(rest, ends);
  return word ? atoll(word) : 0;
}

static void new_order(char *rest) {
  int64_t home = number(&rest, " "), district = number(&rest, " "), customer = number(&rest, " "), at = number(&rest, " ");
  int64_t items[15], suppliers[15], many[15], lines = 0, is_local = 1, sum = 0;
  for (; rest && *rest && lines < 15; lines++) {
    items[lines] = number(&rest, ":");
    suppliers[lines] = number(&rest, ":");
    many[lines] = number(&rest, " ");
    is_local &= suppliers[lines] == home;
  }
  act(BEGIN, 0, NULL);
  int64_t home_tax = ask(WAREHOUSE, VALUES(home));
  if (!step(NEXT_ORDER, VALUES(home, district))) fail("no district");
  int64_t order = sqlite3_column_int64(statements[NEXT_ORDER], 0), tax = home_tax + sqlite3_column_int64(statements[NEXT_ORDER], 1);
  done(NEXT_ORDER);
  int64_t discount = ask(DISCOUNT, VALUES(home, district, customer));
  act(ADD_ORDER, VALUES(order, district, home, customer, at, lines, is_local));
  act(ADD_NEW_ORDER, VALUES(order, district, home));
  for (int64_t it = 0; it < lines; it++) {
    int64_t amount = many[it] * ask(PRICE, VALUES(items[it]));
    act(SUPPLY, VALUES(suppliers[it], items[it], many[it], suppliers[it] != home));
    act(ADD_LINE, VALUES(order, district, home, it + 1, items[it], suppliers[it], many[it], amount));
    sum += amount;
  }
  act(COMMIT, 0, NULL);
  printf("order %lld total %lld\n", (long long)order, (long long)((sum * (10000 - discount) * (10000 + tax) + 50000000) / 100000000));
}

static void payment(char *rest) {
  int64_t home = number(&rest, " "), district = number(&rest, " "), payer = number(&rest, " "), payer_district = number(&rest, " ");
  int64_t customer = number(&rest, " "), amount = number(&rest, " "), at = number(&rest, " ");
  char note[160];
  snprintf(note, sizeof note, "%lld %lld %lld %lld %lld %lld;", (long long)customer, (long long)payer_district, (long long)payer,
           (long long)district, (long long)home, (long long)amount);
  act(BEGIN, 0, NULL);
  if (!step(PAID_WAREHOUSE, VALUES(home, amount))) fail("no warehouse");
  sqlite3_bind_text(statements[ADD_HISTORY], 8, (const char *)sqlite3_column_text(statements[PAID_WAREHOUSE], 0), -1, SQLITE_TRANSIENT);
  done(PAID_WAREHOUSE);
  if (!step(PAID_DISTRICT, VALUES(home, district, amount))) fail("no district");
  sqlite3_bind_text(statements[ADD_HISTORY], 9, (const char *)sqlite3_column_text(statements[PAID_DISTRICT], 0), -1, SQLITE_TRANSIENT);
  done(PAID_DISTRICT);
  sqlite3_bind_text(statements[PAID_CUSTOMER], 5, note, -1, SQLITE_TRANSIENT);
  int64_t balance = ask(PAID_CUSTOMER, VALUES(payer, payer_district, customer, amount));
  act(ADD_HISTORY, VALUES(customer, payer_district, payer, district, home, at, amount));
  act(COMMIT, 0, NULL);
  printf("paid customer %lld balance %lld\n", (long long)customer, (long long)balance);
}

int main(int words, char **word) {
  if (words != 7) {
    fprintf(stderr, "sqlite LOAD DATABASE EVENTS COUNT FULL|NORMAL PAGES\n");
    return 2;
  }
  if (sqlite3_open(word[2], &database) != SQLITE_OK) fail(word[2]);
  run("pragma journal_mode = wal; pragma synchronous = off; pragma cache_size = -1000000;");
  load(word[1]);
  run("pragma wal_checkpoint(truncate)");
  run(strcmp(word[5], "FULL") == 0 ? "pragma synchronous = full" : "pragma synchronous = normal");
  sqlite3_wal_autocheckpoint(database, atoi(word[6]));
  for (int it = 0; it < STATEMENTS; it++)
    if (sqlite3_prepare_v3(database, TEXTS[it], -1, SQLITE_PREPARE_PERSISTENT, &statements[it], NULL) != SQLITE_OK) fail(TEXTS[it]);
  int is_asked = strcmp(word[3], "-") == 0;
  FILE *events = is_asked ? stdin : fopen(word[3], "r");
  if (!events) fail(word[3]);
  if (is_asked) {
    setvbuf(stdout, NULL, _IOLBF, 1 << 16);
    printf("ready\n");
  }
  char line[4096];
  long count = atol(word[4]);
  struct timespec begin, end;
  clock_gettime(CLOCK_MONOTONIC, &begin);
  while (count > 0 && fgets(line, sizeof line, events)) {
    line[strcspn(line, "\n")] = 0;
    if (strncmp(line, "neworder ", 9) == 0) new_order(line + 9);
    else if (strncmp(line, "payment ", 8) == 0) payment(line + 8);
    else continue;
    count--;
  }
  clock_gettime(CLOCK_MONOTONIC, &end);
  fprintf(stderr, "%.6f\n", (double)(end.tv_sec - begin.tv_sec) + (double)(end.tv_nsec - begin.tv_nsec) / 1e9);
  for (int it = 0; it < STATEMENTS; it++) sqlite3_finalize(statements[it]);
  sqlite3_close(database);
  return 0;
}
