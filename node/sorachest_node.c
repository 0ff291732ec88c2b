/* The calls of sorachest_node.h: a session is the form `run`, which waits for its next command. */
#include "inside.h"

/* Bytes that a run reads; behind them another one is begun. */
enum { MOST_INPUT = 1 << 24, LEAST_SECTORS = 4, MOST_SECTORS = 4095 };

int sorachest_version(void) { return SORACHEST_VERSION; }

const char *sorachest_error(int status) {
    switch (status) {
    case SORACHEST_OK: return "done";
    case SORACHEST_ROW: return "there is a row";
    case SORACHEST_REFUSED: return "the command was refused, and the reply says why";
    case SORACHEST_NO_SPACE: return "the flash is full";
    case SORACHEST_FLASH: return "the flash failed: repair it, and open it again";
    case SORACHEST_NOT_SOUND: return "the flash holds no sound database: repair it, if a power cut was the cause";
    case SORACHEST_MISUSE: return "the call is not allowed now, or an argument is wrong";
    case SORACHEST_VALUE: return "no relation can have such a name or value";
    case SORACHEST_STACK: return "the memory was too small, and bytes below it may be overwritten";
    default: return "not a status of sorachest_node.h";
    }
}

static int of_program(int status) {
    switch (status) {
    case 0: return SORACHEST_OK;
    case 3: return SORACHEST_NO_SPACE;
    case 4: return SORACHEST_FLASH;
    case 6: return SORACHEST_NOT_SOUND;
    default: return SORACHEST_MISUSE; /* the others are about arguments, lengths and an output, and do not occur */
    }
}

/* ---- From open to close */

static int is_well(const struct sorachest_config *config) {
    if (!config || !config->read || !config->program || !config->erase || !config->wait != !config->wake) return 0;
    if (config->sectors < LEAST_SECTORS || config->sectors > MOST_SECTORS) return 0;
    return config->memory && (uintptr_t)config->memory % 8 == 0 &&
           config->memory_size >= (config->wait ? SORACHEST_THREAD_MEMORY : SORACHEST_MEMORY);
}

static int begin(struct sorachest *db, const struct sorachest_config *config, const char *form) {
    if (!db) return SORACHEST_MISUSE;
    memset(db, 0, sizeof *db);
    if (!is_well(config)) return SORACHEST_MISUSE;
    db->config = config;
    db->form = form;
    sorachest_prepare_memory(config);
    sorachest_begin_program(db);
    return SORACHEST_OK;
}

static int end(struct sorachest *db, int status) {
    db->state = IS_CLOSED;
    db->has_row = 0;
    return status;
}

/* Lets a run that has begun judge the flash. */
static int come_to_input(struct sorachest *db) {
    db->state = IS_BUSY;
    int event;
    do event = sorachest_go_on(db);
    while (event == HAS_LINE);
    if (event == WANTS_INPUT) {
        db->state = IS_IDLE;
        return SORACHEST_OK;
    }
    return end(db, event < 0 ? event : of_program(db->status));
}

int sorachest_open(struct sorachest *db, const struct sorachest_config *config) {
    int begun = begin(db, config, "run");
    return begun ? begun : come_to_input(db);
}

/* Ends the input, and with it the run. */
static int end_run(struct sorachest *db) {
    db->state = IS_BUSY;
    db->input_ends = 1;
    int event;
    do event = sorachest_go_on(db);
    while (event == HAS_LINE);
    db->input_ends = 0;
    return event < 0 ? event : of_program(db->status);
}

int sorachest_close(struct sorachest *db) {
    if (!db || db->state == IS_BUSY) return SORACHEST_MISUSE;
    int status = SORACHEST_OK;
    if (db->state == IS_ANSWERING) {
        db->script = ""; /* what has not begun is not carried out */
        status = sorachest_finish(db);
    }
    int ended = db->state == IS_IDLE && db->is_running ? end_run(db) : SORACHEST_OK;
    db->config = NULL;
    return end(db, status < SORACHEST_NO_SPACE ? status : ended);
}

static int whole(struct sorachest *db, const struct sorachest_config *config, const char *form, sorachest_row *row, void *context) {
    int begun = begin(db, config, form);
    if (begun) return begun;
    db->state = IS_BUSY;
    for (int event; (event = sorachest_go_on(db)) != HAS_ENDED;) {
        if (event < 0) return end(db, event);
        if (event == WANTS_INPUT) db->input_ends = 1;
        else if (row && row(context, db)) row = NULL;
    }
    return end(db, of_program(db->status));
}

int sorachest_check(struct sorachest *db, const struct sorachest_config *config, sorachest_row *row, void *context) {
    return whole(db, config, "check", row, context);
}

int sorachest_repair(struct sorachest *db, const struct sorachest_config *config, sorachest_row *row, void *context) {
    return whole(db, config, "repair", row, context);
}

int sorachest_collect(struct sorachest *db, const struct sorachest_config *config, sorachest_row *row, void *context) {
    return whole(db, config, "collect", row, context);
}

int sorachest_dump(struct sorachest *db, const struct sorachest_config *config, sorachest_row *row, void *context) {
    return whole(db, config, "dump", row, context);
}

int sorachest_look(struct sorachest *db, const struct sorachest_config *config, sorachest_row *row, void *context) {
    return whole(db, config, "look", row, context);
}

/* ---- Commands */

const char *sorachest_reply(const struct sorachest *db) { return db->line; }

int sorachest_query(struct sorachest *db, const char *command) {
    if (!db || !command || db->state != IS_IDLE) return SORACHEST_MISUSE;
    db->script = command;
    db->line[0] = 0;
    db->has_row = db->is_refused = db->is_under_way = 0;
    db->state = IS_ANSWERING;
    return SORACHEST_OK;
}

/* A command of a script, and what is put behind it. */
struct command {
    const char *text, *behind, *rest;
    size_t length;
};

/* Cuts the first command off as the program does: at a `;` outside of quotes. A quote ends at the next one, or with its line,
 * so one that is left open can take nothing of the next command with it. */
static struct command first_command(const char *script) {
    const char *at = script;
    int is_in_quotes = 0;
    for (; *at && (is_in_quotes || *at != ';'); at++) {
        if (*at == '\'') is_in_quotes = !is_in_quotes;
        else if (*at == '\n') is_in_quotes = 0;
    }
    struct command first = {script, is_in_quotes ? "\n;" : ";", *at ? at + 1 : at, (size_t)(at - script)};
    return first;
}

/* Sees to it that a run waits for a command: the last one ended with `no space`, or has read as much as a run does. */
static int make_ready(struct sorachest *db, size_t length) {
    enum { BEHIND = 2 };
    if (length > MOST_INPUT - BEHIND) {
        db->state = IS_IDLE;
        return SORACHEST_MISUSE;
    }
    if (db->is_running && db->taken + length + BEHIND <= MOST_INPUT) return SORACHEST_OK;
    int status = db->is_running ? end_run(db) : SORACHEST_OK;
    if (status) return end(db, status);
    sorachest_begin_program(db);
    return come_to_input(db);
}

static void hand_over(struct sorachest *db, const struct command *command) {
    db->command = command->text;
    db->input = command->text;
    db->input_left = command->length;
    db->behind = command->behind;
    db->script = command->rest;
    db->is_under_way = 1;
}

/* What the program has come to in the command that is under way, as step answers it; or that the next command follows. */
enum { NEXT_COMMAND = 2 };

static int judge(struct sorachest *db, int event) {
    if (event < 0) return end(db, event);
    db->state = IS_IDLE;
    if (event == HAS_ENDED) {
        int status = of_program(db->status);
        return status == SORACHEST_NO_SPACE ? status : end(db, status);
    }
    if (event == WANTS_INPUT && db->is_refused) return SORACHEST_REFUSED;
    db->state = IS_ANSWERING;
    if (event == WANTS_INPUT) {
        db->is_under_way = 0;
        return NEXT_COMMAND;
    }
    if (begins_with(db->line, "no ")) db->is_refused = 1;
    db->has_row = !db->is_refused && !begins_with(db->line, "ok") && !begins_with(db->line, "rows ");
    return db->has_row ? SORACHEST_ROW : NEXT_COMMAND;
}

static int begin_next_command(struct sorachest *db) {
    struct command next = first_command(db->script);
    int status = make_ready(db, next.length);
    if (status == SORACHEST_OK) hand_over(db, &next);
    return status;
}

int sorachest_step(struct sorachest *db) {
    if (!db || db->state != IS_ANSWERING) return SORACHEST_MISUSE;
    db->has_row = 0;
    for (int status = NEXT_COMMAND; status == NEXT_COMMAND;) {
        if (!db->is_under_way && !*db->script) break;
        if (!db->is_under_way && (status = begin_next_command(db))) return status;
        db->state = IS_BUSY;
        status = judge(db, sorachest_go_on(db));
        if (status != NEXT_COMMAND) return status;
    }
    db->state = IS_IDLE;
    return SORACHEST_OK;
}

int sorachest_finish(struct sorachest *db) {
    if (!db || db->state == IS_BUSY || db->state == IS_CLOSED) return SORACHEST_MISUSE;
    int status = SORACHEST_OK;
    while (db->state == IS_ANSWERING) status = sorachest_step(db);
    return status;
}

int sorachest_exec(struct sorachest *db, const char *command, sorachest_row *row, void *context) {
    int status = sorachest_query(db, command);
    if (status) return status;
    while ((status = sorachest_step(db)) == SORACHEST_ROW) {
        db->state = IS_BUSY; /* the callback may not go on by itself */
        if (row && row(context, db)) row = NULL;
        db->state = IS_ANSWERING;
    }
    return status;
}
