// The program over simulated chips that misbehave: node.c over chip.c, or over nor.c where SERIAL is set. Under sanitizers.
//
//     chips CASES
//
// Each case fills a chip, has it misbehave from a random moment on while rows are inserted and relations packed, repairs it with
// the chip well again, and counts the rows. A line for each kind says what came of it; the status is 1 where the program was
// ended, where a status is none of its own, or where rows that were acknowledged are not there though the kind must keep them.
#include <stdio.h>
#include <stdlib.h>
#include <string.h>
#include <sys/mman.h>
#include <sys/wait.h>
#include <unistd.h>

#include "../../port/chip.h"
#include "../../port/nor.h"
#include "bus.h"

enum { SECTORS = 8, SECTOR = 4096, SIZE = SECTORS * SECTOR, ROWS = 60 };

enum kind { WELL, PROTECTED, NEVER_READY, STRANGE_STATUS, STUCK_AT_0, STUCK_AT_1, NOISE, NO_ERASE, NO_PROGRAM, HALF, DENIED, HALF_DEAD, GONE, KINDS };

// Whether each row that was acknowledged has to be there when the chip is well again. What a chip gives wrongly when it is read
// cannot be told from what it holds, so of such chips only is wanted that the program ends.
static const struct {
    const char *name;
    int keeps;
} kinds[KINDS] = {
    {"well", 1},
    {"protected", 1},
    {"never ready", 1},
    {"a strange status", 1},
    {"bits stuck at 0", 0},
    {"bits stuck at 1", 0},
    {"noise in what is read", 0},
    {"erase says done and did nothing", 1},
    {"program says done and did nothing", 1},
    {"half is done, and says so", 1},
    {"all is done, and says that it failed", 1},
    {"one half of the chip is dead", 1},
    {"gone", 1},
};

// What outlives the process in which the program runs: the cells, and what it wrote.
static struct {
    uint8_t cells[SIZE];
    size_t sent;
    char written[1 << 16];
} *kept;

static enum kind kind;
static uint8_t stuck[SIZE];
static unsigned changes, misbehaves_at;
static uint64_t seed = 7;

static uint32_t next_random(void) {
    seed = seed * 6364136223846793005u + 1442695040888963407u;
    return (uint32_t)(seed >> 33);
}

static int misbehaves(enum kind as) { return kind == as && changes >= misbehaves_at; }

// ---- The cells, for both sorts of chips

static uint8_t cell(uint32_t at) {
    if (at >= SIZE) abort();
    uint8_t byte = kept->cells[at];
    if (misbehaves(GONE)) return 0xff;
    if (kind == STUCK_AT_0) byte &= (uint8_t)~stuck[at];
    if (kind == STUCK_AT_1) byte |= stuck[at];
    if (misbehaves(NOISE) && next_random() % 5000 == 0) byte ^= (uint8_t)(1u << next_random() % 8);
    return byte;
}

static int does_nothing(void) {
    return misbehaves(PROTECTED) || misbehaves(NEVER_READY) || misbehaves(GONE);
}

static void program_cells(uint32_t at, const uint8_t *bytes, uint32_t count) {
    if (at > SIZE || count > SIZE - at) abort();
    changes++;
    if (does_nothing() || misbehaves(NO_PROGRAM)) return;
    if (misbehaves(HALF) || misbehaves(HALF_DEAD)) count /= 2;
    for (uint32_t place = 0; place < count; place++) kept->cells[at + place] &= bytes[place];
}

static void erase_cells(uint32_t at) {
    if (at % SECTOR || at >= SIZE) abort();
    changes++;
    if (does_nothing() || misbehaves(NO_ERASE)) return;
    memset(kept->cells + at, 0xff, misbehaves(HALF) || misbehaves(HALF_DEAD) ? SECTOR / 2 : SECTOR);
}

#ifdef SERIAL

// ---- A serial chip

static int may_write;

static uint8_t status(void) {
    if (misbehaves(STRANGE_STATUS)) return (uint8_t)next_random();
    if (misbehaves(GONE)) return 0xff;
    if (misbehaves(HALF_DEAD) && next_random() % 2) return 0xff;
    return (uint8_t)((misbehaves(NEVER_READY) ? 1 : 0) | (may_write ? 2 : 0));
}

static int exchange(void *context, const uint8_t *head, size_t head_count, const uint8_t *out, uint8_t *in, size_t count) {
    (void)context;
    static const uint8_t numbers[3] = {0xef, 0x40, 15};
    const uint32_t at = head_count == 4 ? (uint32_t)head[1] << 16 | (uint32_t)head[2] << 8 | head[3] : 0;
    switch (head[0]) {
        case 0x03: for (uint32_t place = 0; place < count; place++) in[place] = cell(at + place); break;
        case 0x05: in[0] = status(); break;
        case 0x06: may_write = !misbehaves(PROTECTED); break;
        case 0x9f: memcpy(in, numbers, sizeof numbers); break;
        case 0x5a: memset(in, 0xff, count); break;
        case 0x02: if (may_write) program_cells(at, out, (uint32_t)count); may_write = 0; break;
        case 0x20: if (may_write) erase_cells(at); may_write = 0; break;
        default: abort();
    }
    return !((misbehaves(HALF) || misbehaves(DENIED)) && (head[0] == 0x02 || head[0] == 0x20));
}

static struct nor chip = {.exchange = exchange, .most_polls = 1000};

static void begin_chip(void) {
    if (!nor_begin(&chip)) _exit(4);
}
int board_read(uint32_t sector, uint32_t at, uint8_t *into, size_t count) { return nor_read(&chip, sector * SECTOR + at, into, count); }
int board_program(uint32_t sector, uint32_t at, const uint8_t *bytes, size_t count) {
    return nor_program(&chip, sector * SECTOR + at, bytes, count);
}
int board_erase(uint32_t sector) { return nor_erase(&chip, sector * SECTOR); }

#else

// ---- Two chips side by side, on a bus of 32 bits

static enum { ARRAY, STATUS, OF_PROGRAM, OF_ERASE } state;
static uint32_t status;

static void begin_chip(void) { state = ARRAY; }

uint8_t bus_get_byte(uintptr_t at) { return state == ARRAY ? cell((uint32_t)at) : (uint8_t)(status >> 8 * (at & 3)); }

uint32_t bus_get(uintptr_t at) {
    if (at & 3) abort();
    if (misbehaves(STRANGE_STATUS) && state != ARRAY) return next_random() << 1 ^ next_random();
    if (state != ARRAY) return status;
    uint32_t word = 0;
    for (uint32_t place = 4; place--;) word = word << 8 | cell((uint32_t)at + place);
    return word;
}

static void changed(uint32_t failed) {
    state = STATUS;
    status = misbehaves(NEVER_READY) ? 0 : misbehaves(PROTECTED) ? 0x00820082 : 0x00800080;
    if (misbehaves(HALF) || misbehaves(DENIED)) status |= failed;
    if (misbehaves(HALF_DEAD)) status &= 0xffff;
    if (misbehaves(GONE)) status = 0xffffffff;
}

void bus_put(uintptr_t at, uint32_t word) {
    const uint8_t bytes[4] = {(uint8_t)word, (uint8_t)(word >> 8), (uint8_t)(word >> 16), (uint8_t)(word >> 24)};
    if (at & 3) abort();
    if (state == OF_PROGRAM) {
        program_cells((uint32_t)at, bytes, 4);
        changed(0x00100010);
    } else if (state == OF_ERASE && word == 0x00d000d0) {
        erase_cells((uint32_t)at);
        changed(0x00200020);
    } else {
        if (word == 0x00500050) status &= ~0x007f007fu;
        state = word == 0x00ff00ff ? ARRAY : word == 0x00400040 ? OF_PROGRAM : word == 0x00200020 ? OF_ERASE : STATUS;
    }
}

int board_read(uint32_t sector, uint32_t at, uint8_t *into, size_t count) {
    chip_read((uintptr_t)sector * SECTOR + at, into, count);
    return 1;
}
int board_program(uint32_t sector, uint32_t at, const uint8_t *bytes, size_t count) {
    return chip_program((uintptr_t)sector * SECTOR + at, bytes, count);
}
int board_erase(uint32_t sector) { return chip_erase((uintptr_t)sector * SECTOR); }

#endif

// ---- The board

static const char *words[4];
static const char *input;

const char *board_word(size_t place) { return words[place]; }
int board_take(void) { return *input ? *input++ : 4; }
void board_put(uint8_t byte) {
    if (kept->sent + 1 < sizeof kept->written) kept->written[kept->sent++] = (char)byte;
}
uint32_t board_sectors(void) { return SECTORS; }

// The program, by the name that it has here.
int node_main(void);

// Runs a form in a process of its own: its status, or 1000 and more where it was ended.
static int run(const char *form, const char *script, enum kind as) {
    int status_of_all;
    kept->sent = 0;
    fflush(stdout);
    pid_t process = fork();
    if (process == 0) {
        alarm(20);
        words[0] = form, words[1] = "chip", words[2] = strcmp(form, "run") == 0 ? "-" : NULL;
        input = script, kind = as, changes = 0;
        begin_chip();
        _exit(node_main());
    }
    waitpid(process, &status_of_all, 0);
    kept->written[kept->sent] = 0;
    return WIFEXITED(status_of_all) ? WEXITSTATUS(status_of_all) : 1000 + WTERMSIG(status_of_all);
}

static const char made[] = "CREATE RELATION r; CREATE ATTRIBUTE a DOMAIN INT IN r; CREATE ATTRIBUTE t DOMAIN STRING(9) IN r;"
                           "CREATE INDEX r.a TYPE MAXHEAP; INSERT (1, 'x') INTO r;";

// Rows that are inserted one by one, and each 20 of them a relation that is made anew.
static const char *load(void) {
    static char script[8000];
    size_t at = 0;
    for (int row = 0; row < ROWS; row++) {
        const char *further = row % 20 == 19 ? "REMOVE FROM r WHERE a = 999; PACK r;" : "";
        at += (size_t)snprintf(script + at, sizeof script - at, "INSERT (%d, 'y%d') INTO r;%s", row + 2, row, further);
    }
    return script;
}

// How many of the load's rows the replies acknowledge. Behind each 20th stand two further replies.
static int acknowledged(void) {
    int rows = 0, further = 0;
    for (const char *line = strtok(kept->written, "\n"); line; line = strtok(NULL, "\n")) {
        if (strcmp(line, further == 2 ? "rows 0" : "ok") != 0) break;
        if (further)
            further--;
        else if (++rows % 20 == 0)
            further = 2;
    }
    return rows;
}

struct tally {
    int kept, lost, refused, ended;
};

static void try_case(enum kind as, struct tally *tally) {
    memset(kept->cells, 0xff, SIZE);
    memset(stuck, 0, SIZE);
    misbehaves_at = ~0u;
    if (run("run", made, WELL) != 0) abort();
    if (as == STUCK_AT_0 || as == STUCK_AT_1)
        for (uint32_t many = 1 + next_random() % 40; many; many--) stuck[next_random() % SIZE] = (uint8_t)(1u << next_random() % 8);
    misbehaves_at = as == NO_ERASE ? 0 : next_random() % 400;
    const int status_of_load = run("run", load(), as);
    const int rows = 1 + acknowledged();
    const enum kind then = as == STUCK_AT_0 || as == STUCK_AT_1 ? as : WELL;
    const int repaired = run("repair", "", then), asked = run("run", "SELECT COUNT(a) FROM r;", then);
    if (status_of_load > 10 || repaired > 10 || asked > 10) {
        printf("ENDED %s: %d, then %d and %d\n", kinds[as].name, status_of_load, repaired, asked);
        tally->ended++;
    } else if (asked != 0) {
        tally->refused++;
    } else if (atoi(kept->written) < rows) {
        printf("LOST %s: %d rows of %d, status %d, repair %d\n", kinds[as].name, atoi(kept->written), rows, status_of_load, repaired);
        tally->lost++;
    } else {
        tally->kept++;
    }
}

int main(int count, char **given) {
    const int cases = count > 1 ? atoi(given[1]) : 10;
    int failed = 0;
    kept = mmap(NULL, sizeof *kept, PROT_READ | PROT_WRITE, MAP_SHARED | MAP_ANONYMOUS, -1, 0);
    for (enum kind as = WELL; as < KINDS; as++) {
        struct tally tally = {0};
        for (int number = 0; number < cases; number++) try_case(as, &tally);
        printf("%s: kept %d, lost %d, refused %d, ended %d\n", kinds[as].name, tally.kept, tally.lost, tally.refused, tally.ended);
        failed |= tally.ended > 0 || (kinds[as].keeps && tally.kept < cases);
    }
    return failed;
}
