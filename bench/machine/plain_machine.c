/* A plain C interpreter of the physical machine of docs/MACHINE.md: the measure of how fast the
 * proved one runs. It is what one would write without contracts: a struct, a switch over opcodes,
 * and no table of instructions.
 *
 * usage: plain_machine LOOP STEPS
 * Puts the words of the file LOOP into memory, runs them for STEPS steps, and prints the number of
 * steps, the pc, the registers, hi and lo, the special registers, the length of the console's log
 * and a sum over the log and the memory.
 */
#include <stdbool.h>
#include <stdint.h>
#include <stdio.h>
#include <stdlib.h>
#include <string.h>

enum { FRAME_WORDS = 1024, FRAMES = 16, MEMORY_WORDS = FRAMES * FRAME_WORDS, SECTORS = 8, LOG_ROOM = 4096 };
enum { SR, ESR, ECA, EPC, EDATA, PTO, PTL, MODE, EMODE, SPECIALS };
enum { RESET, EXTERNAL, FETCH_ALIGN, FETCH_FAULT, ILLEGAL, OVERFLOW, SYSCALL, DATA_ALIGN, DATA_FAULT };
enum { DISK_IDLE, DISK_READ, DISK_WRITE };

struct line {
    uint64_t step;
    uint8_t mask;
};

struct busy {
    uint64_t command, steps;
};

struct machine {
    uint32_t pc, regs[32], hi, lo, special[SPECIALS];
    uint32_t *memory;
    uint32_t words;
    bool reset, off;
    uint32_t power;
    uint8_t latched;
    uint64_t steps;
    /* the schedule: lines in order of their steps, and busy times in order of their commands */
    const struct line *lines;
    size_t line_count, next_line;
    const struct busy *busies;
    size_t busy_count;
    /* the console: its log, and the input words of which some were taken */
    uint32_t log[LOG_ROOM], log_count;
    const uint32_t *inputs;
    uint32_t input_count, next_input;
    /* the disk behind its ports */
    uint32_t buffer[FRAME_WORDS], sector;
    int command;
    uint64_t commands, left;
    uint32_t command_sector;
    uint32_t (*sectors)[FRAME_WORDS];
    uint32_t sector_count;
};

static uint32_t read_port(struct machine *m, uint32_t address) {
    bool is_busy = m->command != DISK_IDLE;
    uint32_t word = address >> 2;
    if (word >= 0x3ffff800 && word < 0x3ffffc00) return is_busy ? 0 : m->buffer[word - 0x3ffff800];
    if (word == 0x3ffffc00) return m->sector;
    if (word == 0x3ffffc01) return is_busy;
    if (word == 0x3ffffc03) return m->log_count;
    if (word == 0x3ffffc04) return m->input_count - m->next_input;
    if (word == 0x3ffffc05) return m->next_input < m->input_count ? m->inputs[m->next_input++] : 0;
    return 0;
}

static void begin_command(struct machine *m, uint32_t command) {
    if ((command != 1 && command != 2) || m->sector >= m->sector_count) return;
    m->left = 0;
    for (size_t i = 0; i < m->busy_count; i++)
        if (m->busies[i].command == m->commands) m->left = m->busies[i].steps;
    m->commands++;
    m->command = command == 1 ? DISK_READ : DISK_WRITE;
    m->command_sector = m->sector;
}

static void write_port(struct machine *m, uint32_t address, uint32_t value) {
    uint32_t word = address >> 2;
    if (word == 0x3ffffc02) {
        m->off = true;
        m->power = value;
        return;
    }
    if (word == 0x3ffffc03) {
        if (m->log_count < LOG_ROOM) m->log[m->log_count++] = value;
        return;
    }
    if (m->command != DISK_IDLE) return;
    if (word >= 0x3ffff800 && word < 0x3ffffc00) m->buffer[word - 0x3ffff800] = value;
    if (word == 0x3ffffc00) m->sector = value;
    if (word == 0x3ffffc01) begin_command(m, value);
}

static void transfer_is_due(struct machine *m) {
    uint32_t *sector = m->sectors[m->command_sector];
    if (m->command == DISK_READ)
        memcpy(m->buffer, sector, sizeof m->buffer);
    else
        memcpy(sector, m->buffer, sizeof m->buffer);
    m->command = DISK_IDLE;
}

static inline uint32_t read_word(struct machine *m, uint32_t address) {
    uint32_t word = address >> 2;
    return word < m->words ? m->memory[word] : read_port(m, address);
}

static inline void write_word(struct machine *m, uint32_t address, uint32_t value) {
    uint32_t word = address >> 2;
    if (word < m->words)
        m->memory[word] = value;
    else
        write_port(m, address, value);
}

/* Whether the address is taken; its physical address. */
static inline bool translate(const struct machine *m, uint32_t address, bool is_store, uint32_t *physical) {
    *physical = address;
    if (m->special[MODE] == 0) return true;
    uint32_t page = address >> 12;
    uint32_t word = (m->special[PTO] + 4 * page) >> 2;
    uint32_t entry = word < m->words ? m->memory[word] : 0;
    *physical = (entry & ~0xfffu) | (address & 0xfff);
    return page < m->special[PTL] && (entry & 0x800) && !(is_store && (entry & 0x400));
}

static void interrupt(struct machine *m, uint32_t cause, uint32_t edata, uint32_t epc) {
    m->special[ESR] = m->special[SR];
    m->special[SR] = 0;
    m->special[EMODE] = m->special[MODE];
    m->special[MODE] = 0;
    m->special[ECA] = cause;
    m->special[EDATA] = edata;
    m->special[EPC] = epc;
    m->pc = 0;
}

static inline void set(struct machine *m, uint32_t reg, uint32_t value) {
    if (reg) m->regs[reg] = value;
}

/* Whether the word is an instruction on special registers, which has taken place. */
static bool on_special(struct machine *m, uint32_t word) {
    uint32_t rs = word >> 21 & 31, rt = word >> 16 & 31, rd = word >> 11 & 31;
    if (m->special[MODE]) return false;
    if (word == 0x42000018) {
        m->pc = m->special[EPC];
        m->special[SR] = m->special[ESR];
        m->special[MODE] = m->special[EMODE];
        return true;
    }
    if ((rs != 0 && rs != 4) || (word & 0x7ff) || rd >= SPECIALS) return false;
    if (rs == 0)
        set(m, rt, m->special[rd]);
    else
        m->special[rd] = rd == SR || rd == ESR || rd == MODE || rd == EMODE ? m->regs[rt] & 1 : m->regs[rt];
    m->pc += 4;
    return true;
}

static inline void execute(struct machine *m) {
    uint32_t pc = m->pc, place;
    if (pc & 3) return interrupt(m, FETCH_ALIGN, pc, pc);
    if (!translate(m, pc, false, &place)) return interrupt(m, FETCH_FAULT, pc, pc);
    uint32_t word = read_word(m, place);
    uint32_t opcode = word >> 26, rs = word >> 21 & 31, rt = word >> 16 & 31, rd = word >> 11 & 31, sa = word >> 6 & 31;
    uint32_t a = m->regs[rs], b = m->regs[rt], zeros = word & 0xffff, signs = (uint32_t)(int16_t)zeros;
    uint32_t next = pc + 4, target = next + (signs << 2), address = a + signs;
    int32_t sum;
    uint64_t product;
    switch (opcode) {
    case 0x00:
        switch (word & 63) {
        case 0x00: if (rs) goto illegal; set(m, rd, b << sa); break;
        case 0x02: if (rs) goto illegal; set(m, rd, b >> sa); break;
        case 0x03: if (rs) goto illegal; set(m, rd, (int32_t)b >> sa); break;
        case 0x04: if (sa) goto illegal; set(m, rd, b << (a & 31)); break;
        case 0x06: if (sa) goto illegal; set(m, rd, b >> (a & 31)); break;
        case 0x07: if (sa) goto illegal; set(m, rd, (int32_t)b >> (a & 31)); break;
        case 0x08: if (rt || rd || sa) goto illegal; next = a; break;
        case 0x09: if (rt || sa) goto illegal; set(m, rd, next); next = a; break;
        case 0x0c: return interrupt(m, SYSCALL, word, next);
        case 0x10: if (rs || rt || sa) goto illegal; set(m, rd, m->hi); break;
        case 0x11: if (rt || rd || sa) goto illegal; m->hi = a; break;
        case 0x12: if (rs || rt || sa) goto illegal; set(m, rd, m->lo); break;
        case 0x13: if (rt || rd || sa) goto illegal; m->lo = a; break;
        case 0x18:
        case 0x19:
            if (rd || sa) goto illegal;
            product = word & 1 ? (uint64_t)a * b : (uint64_t)((int64_t)(int32_t)a * (int32_t)b);
            m->hi = product >> 32;
            m->lo = (uint32_t)product;
            break;
        case 0x1a:
            if (rd || sa) goto illegal;
            if (b == 0) break;
            m->lo = (uint32_t)((int64_t)(int32_t)a / (int32_t)b);
            m->hi = (uint32_t)((int64_t)(int32_t)a % (int32_t)b);
            break;
        case 0x1b:
            if (rd || sa) goto illegal;
            if (b == 0) break;
            m->lo = a / b;
            m->hi = a % b;
            break;
        case 0x20:
            if (sa) goto illegal;
            if (__builtin_add_overflow((int32_t)a, (int32_t)b, &sum)) return interrupt(m, OVERFLOW, word, next);
            set(m, rd, sum);
            break;
        case 0x21: if (sa) goto illegal; set(m, rd, a + b); break;
        case 0x22:
            if (sa) goto illegal;
            if (__builtin_sub_overflow((int32_t)a, (int32_t)b, &sum)) return interrupt(m, OVERFLOW, word, next);
            set(m, rd, sum);
            break;
        case 0x23: if (sa) goto illegal; set(m, rd, a - b); break;
        case 0x24: if (sa) goto illegal; set(m, rd, a & b); break;
        case 0x25: if (sa) goto illegal; set(m, rd, a | b); break;
        case 0x26: if (sa) goto illegal; set(m, rd, a ^ b); break;
        case 0x27: if (sa) goto illegal; set(m, rd, ~(a | b)); break;
        case 0x2a: if (sa) goto illegal; set(m, rd, (int32_t)a < (int32_t)b); break;
        case 0x2b: if (sa) goto illegal; set(m, rd, a < b); break;
        default: goto illegal;
        }
        break;
    case 0x01:
        if (rt > 1) goto illegal;
        if (((int32_t)a < 0) == (rt == 0)) next = target;
        break;
    case 0x03: set(m, 31, next); /* and jumps */ /* fallthrough */
    case 0x02: next = (next & 0xf0000000) | (word & 0x3ffffff) << 2; break;
    case 0x04: if (a == b) next = target; break;
    case 0x05: if (a != b) next = target; break;
    case 0x06: if (rt) goto illegal; if ((int32_t)a <= 0) next = target; break;
    case 0x07: if (rt) goto illegal; if ((int32_t)a > 0) next = target; break;
    case 0x08:
        if (__builtin_add_overflow((int32_t)a, (int32_t)signs, &sum)) return interrupt(m, OVERFLOW, word, next);
        set(m, rt, sum);
        break;
    case 0x09: set(m, rt, address); break;
    case 0x0a: set(m, rt, (int32_t)a < (int32_t)signs); break;
    case 0x0b: set(m, rt, a < signs); break;
    case 0x0c: set(m, rt, a & zeros); break;
    case 0x0d: set(m, rt, a | zeros); break;
    case 0x0e: set(m, rt, a ^ zeros); break;
    case 0x0f: if (rs) goto illegal; set(m, rt, zeros << 16); break;
    case 0x10: if (!on_special(m, word)) goto illegal; return;
    case 0x23:
        if (address & 3) return interrupt(m, DATA_ALIGN, address, pc);
        if (!translate(m, address, false, &place)) return interrupt(m, DATA_FAULT, address, pc);
        set(m, rt, read_word(m, place));
        break;
    case 0x2b:
        if (address & 3) return interrupt(m, DATA_ALIGN, address, pc);
        if (!translate(m, address, true, &place)) return interrupt(m, DATA_FAULT, address, pc);
        write_word(m, place, b);
        break;
    default: goto illegal;
    }
    m->pc = next;
    return;
illegal:
    interrupt(m, ILLEGAL, word, pc);
}

static inline void step(struct machine *m) {
    if (m->off) return;
    while (m->next_line < m->line_count && m->lines[m->next_line].step == m->steps) m->latched |= m->lines[m->next_line++].mask;
    if (m->reset) {
        m->reset = false;
        interrupt(m, RESET, 0, m->pc);
    } else if (m->special[SR] && m->latched) {
        uint32_t lines = m->latched;
        m->latched = 0;
        interrupt(m, EXTERNAL, lines, m->pc);
    } else {
        execute(m);
    }
    if (m->command != DISK_IDLE) {
        if (m->left == 0)
            transfer_is_due(m);
        else
            m->left--;
    }
    m->steps++;
}

/* Puts the words of a file into memory: a line begins with a word of 8 hexadecimal digits, or with
 * `at ADDRESS`, which says where the next word goes; other lines say nothing. */
static bool load(struct machine *m, const char *name) {
    char line[256], word[256];
    uint32_t at = 0;
    FILE *file = fopen(name, "r");
    if (!file) return false;
    while (fgets(line, sizeof line, file)) {
        if (sscanf(line, "%255s", word) != 1) continue;
        if (strcmp(word, "at") == 0) {
            at = (uint32_t)strtoul(line + 3, NULL, 16) / 4;
        } else if (strspn(word, "0123456789abcdef") == 8 && strlen(word) == 8) {
            if (at < m->words) m->memory[at] = (uint32_t)strtoul(word, NULL, 16);
            at++;
        }
    }
    fclose(file);
    return true;
}

static uint32_t with(uint32_t sum, uint32_t word) { return (sum ^ word) * 16777619u; }

int main(int count, char **words) {
    if (count != 3) {
        fprintf(stderr, "usage: plain_machine LOOP STEPS\n");
        return 1;
    }
    struct machine *m = calloc(1, sizeof *m);
    if (!m) return 2;
    m->memory = calloc(MEMORY_WORDS, sizeof *m->memory);
    m->sectors = calloc(SECTORS, sizeof *m->sectors);
    if (!m->memory || !m->sectors) return 2;
    m->words = MEMORY_WORDS;
    m->sector_count = SECTORS;
    m->reset = true;
    if (!load(m, words[1])) return 3;
    uint64_t steps = strtoull(words[2], NULL, 10);
    for (uint64_t i = 0; i < steps; i++) step(m);
    printf("steps %llu pc %08x hi %08x lo %08x\n", (unsigned long long)m->steps, m->pc, m->hi, m->lo);
    for (int r = 0; r < 32; r++) printf("%08x%c", m->regs[r], r % 8 == 7 ? '\n' : ' ');
    for (int r = 0; r < SPECIALS; r++) printf("%08x%c", m->special[r], r == EMODE ? '\n' : ' ');
    uint32_t sum = 0;
    for (uint32_t i = 0; i < m->log_count; i++) sum = with(sum, m->log[i]);
    for (uint32_t i = 0; i < m->words; i++) sum = with(sum, m->memory[i]);
    printf("log %u sum %08x\n", m->log_count, sum);
    return 0;
}
