/* Prints what the calls of a comparison met, by the emulator's counters and by their answers. */
#include "coverage.h"

#include "iop89_service.h"

void print_numbers(const char *what, const unsigned long counts[EMU_NUMBERS], unsigned set)
{
    char name[24];
    printf("%s, by number:\n", what);
    for (unsigned i = 0; i < EMU_NUMBERS; i++) {
        snprintf(name, sizeof name, "number %u", i);
        if ((set >> i & 1u) != 0) print_count(name, counts[i]);
    }
}

void print_answers(const char *heading, const unsigned long counts[], unsigned set)
{
    char name[120];
    puts(heading);
    for (unsigned i = 0; i <= IOP89_NO_STATE; i++) {
        snprintf(name, sizeof name, "%u %s", i, iop89_service_words(i));
        if ((set >> i & 1u) != 0) print_count(name, counts[i]);
    }
}

void print_faults(const char *heading, const unsigned long counts[STATE_FAULTS])
{
    puts(heading);
    for (enum state_fault fault = FAULT_LENGTH; fault < STATE_FAULTS; fault++) {
        if (fault == FAULT_CHANNEL_1 || fault == FAULT_CHANNEL_2)
            printf("in the block of channel %u:\n", fault == FAULT_CHANNEL_1 ? 1 : 2);
        print_count(state_fault_name(fault), counts[fault]);
    }
}

void print_sides(const char *heading, unsigned long counts[4][4][4])
{
    static const char *const ways[3][4] = {
        {"8 into 8 bits", "16 into 8 bits", "8 into 16 bits", "16 into 16 bits"},
        {"even into even", "odd into even", "even into odd", "odd into odd"},
        {"system into system", "I/O into system", "system into I/O", "I/O into I/O"}};
    char name[80];
    puts(heading);
    for (unsigned i = 0; i < 64; i++) {
        snprintf(name, sizeof name, "%s, %s, %s", ways[0][i / 16], ways[1][i / 4 % 4], ways[2][i % 4]);
        print_count(name, counts[i / 16][i / 4 % 4][i % 4]);
    }
}

enum coverage_bytes bytes_of_step(char kind)
{
    return kind == 'I' ? BYTES_OF_INSTRUCTION : kind == 'T' ? BYTES_OF_TRANSFER : BYTES_OF_EXTERNAL_END;
}

void print_touched(unsigned long met[BYTES_KINDS][BYTES_COUNTS])
{
    static const struct {
        const char *what;
        unsigned set;
    } kinds[BYTES_KINDS] = {
        [BYTES_OF_ATTENTION] = {"attention", 1u << 1 | 1u << 2 | 1u << 6 | 1u << 8 | 1u << 10},
        [BYTES_OF_POWER_UP] = {"power-up", 1u << 11},
        [BYTES_OF_INSTRUCTION] = {"instruction", 0x7FCu},
        [BYTES_OF_TRANSFER] = {"transfer step", 1u << 1 | 1u << 2 | 1u << 3 | 1u << 4},
        [BYTES_OF_EXTERNAL_END] = {"external end", 1u << 0},
        [BYTES_OF_REFUSED] = {"refused", 1u << 0},
    };
    puts("bytes read and stored:");
    for (unsigned kind = 0; kind < BYTES_KINDS; kind++) {
        for (unsigned i = 0; i < BYTES_COUNTS; i++) {
            char name[40];
            bool can_be = (kinds[kind].set >> i & 1u) != 0;
            snprintf(name, sizeof name, "%s, %u%s", kinds[kind].what, i, can_be ? "" : " (CANNOT BE)");
            if (can_be || met[kind][i] > 0) print_count(name, met[kind][i]);
            if (!can_be && met[kind][i] > 0) note_impossible();
        }
    }
}

/* Prints the accepted commands of the set. */
static void print_commands(const struct emu_coverage *coverage, unsigned set)
{
    static const char *const names[8] = {"000 nothing", "001 start in I/O space", "010", "011 start in system space",
                                         "100",         "101 resume",             "110 suspend", "111 halt"};
    puts("accepted commands:");
    for (unsigned i = 0; i < 8; i++)
        if ((set >> i & 1u) != 0) print_count(names[i], coverage->attention[i]);
}

/* Prints how often each format was carried out. */
static void print_formats(const struct emu_coverage *coverage)
{
    puts("instructions carried out, by format:");
    for (unsigned i = 0; i < EMU_ROWS; i++) print_count(emu_row_name(i), coverage->row[i]);
    print_count("of these, MOV to CC", coverage->cc_written[0]);
    print_count("of these, MOVI to CC", coverage->cc_written[1]);
}

/* Prints how the bytes of transfer steps moved. */
static void print_shapes(const struct emu_coverage *coverage)
{
    puts("transfer steps that are no half, by shape:");
    print_count("byte to byte", coverage->shape[EMU_SHAPE_B_B]);
    print_count("two bytes to word", coverage->shape[EMU_SHAPE_BB_W]);
    print_count("word to two bytes", coverage->shape[EMU_SHAPE_W_BB]);
    print_count("word to word", coverage->shape[EMU_SHAPE_W_W]);
    print_count("two bytes, the first matched", coverage->shape[EMU_SHAPE_W_B_CUT]);
    print_count("translated", coverage->translated);
}

void print_leftovers(const struct emu_coverage *coverage, bool halves)
{
    static const char *const names[EMU_LEFTOVERS] = {
        "TBC on, 2 left: ended too, its offset larger", "TBC on, 2 left: ended too, TMC's offset larger",
        "TBC on, 2 left: ended too, the same offset",   "TBC on, BC 0",
        "TBC on, 3 left or more",                       "TBC off, BC 0",
        "TBC off, BC 1",                                "TBC off, BC 2",
        "TBC off, BC 3 or more"};
    for (unsigned none = 0; none < 2; none++) {
        printf("first of two single stores%s met TMC, which ends on %smatch:\n", halves ? ", a half," : "",
               none != 0 ? "no " : "a ");
        for (unsigned i = 0; i < EMU_LEFTOVERS; i++) print_count(names[i], coverage->leftover[halves][none][i]);
    }
}

void print_fields(const struct emu_coverage *coverage)
{
    static const char *const modes[3] = {"idle", "running", "suspended"};
    char name[60];
    puts("fields that disagreed with CC, by number:");
    for (unsigned i = EMU_BAD_POINTER; i <= EMU_FIELDS_DISAGREE; i++) {
        snprintf(name, sizeof name, "number %u", i);
        print_count(name, coverage->apart_number[i]);
    }
    for (unsigned ch = 0; ch < 2; ch++) {
        printf("refused by 14 for channel %u:\n", ch + 1);
        for (unsigned i = 0; i < EMU_FIELDS; i++) {
            snprintf(name, sizeof name, "%s alone", emu_field_name(i));
            print_count(name, coverage->apart[ch][i]);
        }
        for (unsigned i = 0; i < 3; i++) print_count(modes[i], coverage->apart_mode[ch][i]);
        print_count("not refused, bit 9 of CC set", coverage->bit_9[ch]);
    }
}

/* What a set of ends is called. */
static const char *const end_sets[EMU_END_SETS] = {"goes on",          "match",
                                                   "count",            "match and count",
                                                   "single",           "match and single",
                                                   "count and single", "match, count and single"};

/* Prints how transfers ended. */
static void print_ends(const struct emu_coverage *coverage)
{
    puts("transfer steps, by their ends:");
    for (unsigned i = 0; i < EMU_END_SETS; i++) print_count(end_sets[i], coverage->end[i]);
    print_count("ended at offset 0", coverage->end_offset[0]);
    print_count("ended at offset 4", coverage->end_offset[1]);
    print_count("ended at offset 8", coverage->end_offset[2]);
    print_count("external end at offset 0", coverage->external[0]);
    print_count("external end at offset 4", coverage->external[1]);
    print_count("external end at offset 8", coverage->external[2]);
}

/* Prints the accesses that met empty slots of I/O space; the names that are missing cannot be met. */
static void print_slots(const struct emu_coverage *coverage)
{
    static const char *const names[EMU_ACCESSES][EMU_SLOT_SETS] = {
        [EMU_FIRST_PAIR] = {NULL, "first pair", "one byte of the first pair"},
        [EMU_LATER_CODE] = {"the only later byte of code", "all later bytes of code", "some later bytes of code"},
        [EMU_READ] = {"byte operand read", "word operand read", "word operand read over the edge"},
        [EMU_TEST] = {"TSL's byte", NULL, NULL},
        [EMU_READ_POINTER] = {NULL, "pointer read", "pointer read over the edge"},
        [EMU_STORE] = {"byte stored", "word stored", "word stored over the edge"},
        [EMU_STORE_POINTER] = {NULL, "pointer stored", "pointer stored over the edge"},
        [EMU_SOURCE] = {"source's byte", "source's two bytes", "source's two bytes over the edge"},
        [EMU_TABLE] = {"table's entry", NULL, NULL},
        [EMU_DESTINATION] = {"destination's byte", "destination's two bytes", "destination's two bytes over the edge"}};
    puts("accesses to empty slots, by what for:");
    for (unsigned i = 0; i < EMU_ACCESSES; i++)
        for (unsigned of = 0; of < EMU_SLOT_SETS; of++)
            if (names[i][of] != NULL) print_count(names[i][of], coverage->slot[i][of]);
}

/* What the halves of a pair are called. */
static const char *const half_names[EMU_HALVES] = {
    [EMU_FIRST_FETCH] = "first fetch", [EMU_SECOND_FETCH] = "second fetch",
    [EMU_FIRST_STORE] = "first store", [EMU_SECOND_STORE] = "second store"};

/* Prints by which ends a half went on or ended: a first fetch by none, a first store by a match, with others or not. */
static void print_half_ends(const struct emu_coverage *coverage, enum emu_half half)
{
    printf("%s of a pair, by ends:\n", half_names[half]);
    for (unsigned i = 0; i < EMU_END_SETS; i++) {
        bool can_be = half == EMU_FIRST_FETCH ? i == 0 : half != EMU_FIRST_STORE || i == 0 || (i & EMU_END_TMC) != 0;
        if (can_be) print_count(end_sets[i], coverage->half_end[half][i]);
    }
}

/* Prints of which kind the synchronised side of a half was. */
static void print_half_sides(const struct emu_coverage *coverage, enum emu_half half)
{
    char name[60];
    for (unsigned i = 0; i < EMU_SIDES; i++) {
        snprintf(name, sizeof name, "%s, %s, in %s space", (i & EMU_SIDE_ODD) != 0 ? "16 bits and odd" : "8 bits",
                 (i & EMU_SIDE_MOVES) != 0 ? "moving on" : "staying", (i & EMU_SIDE_IO) != 0 ? "I/O" : "system");
        print_count(name, coverage->half_side[half][i]);
    }
}

/* Prints which bytes of its own and of the other half were not lent. In a run the bytes of a first half are lent at the
 * second too. */
static void print_half_bytes(const struct emu_coverage *coverage, enum emu_half half, enum coverage_pairs what)
{
    static const char *const names[EMU_PAIR_BYTES] = {"first byte read", "second byte read", "first byte stored",
                                                      "second byte stored"};
    bool first = half == EMU_FIRST_FETCH || half == EMU_FIRST_STORE;
    char name[60];
    for (unsigned i = 0; i < EMU_PAIR_BYTES; i++) {
        bool own = emu_half_has(half, i);
        snprintf(name, sizeof name, "%s not lent: %s", names[i], own ? "2" : "done all the same");
        if (own) print_count(name, coverage->half_beyond[half][i]);
        else if (first || what == PAIRS_OF_ANY_KIND) print_count(name, coverage->half_spared[half][i]);
        snprintf(name, sizeof name, "%s in an empty slot", names[i]);
        if (own) print_count(name, coverage->half_slot[half][i]);
    }
}

void print_pairs(const struct emu_coverage *coverage, enum coverage_pairs what)
{
    for (enum emu_half half = EMU_FIRST_FETCH; half < EMU_HALVES; half++) {
        print_half_ends(coverage, half);
        print_half_sides(coverage, half);
        print_half_bytes(coverage, half, what);
    }
    print_leftovers(coverage, true);
}

void print_held(const struct emu_coverage *coverage)
{
    static const char *const wholes[EMU_WHOLES] = {"not synchronised", "no word side", "the word side is synchronised",
                                                   "one byte left"};
    static const char *const beside[EMU_BESIDES] = {"attention", "instruction", "transfer step", "external end"};
    static const char *const commands[8] = {"000, which keeps it", "001, which drops it", NULL, "011, which drops it",
                                            NULL, "101, which keeps it", "110, which keeps it", "111, which drops it"};
    char name[60];
    puts("a held byte dropped by a whole transfer step, by why it was whole:");
    for (unsigned i = 0; i < EMU_WHOLES; i++) print_count(wholes[i], coverage->held_whole[i]);
    puts("a held byte and what its channel did:");
    print_count("instruction, which drops it", coverage->held_instruction);
    print_count("external end, which drops it", coverage->held_external);
    for (unsigned i = 0; i < 8; i++)
        if (commands[i] != NULL) print_count(commands[i], coverage->held_attention[i]);
    puts("a held byte and what the other channel did, which keeps it:");
    for (unsigned i = 0; i < EMU_BESIDES; i++) print_count(beside[i], coverage->held_beside[i]);
    puts("a held byte and a refused attention or step, by number:");
    for (unsigned i = EMU_NO_CHANNEL_CAN_RUN; i <= EMU_FIELDS_DISAGREE; i++) {
        snprintf(name, sizeof name, "number %u", i);
        print_count(name, coverage->held_refused[i]);
    }
    puts("refused by 5:");
    for (unsigned i = 0; i < 4; i++) {
        snprintf(name, sizeof name, "%s, %s", i % 2 == 0 ? "SYN 11" : "translation", i < 2 ? "none held" : "a byte held");
        print_count(name, coverage->bad_transfer[i / 2][i % 2]);
    }
}

void print_anew(const unsigned long met[ANEWS])
{
    static const char *const names[ANEWS] = {"fresh", "reset", "power-up"};
    puts("made anew where a byte was held:");
    for (unsigned i = 0; i < ANEWS; i++) print_count(names[i], met[i]);
}

void print_barred(const struct emu_coverage *coverage)
{
    puts("sweeps refused by 15 for one thing alone:");
    for (unsigned i = 0; i < EMU_BARS; i++) print_count(emu_bar_name(i), coverage->barred[i]);
}

void print_swept(const struct emu_coverage *coverage)
{
    static const char *const names[12] = {"8 into 8 bits",      "16 into 8 bits",  "8 into 16 bits",  "16 into 16 bits",
                                          "even into even",     "odd into even",   "even into odd",   "odd into odd",
                                          "system into system", "I/O into system", "system into I/O", "I/O into I/O"};
    unsigned long counts[12] = {0};
    for (unsigned i = 0; i < 64; i++) {
        unsigned long done = coverage->swept[i / 16][i / 4 % 4][i % 4];
        counts[i / 16] += done;
        counts[4 + i / 4 % 4] += done;
        counts[8 + i % 4] += done;
    }
    puts("done sweeps:");
    for (unsigned i = 0; i < 12; i++) print_count(names[i], counts[i]);
    print_count("of a channel that held a byte", coverage->swept_held);
    print_count("of an armed channel", coverage->swept_armed);
    print_count("of 65,536 bytes", coverage->swept_all);
}

void print_coverage(const struct emu_coverage *coverage, unsigned commands)
{
    print_commands(coverage, commands);
    print_formats(coverage);
    print_shapes(coverage);
    print_leftovers(coverage, false);
    print_ends(coverage);
    print_slots(coverage);
}
