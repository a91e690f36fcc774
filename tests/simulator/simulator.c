/* Compares the programs map, reduce, invert and join with the simulator libquantum,
   on seeded random cascades and circuits of up to six lines, from each of the 2^n
   starts: the circuit that map writes has to end in the cascade's pattern with
   amplitude 1, and the circuit that reduce writes has to end in the amplitudes of its
   input. The circuit that invert writes, run after its input and before it, has to
   end in the start with amplitude 1, and join has to write no gates for the two, in
   either order. The circuit that join writes for two others has to end in the
   amplitudes of the first and then the second. Some short cascades on seven and eight lines are among them: there,
   and not below, a half of the controls is itself made from four smaller gates. A
   third of the cascades have no negated controls, in a third any of them are, and in
   a third all.

   Then cascades of one or two gates of five to nine controls, with one to four
   lines that each gate leaves unnamed, on up to 13 lines: these have spares of every
   kind. On more than eight lines they are run from some starts only, a third of
   them with all controls of the first gate met, a third with all but one.

   And cascades like the first ones, but short, with a gate that needs a spare and with
   kept lines: any that leave each gate a spare. No gate of the circuit may touch a kept
   line that no mct names.

   A controlled V is a Hadamard gate on the target, a conditional phase kick of
   pi/2 (V+: -pi/2) and a Hadamard gate again: with the phase kick diag(1, i)
   between them the two Hadamard gates give half of [[1+i, 1-i], [1-i, 1+i]].

   usage: simulator PROGRAM_DIRECTORY SCRATCH_DIRECTORY
   The last line is `N passed, M failed`; a case is one text. */

#include <complex.h>
#include <math.h>
#include <quantum.h>
#include <stdint.h>
#include <stdio.h>
#include <stdlib.h>
#include <string.h>

enum { USUAL_LINES = 6, ALL_STARTS_LINES = 8, MOST_LINES = 13, MOST_GATES = 4096, MOST_MCTS = 16 };
enum { CASCADES = 1200, CIRCUITS = 400, SOME_STARTS = 24 };
enum { INVERSES = 240, JOINS = 240 };
/* Starts that a circuit does not leave as they were, and joins of which the other order
   has other amplitudes. */
enum { FEWEST_MOVED = 3000, FEWEST_ORDERED = 120 };
/* Controls and unnamed lines of the wide gates, and how many cascades they make: one
   for each way of signs. */
enum { FEWEST_CONTROLS = 5, MOST_CONTROLS = 9, MOST_UNNAMED = 4, WIDE_CASCADES = 57 };
/* Cascades with a negated control, and cascades with controls of which none is. */
enum { FEWEST_NEGATED = 500, FEWEST_PLAIN = 280 };
/* Cascades with kept lines; of these with one that no mct names, with one that some mct
   names, and with one that a gate would take as its spare if it were not kept. */
enum { KEPT_CASCADES = 240, FEWEST_UNNAMED = 50, FEWEST_NAMED = 200, FEWEST_TAKEN = 45 };
static const double TOLERANCE = 1e-3;

enum word { NOT, CN, V, VP };

struct gate {
    enum word word;
    int control, target;
};

struct circuit {
    int lines, count;
    struct gate gates[MOST_GATES];
};

struct mct {
    unsigned controls; /* one bit a line */
    unsigned negated;  /* those of the controls that are met by 0 */
    int target;
};

struct cascade {
    int lines, count;
    unsigned kept; /* one bit a line */
    struct mct mcts[MOST_MCTS];
};

static uint64_t state = 7;

static int below(int bound)
{
    state = state * 6364136223846793005u + 1442695040888963407u;
    return (int)((state >> 33) % (unsigned)bound);
}

enum signs { NONE, ANY, ALL };

static void random_cascade(struct cascade *cascade, enum signs signs)
{
    int wide = below(12) == 0;
    int lines = wide ? 7 + below(2) : 1 + below(USUAL_LINES);
    cascade->lines = lines;
    cascade->kept = 0;
    cascade->count = wide ? 1 : below(9);
    for (int i = 0; i < cascade->count; i++) {
        struct mct *mct = &cascade->mcts[i];
        int k;
        do {
            mct->target = below(lines);
            mct->controls = (unsigned)below(1 << lines) & ~(1u << mct->target);
            k = __builtin_popcount(mct->controls);
        } while ((k >= 3 && lines == k + 1) || (wide && k < 5));
        unsigned chosen = signs == ANY ? (unsigned)below(1 << lines) : signs == ALL ? ~0u : 0;
        mct->negated = mct->controls & chosen;
    }
}

/* One or two gates of k controls, at any places. */
static void wide_cascade(struct cascade *cascade, int lines, int k, enum signs signs)
{
    cascade->lines = lines;
    cascade->kept = 0;
    cascade->count = 1 + below(2);
    for (int i = 0; i < cascade->count; i++) {
        struct mct *mct = &cascade->mcts[i];
        mct->controls = 0;
        mct->target = below(lines);
        while (__builtin_popcount(mct->controls) < k)
            mct->controls |= 1u << below(lines) & ~(1u << mct->target);
        unsigned chosen = signs == ANY ? (unsigned)below(1 << lines) : signs == ALL ? ~0u : 0;
        mct->negated = mct->controls & chosen;
    }
}

/* The lines that a gate does not name. */
static unsigned unnamed_by(const struct mct *mct, int lines)
{
    return ((1u << lines) - 1) & ~mct->controls & ~(1u << mct->target);
}

static unsigned named_by_any(const struct cascade *cascade)
{
    unsigned named = 0;
    for (int i = 0; i < cascade->count; i++)
        named |= cascade->mcts[i].controls | 1u << cascade->mcts[i].target;
    return named;
}

static int needs_a_spare(const struct mct *mct)
{
    return __builtin_popcount(mct->controls) >= 3;
}

/* Keeps any lines that leave a spare to each gate that needs one. Gives whether there are
   such lines and such a gate. */
static int keep_some(struct cascade *cascade)
{
    int needed = 0;
    cascade->kept = (unsigned)below(1 << cascade->lines) | (unsigned)below(1 << cascade->lines);
    for (int i = 0; i < cascade->count; i++) {
        const struct mct *mct = &cascade->mcts[i];
        unsigned unnamed = unnamed_by(mct, cascade->lines);
        needed |= needs_a_spare(mct);
        if (needs_a_spare(mct) && !(unnamed & ~cascade->kept)) {
            int line;
            do
                line = below(cascade->lines);
            while (!(unnamed >> line & 1));
            cascade->kept &= ~(1u << line);
        }
    }
    return needed && cascade->kept;
}

/* Whether a gate would take as its spare, the lowest of its unnamed lines, one that is
   kept. */
static int keeps_a_spare(const struct cascade *cascade)
{
    for (int i = 0; i < cascade->count; i++) {
        const struct mct *mct = &cascade->mcts[i];
        unsigned unnamed = unnamed_by(mct, cascade->lines);
        if (needs_a_spare(mct) && (unnamed & -unnamed & cascade->kept))
            return 1;
    }
    return 0;
}

/* A circuit of fewer gates than `most`. */
static void random_circuit(struct circuit *circuit, int lines, int most)
{
    circuit->lines = lines;
    circuit->count = below(most);
    for (int i = 0; i < circuit->count; i++) {
        struct gate *gate = &circuit->gates[i];
        gate->target = below(lines);
        gate->control = below(lines);
        gate->word = gate->control == gate->target ? NOT : CN + below(3);
    }
    /* In some circuits a stretch and its undoing around the middle. */
    if (circuit->count && below(3) == 0) {
        int half = circuit->count / 2;
        for (int i = 0; i < half; i++) {
            struct gate gate = circuit->gates[i];
            if (gate.word == V || gate.word == VP)
                gate.word = gate.word == V ? VP : V;
            circuit->gates[circuit->count - 1 - i] = gate;
        }
        if (half > 2)
            circuit->gates[half + below(half)].target = below(lines);
        for (int i = 0; i < circuit->count; i++) {
            struct gate *gate = &circuit->gates[i];
            if (gate->word != NOT && gate->control == gate->target)
                gate->word = NOT;
        }
    }
}

static void write_cascade(FILE *file, const struct cascade *cascade)
{
    fprintf(file, "(lines %d)\n", cascade->lines);
    if (cascade->kept) {
        fprintf(file, "(keep");
        for (int line = 0; line < cascade->lines; line++)
            if (cascade->kept >> line & 1)
                fprintf(file, " %d", line);
        fprintf(file, ")\n");
    }
    for (int i = 0; i < cascade->count; i++) {
        const char *space = "";
        fprintf(file, "(mct (");
        for (int line = 0; line < cascade->lines; line++)
            if (cascade->mcts[i].controls >> line & 1) {
                fprintf(file, "%s%s%d", space, cascade->mcts[i].negated >> line & 1 ? "-" : "", line);
                space = " ";
            }
        fprintf(file, ") %d)\n", cascade->mcts[i].target);
    }
}

static void write_circuit(FILE *file, const struct circuit *circuit)
{
    static const char *words[] = { "not", "cn", "v", "vp" };
    fprintf(file, "(lines %d)\n", circuit->lines);
    for (int i = 0; i < circuit->count; i++) {
        const struct gate *gate = &circuit->gates[i];
        fprintf(file, "(%s ", words[gate->word]);
        if (gate->word != NOT)
            fprintf(file, "%d ", gate->control);
        fprintf(file, "%d)\n", gate->target);
    }
}

static void write_file(const char *file, const struct cascade *cascade, const struct circuit *circuit)
{
    FILE *text = fopen(file, "w");
    if (!text) {
        perror(file);
        exit(1);
    }
    if (cascade)
        write_cascade(text, cascade);
    else
        write_circuit(text, circuit);
    fclose(text);
}

/* Runs a program on the text in the file, or on those in two, and reads the circuit
   that it writes; 0 if it writes none. */
static int run(const char *directory, const char *program, const char *file, const char *other,
               struct circuit *answer)
{
    char command[3 * 4096], line[64], word[8], end[3];
    if (other)
        snprintf(command, sizeof command, "'%s/%s' '%s' '%s'", directory, program, file, other);
    else
        snprintf(command, sizeof command, "'%s/%s' < '%s'", directory, program, file);
    FILE *pipe = popen(command, "r");
    if (!pipe)
        return 0;
    int good = fgets(line, sizeof line, pipe) != NULL
        && sscanf(line, "(lines %d%2s", &answer->lines, end) == 2 && !strcmp(end, ")");
    answer->count = 0;
    while (good && fgets(line, sizeof line, pipe)) {
        struct gate gate = { NOT, 0, 0 };
        good = sscanf(line, "(%7s", word) == 1 && answer->count < MOST_GATES;
        if (!good)
            break;
        if (!strcmp(word, "not")) {
            good = sscanf(line, "(not %d%2s", &gate.target, end) == 2;
        } else {
            gate.word = !strcmp(word, "cn") ? CN : !strcmp(word, "v") ? V : VP;
            good = (gate.word != VP || !strcmp(word, "vp"))
                && sscanf(line, "(%*s %d %d%2s", &gate.control, &gate.target, end) == 3
                && gate.control >= 0 && gate.control < answer->lines && gate.control != gate.target;
        }
        good = good && !strcmp(end, ")") && gate.target >= 0 && gate.target < answer->lines;
        answer->gates[answer->count++] = gate;
    }
    return pclose(pipe) == 0 && good;
}

static void controlled_v(int control, int target, float angle, quantum_reg *reg)
{
    quantum_hadamard(target, reg);
    quantum_cond_phase_kick(control, target, angle, reg);
    quantum_hadamard(target, reg);
}

/* The amplitudes after the circuit, from one start. */
static void simulate(const struct circuit *circuit, unsigned start, complex double *amplitudes)
{
    quantum_reg reg = quantum_new_qureg(start, circuit->lines);
    for (int i = 0; i < circuit->count; i++) {
        const struct gate *gate = &circuit->gates[i];
        switch (gate->word) {
        case NOT:
            quantum_sigma_x(gate->target, &reg);
            break;
        case CN:
            quantum_cnot(gate->control, gate->target, &reg);
            break;
        case V:
            controlled_v(gate->control, gate->target, (float)M_PI_2, &reg);
            break;
        case VP:
            controlled_v(gate->control, gate->target, (float)-M_PI_2, &reg);
            break;
        }
    }
    for (int pattern = 0; pattern < 1 << circuit->lines; pattern++)
        amplitudes[pattern] = 0;
    for (int i = 0; i < reg.size; i++)
        amplitudes[reg.state[i]] += reg.amplitude[i];
    quantum_delete_qureg(&reg);
}

static int close_to(const complex double *a, const complex double *b, int lines)
{
    for (int pattern = 0; pattern < 1 << lines; pattern++)
        if (!(cabs(a[pattern] - b[pattern]) < TOLERANCE))
            return 0;
    return 1;
}

static unsigned run_cascade(const struct cascade *cascade, unsigned pattern)
{
    for (int i = 0; i < cascade->count; i++) {
        const struct mct *mct = &cascade->mcts[i];
        if (((pattern ^ mct->negated) & mct->controls) == mct->controls)
            pattern ^= 1u << mct->target;
    }
    return pattern;
}

static struct cascade cascade;
static struct circuit circuit, answer, second, whole;
static long passed, failed, starts, flips, negated, plain, moved, ordered;
static long with_unnamed, with_named, with_spare_kept;

static void count(int good, const char *what, const char *file)
{
    if (good) {
        passed++;
        return;
    }
    if (++failed > 10)
        return;
    printf("simulator: FAILED: %s, text:\n", what);
    FILE *text = fopen(file, "r");
    for (int c; text && (c = getc(text)) != EOF;)
        putchar(c);
    if (text)
        fclose(text);
}

/* Counts a cascade that has negated controls, or controls of which none is. */
static void count_signs(void)
{
    unsigned any_control = 0, any_negated = 0;
    for (int i = 0; i < cascade.count; i++) {
        any_control |= cascade.mcts[i].controls;
        any_negated |= cascade.mcts[i].negated;
    }
    negated += any_negated != 0;
    plain += any_control != 0 && any_negated == 0;
}

/* Whether no gate of the answer touches a kept line that no mct names. */
static int leaves_kept_lines(void)
{
    unsigned alone = cascade.kept & ~named_by_any(&cascade), touched = 0;
    for (int i = 0; i < answer.count; i++) {
        const struct gate *gate = &answer.gates[i];
        touched |= 1u << gate->target | (gate->word == NOT ? 0 : 1u << gate->control);
    }
    return !(touched & alone);
}

/* The start of this number: all of them in turn where there are few lines. */
static unsigned chosen_start(int lines, unsigned which)
{
    if (lines <= ALL_STARTS_LINES)
        return which;
    const struct mct *mct = &cascade.mcts[0];
    unsigned start = (unsigned)below(1 << lines);
    if (which % 3 < 2)
        start = (start & ~mct->controls) | (mct->controls & ~mct->negated);
    if (which % 3 == 1) {
        int line;
        do
            line = below(lines);
        while (!(mct->controls >> line & 1));
        start ^= 1u << line;
    }
    return start;
}

/* One case: the text of the cascade, or of the circuit, is written to the file and
   run, then the starts. */
static void one_case(int is_cascade, const char *directory, const char *file)
{
    static complex double got[1 << MOST_LINES], expected[1 << MOST_LINES];
    if (is_cascade)
        count_signs();
    write_file(file, is_cascade ? &cascade : NULL, &circuit);
    const char *program = is_cascade ? "map" : "reduce";
    int lines = is_cascade ? cascade.lines : circuit.lines;
    int good = run(directory, program, file, NULL, &answer) && answer.lines == lines
        && (!is_cascade || leaves_kept_lines());
    unsigned count_of_starts = lines <= ALL_STARTS_LINES ? 1u << lines : SOME_STARTS;
    for (unsigned which = 0; good && which < count_of_starts; which++, starts++) {
        unsigned start = chosen_start(lines, which);
        if (is_cascade) {
            unsigned end = run_cascade(&cascade, start);
            flips += end != start;
            for (int pattern = 0; pattern < 1 << lines; pattern++)
                expected[pattern] = 0;
            expected[end] = 1;
        } else {
            simulate(&circuit, start, expected);
        }
        simulate(&answer, start, got);
        good = close_to(got, expected, lines);
    }
    count(good, program, file);
}

/* Gates of so many controls with so many unnamed lines, each way of signs. */
static int wide_cases(const char *directory, const char *file)
{
    int cases = 0;
    for (int k = FEWEST_CONTROLS; k <= MOST_CONTROLS; k++)
        for (int unnamed = 1; unnamed <= MOST_UNNAMED; unnamed++) {
            int lines = k + 1 + unnamed;
            for (int signs = NONE; lines <= MOST_LINES && signs <= ALL; signs++, cases++) {
                wide_cascade(&cascade, lines, k, (enum signs)signs);
                one_case(1, directory, file);
            }
        }
    return cases;
}

/* Short cascades with kept lines, a third each without signs, with any and with all. */
static void kept_cases(const char *directory, const char *file)
{
    starts = 0;
    for (int i = 0; i < KEPT_CASCADES; i++) {
        do {
            random_cascade(&cascade, (enum signs)(i % 3));
            cascade.count = cascade.count > 3 ? 1 + below(3) : cascade.count;
        } while (!keep_some(&cascade));
        unsigned named = named_by_any(&cascade);
        with_unnamed += (cascade.kept & ~named) != 0;
        with_named += (cascade.kept & named) != 0;
        with_spare_kept += keeps_a_spare(&cascade);
        one_case(1, directory, file);
    }
    printf("simulator: map: %d cascades with kept lines, %ld with one that no mct names, %ld with one that some names, "
           "%ld with a spare kept, %ld starts\n",
           KEPT_CASCADES, with_unnamed, with_named, with_spare_kept, starts);
    if (with_unnamed < FEWEST_UNNAMED || with_named < FEWEST_NAMED || with_spare_kept < FEWEST_TAKEN) {
        printf("simulator: FAILED: too few cascades with kept lines of one kind\n");
        failed++;
    }
}

/* One circuit and then another, which have the same lines. */
static const struct circuit *one_after_the_other(const struct circuit *a, const struct circuit *b)
{
    whole.lines = a->lines;
    whole.count = a->count + b->count;
    memcpy(whole.gates, a->gates, (size_t)a->count * sizeof *a->gates);
    memcpy(whole.gates + a->count, b->gates, (size_t)b->count * sizeof *b->gates);
    return &whole;
}

/* Whether the circuit ends in this start with amplitude 1. */
static int stays(const struct circuit *circuit, unsigned start)
{
    static complex double got[1 << USUAL_LINES], expected[1 << USUAL_LINES];
    for (int pattern = 0; pattern < 1 << circuit->lines; pattern++)
        expected[pattern] = 0;
    expected[start] = 1;
    simulate(circuit, start, got);
    return close_to(got, expected, circuit->lines);
}

/* Whether two circuits end in the same amplitudes from every start. */
static int same(const struct circuit *a, const struct circuit *b)
{
    static complex double of_a[1 << USUAL_LINES], of_b[1 << USUAL_LINES];
    int good = 1;
    for (unsigned start = 0; good && start < 1u << a->lines; start++) {
        simulate(a, start, of_a);
        simulate(b, start, of_b);
        good = close_to(of_a, of_b, a->lines);
    }
    return good;
}

/* The circuit, and what invert writes for it: one after the other, either way round,
   every start stays; and join writes no gates for them. */
static void inverse_case(const char *directory, const char *file, const char *other)
{
    write_file(file, NULL, &circuit);
    int good = run(directory, "invert", file, NULL, &second) && second.lines == circuit.lines
        && second.count <= circuit.count;
    for (unsigned start = 0; good && start < 1u << circuit.lines; start++, starts++) {
        moved += !stays(&circuit, start);
        good = stays(one_after_the_other(&circuit, &second), start)
            && stays(one_after_the_other(&second, &circuit), start);
    }
    count(good, "invert", file);
    write_file(other, NULL, &second);
    good = run(directory, "join", file, other, &answer) && answer.lines == circuit.lines && answer.count == 0
        && run(directory, "join", other, file, &answer) && answer.lines == circuit.lines && answer.count == 0;
    count(good, "join with the inverse", file);
}

/* What join writes acts as the first circuit and then the second. */
static void join_case(const char *directory, const char *file, const char *other)
{
    write_file(file, NULL, &circuit);
    write_file(other, NULL, &second);
    int good = run(directory, "join", file, other, &answer) && answer.lines == circuit.lines
        && answer.count <= circuit.count + second.count && same(&answer, one_after_the_other(&circuit, &second));
    starts += 1 << circuit.lines;
    count(good, "join, the first of two texts", file);
    ordered += !same(&answer, one_after_the_other(&second, &circuit));
}

static void inverses_and_joins(const char *directory, const char *file, const char *other)
{
    starts = 0;
    for (int i = 0; i < INVERSES; i++) {
        int lines = 1 + below(USUAL_LINES);
        random_circuit(&circuit, lines, below(4) ? 25 : 60);
        inverse_case(directory, file, other);
    }
    printf("simulator: invert: %d circuits, %ld starts, of which the circuit moves %ld\n", INVERSES, starts, moved);
    starts = 0;
    for (int i = 0; i < JOINS; i++) {
        int lines = 1 + below(USUAL_LINES);
        random_circuit(&circuit, lines, below(4) ? 25 : 60);
        random_circuit(&second, lines, below(4) ? 25 : 60);
        join_case(directory, file, other);
    }
    printf("simulator: join: %d pairs, %ld starts, %ld pairs that act otherwise in the other order\n", JOINS, starts,
           ordered);
    if (moved < FEWEST_MOVED || ordered < FEWEST_ORDERED) {
        printf("simulator: FAILED: too few circuits that do something\n");
        failed++;
    }
}

int main(int argc, char **argv)
{
    if (argc != 3) {
        fprintf(stderr, "usage: simulator PROGRAM_DIRECTORY SCRATCH_DIRECTORY\n");
        return 2;
    }
    char file[4096], other[4096];
    snprintf(file, sizeof file, "%s/simulator.text", argv[2]);
    snprintf(other, sizeof other, "%s/simulator.other", argv[2]);
    for (int i = 0; i < CASCADES; i++) {
        random_cascade(&cascade, (enum signs)(i % 3));
        one_case(1, argv[1], file);
    }
    printf("simulator: map: %d cascades, %ld with negated controls, %ld with others alone, %ld starts\n", CASCADES,
           negated, plain, starts);
    if (negated < FEWEST_NEGATED || plain < FEWEST_PLAIN) {
        printf("simulator: FAILED: too few cascades of one kind\n");
        failed++;
    }
    starts = flips = 0;
    int wide = wide_cases(argv[1], file);
    printf("simulator: map: %d cascades of gates of %d to %d controls, %ld starts, %ld with another end\n", wide,
           FEWEST_CONTROLS, MOST_CONTROLS, starts, flips);
    if (wide != WIDE_CASCADES || flips < 7 * WIDE_CASCADES) {
        printf("simulator: FAILED: too few cascades of wide gates\n");
        failed++;
    }
    starts = 0;
    for (int i = 0; i < CIRCUITS; i++) {
        int lines = 1 + below(USUAL_LINES);
        random_circuit(&circuit, lines, below(4) ? 25 : 90);
        one_case(0, argv[1], file);
    }
    printf("simulator: reduce: %d circuits, %ld starts\n", CIRCUITS, starts);
    inverses_and_joins(argv[1], file, other);
    kept_cases(argv[1], file);
    printf("%ld passed, %ld failed\n", passed, failed);
    return passed > 0 && failed == 0 ? 0 : 1;
}
