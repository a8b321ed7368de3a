/* compare.c: the comparison of the planner with simple.c, from the first case to the verdict.
 *
 *   compare PASSED FAILED   everything; the two numbers are tests made elsewhere, to be counted with these
 *   compare --planner       prints the plan, or the refusal, of the job on standard input, by zhevgulor_plan
 *   compare --simple        the same by simple.c
 *   compare --planner JOB PLAN   prints what the program check prints for these two files, by zhevgulor_check_texts
 *   compare --simple JOB PLAN    the same by simple.c
 *
 * The last line is `tests: N passed, M failed`, and the status is 0 only if M is 0 and N is not. Cases that fail are saved in
 * target/tests/. */
#define _GNU_SOURCE
#include "cases.h"
#include "sections.h"

#include <stdio.h>
#include <stdlib.h>
#include <string.h>
#include <sys/wait.h>
#include <time.h>
#include <unistd.h>

enum keep { NOT_KEPT, KEPT };

static void section(const char *name, void (*run)(void), enum keep keep)
{
    long p = passed, f = failed;
    clock_t begun = clock();
    keeping = keep == KEPT;
    run();
    printf("%s: %ld passed, %ld failed; %.1f s\n", name, passed - p, failed - f, (double)(clock() - begun) / CLOCKS_PER_SEC);
}

/* What has been counted so far. */
struct tally { long passed, failed, clashes, texts_clashes, gaps, given[GIVERS][REFUSALS]; };

static struct tally tally(void)
{
    struct tally all = { .passed = passed, .failed = failed, .clashes = clashes, .texts_clashes = texts_clashes, .gaps = gaps };
    memcpy(all.given, given, sizeof given);
    return all;
}

static void add_tally(const struct tally *more)
{
    passed += more->passed;
    failed += more->failed;
    clashes += more->clashes;
    texts_clashes += more->texts_clashes;
    gaps += more->gaps;
    for (int g = 0; g < GIVERS; g++)
        for (int number = 0; number < REFUSALS; number++)
            given[g][number] += more->given[g][number];
}

/* Random jobs, damaged lists and the plans of random jobs, damaged or not, take as long as all the rest. They run beside it in a
 * process of their own, whose tally comes by a pipe. */
static int begin_random(pid_t *process)
{
    int end[2];
    if (pipe(end) != 0 || (*process = fork()) < 0) {
        perror("another process");
        exit(2);
    }
    if (*process > 0) {
        close(end[1]);
        return end[0];
    }
    passed = failed = 0;
    part = "random-";
    section("random jobs", random_jobs, NOT_KEPT);
    section("large random jobs", large_random_jobs, NOT_KEPT);
    section("damaged lists", damaged_lists, NOT_KEPT);
    section("plans read back", written_plans, NOT_KEPT);
    section("damaged plans", damaged_plans, NOT_KEPT);
    struct tally mine = tally();
    _exit(write(end[1], &mine, sizeof mine) == sizeof mine ? 0 : 2);
}

static void end_random(int from, pid_t process)
{
    struct tally theirs;
    int status;
    if (read(from, &theirs, sizeof theirs) == sizeof theirs && waitpid(process, &status, 0) == process && status == 0)
        add_tally(&theirs);
    else
        expect(0, "random jobs, damaged lists or plans read back broke off");
}

static int compare(void)
{
    pid_t process;
    setvbuf(stdout, NULL, _IOLBF, 0); /* two processes print whole lines */
    prepare_calls();
    print_seeds();
    print_plan_seeds();
    int from = begin_random(&process);
    section("sessions", sessions, KEPT);
    section("sessions of plans", plan_sessions, KEPT);
    section("wrong forms", wrong_forms, KEPT);
    section("short lines", short_lines, KEPT);
    section("forms of plans", plan_forms, KEPT);
    section("reader's lists", reader_lists, KEPT);
    section("single bytes", single_bytes, NOT_KEPT);
    section("single lines of plans", plan_lines, NOT_KEPT);
    section("single bytes of plans", plan_bytes, NOT_KEPT);
    section("small jobs", small_jobs, NOT_KEPT);
    section("small starts", small_starts, KEPT);
    section("wrong pairs", wrong_pairs, KEPT);
    section("rooms", rooms, KEPT);
    section("limits", limits, KEPT);
    section("pairs of mistakes in plans", plan_pairs, KEPT);
    section("rooms for plans read back", plan_rooms, KEPT);
    section("limits of plans", plan_limits, KEPT);
    section("full jobs", full_jobs, NOT_KEPT);
    section("damaged texts", damaged_texts, NOT_KEPT);
    section("read and plan", read_and_plan, NOT_KEPT);
    section("lengths of more than 32 bits", huge_lengths, NOT_KEPT);
    section("stack", stack, NOT_KEPT);
    section("wrong rules", teeth, NOT_KEPT);
    section("threads", threads, NOT_KEPT); /* late: emulated code is slower once there was a second thread */
    end_random(from, process);
    section("counts", counts, NOT_KEPT);
    printf("tests: %ld passed, %ld failed\n", passed, failed);
    return failed == 0 && passed > 0 ? 0 : 1;
}

static int one_job(int by_planner)
{
    static uint8_t job[MOST_BYTES + 1], plan[ROOM];
    size_t bytes = fread(job, 1, sizeof job, stdin);
    struct call call = { .function = PLAN, .text = job, .text_bytes = bytes, .lent = { sizeof plan } };
    struct answer answer = by_planner ? call_planner(&call, (void *[]){ plan }) : simple_plan(job, bytes, plan, sizeof plan);
    if (answer.refusal)
        printf("R\t%u\t%u\n", answer.refusal, answer.value);
    else
        fwrite(plan, 1, answer.value, stdout);
    return 0;
}

/* As much of a file as tells whether it is too long. */
static size_t read_file(const char *name, uint8_t *text)
{
    FILE *file = fopen(name, "r");
    if (file == NULL) {
        perror(name);
        exit(2);
    }
    size_t bytes = fread(text, 1, MOST_BYTES + 1, file);
    fclose(file);
    return bytes;
}

static int two_texts(int by_planner, const char *job_name, const char *plan_name)
{
    static uint8_t job[MOST_BYTES + 1], plan[MOST_BYTES + 1];
    size_t job_bytes = read_file(job_name, job), plan_bytes = read_file(plan_name, plan);
    uint32_t clash[CLASH_NUMBERS];
    struct call call = { .function = CHECK_TEXTS, .text = job, .text_bytes = job_bytes, .plan = plan, .plan_bytes = plan_bytes,
                         .lent = { CLASH_NUMBERS } };
    struct answer answer = by_planner ? call_planner(&call, (void *[]){ clash })
                                      : simple_check_texts(job, job_bytes, plan, plan_bytes, clash, CLASH_NUMBERS);
    if (answer.refusal)
        printf("%c\t%u\t%u\n", answer.text == JOBS_TEXT ? 'R' : 'Q', answer.refusal, answer.value);
    else if (answer.value)
        printf("C\t%u\t%u\t%u\t%u\n", clash[0], clash[1], clash[2], clash[3]);
    else
        printf("clear\n");
    return 0;
}

int main(int words, char **word)
{
    int by_planner = words > 1 && strcmp(word[1], "--planner") == 0;
    if (by_planner || (words > 1 && strcmp(word[1], "--simple") == 0)) {
        if (words == 2)
            return one_job(by_planner);
        if (words == 4)
            return two_texts(by_planner, word[2], word[3]);
    }
    if (words != 3) {
        fprintf(stderr, "compare: two numbers; or --planner or --simple, with no file or with a job and a plan\n");
        return 2;
    }
    passed = strtol(word[1], NULL, 10);
    failed = strtol(word[2], NULL, 10);
    return compare();
}
