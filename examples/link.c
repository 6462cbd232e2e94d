/*
 * Links the library from C: checks and runs a text, runs the same schedule as records beside the plan's text, and
 * writes the one text for either. It prints the reports and the texts. The status is 0 only if every answer is what the
 * documents say. From the project's root:
 *
 * sh tools/static_library.sh
 * cc -std=c99 -O2 -I include examples/link.c -L target/staticlib -l:libpublic_point_memory.a -o target/link_c
 * target/link_c
 */
#include <point_memory.h>
#include <stdio.h>
#include <string.h>

#define STEPS 33

/* A plan of one card, job, block and word; its update adds 2 to the word. */
static const char plan[] = "plan\t1\t1\t1\t1\t1\n"
                           "job\t0\t0\n"
                           "block\t5\n"
                           "update\t0\n"
                           "add\t0\t0\t2\n";

/* Prints how a run or a writing ended, and its report or text; answers whether they are the expected ones. */
static int shown(const char *way, point_memory_ended ended, const uint8_t *buffer, size_t line, const char *expected) {
    printf("%s: number %zu, line %zu, %zu bytes\n", way, ended.number, ended.line, ended.length);
    fwrite(buffer, 1, ended.length, stdout);
    return ended.number == 0 && ended.line == line && ended.length == strlen(expected) &&
           memcmp(buffer, expected, ended.length) == 0;
}

/* Prints what a check answers; answers whether it is the expected one. */
static int checked(const char *way, point_memory_answer answer, size_t number, size_t line) {
    printf("%s: number %zu, line %zu\n", way, answer.number, answer.line);
    return answer.number == number && answer.line == line;
}

int main(void) {
    static uint8_t buffer[POINT_MEMORY_REPORT_ROOM];
    point_memory_entry records[1 + STEPS] = {{POINT_MEMORY_CALL, 0, 0}};
    char text[sizeof plan + sizeof "call\t0\t0\n" + STEPS * sizeof "step\t0\n"];
    char one_text[sizeof text];
    int accepted, plan_alone, as_text, as_records, text_written, records_written, i;

    /* The schedule: one call, then the steps in which it is carried out and returns. */
    strcpy(text, plan);
    strcat(text, "call\t0\t0\n");
    for (i = 1; i <= STEPS; i++) {
        strcat(text, "step\t0\n");
        records[i].kind = POINT_MEMORY_STEP;
    }

    /* The lengths do not count the zero byte that ends a C string. The text is no plan's text: line 6 is an entry. */
    accepted = checked("check", point_memory_check((const uint8_t *)text, strlen(text)), 0, 39);
    plan_alone = checked("check of a plan", point_memory_check_plan((const uint8_t *)text, strlen(text)), 3, 6);
    as_text = shown("text", point_memory_run((const uint8_t *)text, strlen(text), buffer, sizeof buffer), buffer, 39,
                    "commit\t29\t0\t0\nblock\t7\nend\t0\t39\n");
    as_records = shown("records",
                       point_memory_run_schedule((const uint8_t *)plan, strlen(plan), records, 1 + STEPS, buffer,
                                                 sizeof buffer),
                       buffer, 34, "commit\t29\t0\t0\nblock\t7\nend\t0\t34\n");

    /* Both are written alike, with the steps joined. The line that is answered is the run's. */
    strcpy(one_text, plan);
    strcat(one_text, "call\t0\t0\nstep\t0\t33\n");
    text_written = shown("text written",
                         point_memory_write((const uint8_t *)text, strlen(text), buffer, sizeof buffer), buffer, 39,
                         one_text);
    records_written = shown("records written",
                            point_memory_write_schedule((const uint8_t *)plan, strlen(plan), records, 1 + STEPS, buffer,
                                                        sizeof buffer),
                            buffer, 34, one_text);
    return accepted && plan_alone && as_text && as_records && text_written && records_written ? 0 : 1;
}
