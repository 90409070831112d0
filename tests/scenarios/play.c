/* Plays a script of scenarios on the machine under test, line by line, and writes the text: play SCRIPT. The script's head says how it is read. */
#include <stdbool.h>
#include <stdio.h>
#include <stdlib.h>
#include <string.h>

#include "statements.h"
#include "telling.h"

static size_t line_number; /* in the script */
static bool scenario;      /* whether the line is one, and so ends with its call */

void stop(const char *why, const char *text)
{
    fflush(stdout);
    fprintf(stderr, "scenarios: line %zu of the script: %s: %s\n", line_number, why, text);
    exit(2);
}

/* Does a statement of a line. */
static void play_statement(struct play *p, const char *statement)
{
    size_t calls = p->calls;
    perform(p, statement);
    if (scenario && calls > 0 && p->calls == calls)
        stop("a scenario changes the board behind its call", statement);
}

/* Does what stands in a bracket; gives what stands behind it. */
static const char *play_bracket(struct play *p, const char *text)
{
    const char *end = strchr(text, *text == '[' ? ']' : *text == '{' ? '}' : '>');
    char inside[256];
    if (end == NULL || (size_t)(end - text) > sizeof inside)
        stop("a bracket does not end", text);
    snprintf(inside, sizeof inside, "%.*s", (int)(end - text - 1), text + 1);
    if (*text == '{')
        printf("%s", inside);
    if (*text == '<')
        write_value(&p->now, inside);
    else
        play_statement(p, inside);
    return end + 1;
}

/* Writes a text, and does what stands in its brackets on the way. */
static void play_text(struct play *p, const char *text)
{
    while (*text != '\0') {
        size_t plain = strcspn(text, "[{<");
        printf("%.*s", (int)plain, text);
        text += plain;
        if (*text != '\0')
            text = play_bracket(p, text);
    }
}

/* Goes to a kept board, or stays where no name is given. */
static void start_from(struct play *p, const char *name)
{
    if (*name != '\0')
        p->now = *recall(p, name);
}

/* The text up to a length, without the spaces at its ends. */
static void trim(char out[NAME_ROOM], const char *text, size_t length)
{
    size_t skipped = strspn(text, " ");
    skipped = skipped < length ? skipped : length;
    while (length > skipped && text[length - 1] == ' ')
        length--;
    if (length - skipped >= NAME_ROOM)
        stop("a name is too long", text);
    snprintf(out, NAME_ROOM, "%.*s", (int)(length - skipped), text + skipped);
}

/* NAME := BOARD [..] [..]: a board is prepared and kept, and nothing is written. */
static void play_definition(struct play *p, const char *name, const char *text)
{
    char start[NAME_ROOM];
    size_t length = strcspn(text, "[");
    trim(start, text, length);
    start_from(p, start);
    for (text += length; *text == '['; text += strspn(text, " "))
        text = play_bracket(p, text);
    if (*text != '\0')
        stop("a definition has statements in [] alone", text);
    keep(p, name);
}

/* BOARD = TEXT: the text alone. BOARD | TEXT: a scenario, whose call is one instruction where it makes none, with what the call changed. */
static void play_told(struct play *p, const char *text)
{
    play_text(p, text + (*text == ' '));
    if (scenario && p->calls == 0)
        perform(p, "run of 1");
    printf(scenario ? ": " : "\n");
    if (scenario)
        tell(&p->before, &p->now);
}

static void play_line(struct play *p, const char *line)
{
    char name[NAME_ROOM];
    size_t length = strcspn(line, "|=:");
    const char *mark = line + length;
    trim(name, line, length);
    p->calls = 0;
    scenario = *mark == '|';
    if (strncmp(mark, ":=", 2) == 0) {
        play_definition(p, name, mark + 2);
    } else if (scenario || *mark == '=') {
        start_from(p, name);
        play_told(p, mark + 1);
    } else {
        stop("a line needs one of | = :=", line);
    }
}

int main(int argc, char **argv)
{
    static struct play play;
    FILE *script = argc == 2 ? fopen(argv[1], "r") : NULL;
    char *line = NULL;
    size_t room = 0;
    if (script == NULL)
        stop("this script cannot be read", argc == 2 ? argv[1] : "");
    while (getline(&line, &room, script) >= 0) {
        line_number++;
        line[strcspn(line, "\n")] = '\0';
        if (*line != '\0' && *line != '#')
            play_line(&play, line);
    }
    free(line);
    fclose(script);
    return fflush(stdout) != 0;
}
