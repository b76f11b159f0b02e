/* For files that have numbers, which C alone does not have. */
#define _POSIX_C_SOURCE 200809L

#include "sheet_file.h"

#include <stddef.h>
#include <stdio.h>
#include <stdlib.h>
#include <unistd.h>

#include "report.h"
#include "sheet.h"

#define NAME_ROOM 4096

static char name[NAME_ROOM];
static int file;

void open_sheet_file(void)
{
    const char *folder = getenv("TMPDIR");

    snprintf(name, sizeof name, "%s/panel-sheet-XXXXXX",
             folder != NULL && folder[0] != '\0' ? folder : "/tmp");
    file = mkstemp(name);
    if (file < 0)
        die("the file for the sheet");
    report_file(name);
}

static void rewind_file(void)
{
    if (lseek(file, 0, SEEK_SET) != 0)
        die(name);
}

static void write_sheet(void)
{
    size_t done = 0;

    while (done < sheet.length) {
        ssize_t part = write(file, sheet.bytes + done, sheet.length - done);

        if (part < 0)
            die(name);
        done += (size_t)part;
    }
}

int save_sheet(void)
{
    if (ftruncate(file, 0) != 0)
        die(name);
    rewind_file();
    write_sheet();
    rewind_file();
    return file;
}

void remove_sheet_file(void)
{
    unlink(name);
}
