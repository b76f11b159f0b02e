/*
 * The file in which play finds the sheet, and whoever looks into a difference.
 * A file, since play may stop reading early, and a pipe would then break.
 */
#ifndef PANEL_TEST_SHEET_FILE_H
#define PANEL_TEST_SHEET_FILE_H

void open_sheet_file(void);

/* Puts the sheet into the file, and gives the file, to be read from its start. */
int save_sheet(void);

void remove_sheet_file(void);

#endif
