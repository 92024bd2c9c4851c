/* What the library has beside the proved calls: two texts, and what NULL and one handle given twice mean. */
#include "cvr.h"

/* The proved calls that those below stand on: crates/cvr_call says what each does. */
uint8_t cvr_office_join_other(CvrOffice *office, CvrOffice *other, size_t *new_facts);
uint8_t cvr_office_join_itself(CvrOffice *office, size_t *new_facts);
void cvr_office_drop(CvrOffice *office);

static const char *const TEXTS[] = {
    [CVR_DONE] = "done",
    [CVR_REFUSED] = "something was refused",
    [CVR_COMMAND_LINE] = "the words are no command",
    [CVR_DEVICE] = "a file is not among those given",
    [CVR_MEMORY] = "out of memory",
    [CVR_NO_INPUT] = "the input is not words and files",
    [CVR_NO_ROOM] = "the text or the log is longer than its room",
    [CVR_NO_OFFICE] = "the handle has no office",
    [CVR_OTHER_DEFINITION] = "the offices have different definitions",
    [CVR_NOT_MOMENT] = "the date is no moment",
    [CVR_NO_DEVICE] = "the definition lists no such device",
    [CVR_NO_VOLUME] = "there are fewer volumes",
};

const char *cvr_version(void) { return CVR_RELEASE; }

const char *cvr_status_text(int status) {
    return status >= 0 && (size_t)status < sizeof TEXTS / sizeof *TEXTS ? TEXTS[status] : "not a status of cvr";
}

uint8_t cvr_office_join(CvrOffice *office, CvrOffice *other, size_t *new_facts) {
    return office == other ? cvr_office_join_itself(office, new_facts) : cvr_office_join_other(office, other, new_facts);
}

void cvr_office_free(CvrOffice *office) {
    if (office)
        cvr_office_drop(office);
}
