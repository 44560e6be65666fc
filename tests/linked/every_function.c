/* Asks for each function of the archive and has what the archive may ask for, so that a link without a C library succeeds exactly
   if nothing else is undefined. It is never run. */
void elsterkabel_access_in(void);
void elsterkabel_run_in(void);
void elsterkabel_lines(void);
void elsterkabel_word_of(void);
void elsterkabel_version(void);

void memcpy(void) {}

void _start(void) {
    elsterkabel_access_in();
    elsterkabel_run_in();
    elsterkabel_lines();
    elsterkabel_word_of();
    elsterkabel_version();
}
