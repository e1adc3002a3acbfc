/* The mailboxes that c-client finds in a list. It writes into the list. */
#include <c-client/c-client.h>

size_t cclient_addresses(char *list, size_t length) {
    static char host[] = "no.host";
    ADDRESS *found = NULL;
    size_t count = 0;
    (void)length;
    rfc822_parse_adrlist(&found, list, host);
    /* A group is two marks around its mailboxes, and a mark has no host. */
    for (ADDRESS *one = found; one != NULL; one = one->next) count += one->host != NULL;
    mail_free_address(&found);
    return count;
}

static void *no_alarm(int reason, void *data) {
    (void)reason;
    return data;
}

/* The same without the system call by which c-client holds back alarms at each allocation and release. */
size_t cclient_quiet_addresses(char *list, size_t length) {
    void *usual = mail_parameters(NIL, GET_BLOCKNOTIFY, NIL);
    size_t count;
    mail_parameters(NIL, SET_BLOCKNOTIFY, (void *)no_alarm);
    count = cclient_addresses(list, length);
    mail_parameters(NIL, SET_BLOCKNOTIFY, usual);
    return count;
}

/* What c-client calls back; reading a list needs none of it. */
void mm_searched(MAILSTREAM *stream, unsigned long number) { (void)stream, (void)number; }
void mm_exists(MAILSTREAM *stream, unsigned long number) { (void)stream, (void)number; }
void mm_expunged(MAILSTREAM *stream, unsigned long number) { (void)stream, (void)number; }
void mm_flags(MAILSTREAM *stream, unsigned long number) { (void)stream, (void)number; }
void mm_notify(MAILSTREAM *stream, char *text, long kind) { (void)stream, (void)text, (void)kind; }
void mm_list(MAILSTREAM *stream, int mark, char *name, long kind) { (void)stream, (void)mark, (void)name, (void)kind; }
void mm_lsub(MAILSTREAM *stream, int mark, char *name, long kind) { (void)stream, (void)mark, (void)name, (void)kind; }
void mm_status(MAILSTREAM *stream, char *name, MAILSTATUS *status) { (void)stream, (void)name, (void)status; }
void mm_log(char *text, long kind) { (void)text, (void)kind; }
void mm_dlog(char *text) { (void)text; }
void mm_login(NETMBX *box, char *user, char *password, long trial) {
    (void)box, (void)user, (void)password, (void)trial;
}
void mm_critical(MAILSTREAM *stream) { (void)stream; }
void mm_nocritical(MAILSTREAM *stream) { (void)stream; }
long mm_diskerror(MAILSTREAM *stream, long code, long serious) { return (void)stream, (void)code, (void)serious, 0; }
void mm_fatal(char *text) { (void)text; }
