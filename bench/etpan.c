/* The mailboxes that libetpan finds in a list. */
#include <libetpan/libetpan.h>

static size_t mailboxes(const struct mailimf_address *one) {
    const struct mailimf_group *group = one->ad_data.ad_group;
    if (one->ad_type != MAILIMF_ADDRESS_GROUP) return 1;
    return group->grp_mb_list == NULL ? 0 : (size_t)clist_count(group->grp_mb_list->mb_list);
}

size_t etpan_addresses(char *list, size_t length) {
    struct mailimf_address_list *found = NULL;
    size_t at = 0, count = 0;
    if (mailimf_address_list_parse(list, length, &at, &found) != MAILIMF_NO_ERROR) return 0;
    for (clistiter *one = clist_begin(found->ad_list); one != NULL; one = clist_next(one)) {
        count += mailboxes(clist_content(one));
    }
    mailimf_address_list_free(found);
    return at == length ? count : 0;
}
