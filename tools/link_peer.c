/* Has libosmogsm write and read messages of the link between a broadcast centre and a BSC, for link_reference.py.
 *
 * A line of standard input is `write WORDS`, which is answered by the octets that libosmogsm writes of what the words
 * say, or `read OCTETS`, which is answered by such words of what it reads; both answer `- WHY` where it refuses. The
 * words are those of the rows of crates/cbsp_link_tests: `type=T id=N new=N old=N` and then, as far as a message has
 * them, `fl=D:CELL/CAUSE` for each failure, `nc=D:CELL/NUMBER/INFO,..`, `cl=D:CELL,..`, `ch=N cat=N per=N num=N dcs=N`
 * and `pg=USED:OCTETS` for each page, with the discriminator D of cells, whose numbers have dots between them.
 *
 * cc -o link_peer link_peer.c -losmogsm -losmocore -ltalloc */
#include <stdint.h>
#include <stdio.h>
#include <stdlib.h>
#include <string.h>

#include <osmocom/core/msgb.h>
#include <osmocom/core/talloc.h>
#include <osmocom/core/utils.h>
#include <osmocom/gsm/cbsp.h>

#define PAGE 82
#define LINE (1 << 18)

/* The lists and optional fields of a message, wherever its type keeps them. */
struct parts {
    uint16_t *id, *new_serial, *old_serial;
    uint16_t **old_if_any;
    struct osmo_cbsp_cell_list *cells;
    struct osmo_cbsp_num_compl_list *completed;
    struct llist_head *failures;
    enum cbsp_channel_ind **channel;
};

#define REPLY(it, serials)                                                                                        \
    do {                                                                                                          \
        serials;                                                                                                  \
        parts.id = &(it)->msg_id;                                                                                 \
        parts.completed = &(it)->num_compl_list;                                                                  \
        parts.cells = &(it)->cell_list;                                                                           \
        parts.channel = &(it)->channel_ind;                                                                       \
    } while (0)

static struct parts parts_of(struct osmo_cbsp_decoded *message)
{
    struct parts parts = {0};
    struct osmo_cbsp_write_replace *write = &message->u.write_replace;
    struct osmo_cbsp_write_replace_complete *done = &message->u.write_replace_compl;
    struct osmo_cbsp_write_replace_failure *failed = &message->u.write_replace_fail;
    struct osmo_cbsp_kill *kill = &message->u.kill;
    struct osmo_cbsp_kill_complete *killed = &message->u.kill_compl;
    struct osmo_cbsp_kill_failure *alive = &message->u.kill_fail;

    switch (message->msg_type) {
    case 1:
        parts.id = &write->msg_id;
        parts.new_serial = &write->new_serial_nr;
        parts.old_if_any = &write->old_serial_nr;
        parts.cells = &write->cell_list;
        break;
    case 2:
        REPLY(done, (parts.new_serial = &done->new_serial_nr, parts.old_if_any = &done->old_serial_nr));
        break;
    case 3:
        REPLY(failed, (parts.new_serial = &failed->new_serial_nr, parts.old_if_any = &failed->old_serial_nr));
        parts.failures = &failed->fail_list;
        break;
    case 4:
        parts.id = &kill->msg_id;
        parts.old_serial = &kill->old_serial_nr;
        parts.cells = &kill->cell_list;
        parts.channel = &kill->channel_ind;
        break;
    case 5:
        REPLY(killed, parts.old_serial = &killed->old_serial_nr);
        break;
    case 6:
        REPLY(alive, parts.old_serial = &alive->old_serial_nr);
        parts.failures = &alive->fail_list;
        break;
    default:
        break;
    }
    return parts;
}

static void put_network(const struct osmo_plmn_id *plmn)
{
    printf("%u.%u.%u", plmn->mcc, plmn->mnc, plmn->mnc_3_digits);
}

static void put_cell(enum CELL_IDENT kind, const union gsm0808_cell_id_u *cell)
{
    switch (kind) {
    case CELL_IDENT_WHOLE_GLOBAL:
        put_network(&cell->global.lai.plmn);
        printf(".%u.%u", cell->global.lai.lac, cell->global.cell_identity);
        break;
    case CELL_IDENT_LAC_AND_CI:
        printf("%u.%u", cell->lac_and_ci.lac, cell->lac_and_ci.ci);
        break;
    case CELL_IDENT_CI:
        printf("%u", cell->ci);
        break;
    case CELL_IDENT_LAI:
        put_network(&cell->lai_and_lac.plmn);
        printf(".%u", cell->lai_and_lac.lac);
        break;
    case CELL_IDENT_LAC:
        printf("%u", cell->lac);
        break;
    default:
        break;
    }
}

static void put_lists(const struct parts *parts)
{
    struct osmo_cbsp_fail_ent *failure;
    struct osmo_cbsp_num_compl_ent *count;
    struct osmo_cbsp_cell_ent *cell;
    const char *between = "";

    if (parts->failures)
        llist_for_each_entry(failure, parts->failures, list) {
            printf(" fl=%d:", failure->id_discr);
            put_cell(failure->id_discr, &failure->cell_id);
            printf("/%u", failure->cause);
        }
    if (parts->completed && !llist_empty(&parts->completed->list)) {
        printf(" nc=%d:", parts->completed->id_discr);
        llist_for_each_entry(count, &parts->completed->list, list) {
            printf("%s", between);
            put_cell(parts->completed->id_discr, &count->cell_id);
            printf("/%u/%u", count->num_compl, count->num_bcast_info);
            between = ",";
        }
    }
    between = "";
    /* only orders to all cells have a list of none */
    if (!llist_empty(&parts->cells->list) || parts->cells->id_discr == CELL_IDENT_BSS) {
        printf(" cl=%d:", parts->cells->id_discr);
        llist_for_each_entry(cell, &parts->cells->list, list) {
            printf("%s", between);
            put_cell(parts->cells->id_discr, &cell->cell_id);
            between = ",";
        }
    }
}

static void put_broadcast(struct osmo_cbsp_write_replace *write)
{
    struct osmo_cbsp_content *page;

    if (!write->is_cbs) {
        printf(" emergency");
        return;
    }
    printf(" ch=%u cat=%u per=%u num=%u dcs=%u", write->u.cbs.channel_ind, write->u.cbs.category,
           write->u.cbs.rep_period, write->u.cbs.num_bcast_req, write->u.cbs.dcs);
    llist_for_each_entry(page, &write->u.cbs.msg_content, list) {
        printf(" pg=%u:", page->user_len);
        for (int place = 0; place < PAGE; place++)
            printf("%02x", page->data[place]);
    }
}

static void put_message(struct osmo_cbsp_decoded *message)
{
    struct parts parts = parts_of(message);

    printf("type=%d", message->msg_type);
    if (parts.id) {
        printf(" id=%u", *parts.id);
        if (parts.new_serial)
            printf(" new=%u", *parts.new_serial);
        if (parts.old_serial)
            printf(" old=%u", *parts.old_serial);
        if (parts.old_if_any && *parts.old_if_any)
            printf(" old=%u", **parts.old_if_any);
        put_lists(&parts);
        if (parts.channel && *parts.channel)
            printf(" ch=%u", **parts.channel);
    }
    if (message->msg_type == 1)
        put_broadcast(&message->u.write_replace);
    putchar('\n');
}

/* Takes the next number of a text, and what ends it. */
static unsigned number(char **text)
{
    unsigned value = strtoul(*text, text, 10);

    if (**text)
        ++*text;
    return value;
}

static void take_network(char **text, struct osmo_plmn_id *plmn)
{
    plmn->mcc = number(text);
    plmn->mnc = number(text);
    plmn->mnc_3_digits = number(text);
}

static void take_cell(char **text, enum CELL_IDENT kind, union gsm0808_cell_id_u *cell)
{
    switch (kind) {
    case CELL_IDENT_WHOLE_GLOBAL:
        take_network(text, &cell->global.lai.plmn);
        cell->global.lai.lac = number(text);
        cell->global.cell_identity = number(text);
        break;
    case CELL_IDENT_LAC_AND_CI:
        cell->lac_and_ci.lac = number(text);
        cell->lac_and_ci.ci = number(text);
        break;
    case CELL_IDENT_CI:
        cell->ci = number(text);
        break;
    case CELL_IDENT_LAI:
        take_network(text, &cell->lai_and_lac.plmn);
        cell->lai_and_lac.lac = number(text);
        break;
    case CELL_IDENT_LAC:
        cell->lac = number(text);
        break;
    default:
        break;
    }
}

static void take_lists(void *owner, const char *name, char *text, struct parts *parts)
{
    enum CELL_IDENT kind = number(&text);

    if (!strcmp(name, "cl"))
        parts->cells->id_discr = kind;
    if (!strcmp(name, "nc"))
        parts->completed->id_discr = kind;
    while (*text) {
        if (!strcmp(name, "cl")) {
            struct osmo_cbsp_cell_ent *cell = talloc_zero(owner, struct osmo_cbsp_cell_ent);
            take_cell(&text, kind, &cell->cell_id);
            llist_add_tail(&cell->list, &parts->cells->list);
        } else if (!strcmp(name, "nc")) {
            struct osmo_cbsp_num_compl_ent *count = talloc_zero(owner, struct osmo_cbsp_num_compl_ent);
            take_cell(&text, kind, &count->cell_id);
            count->num_compl = number(&text);
            count->num_bcast_info = number(&text);
            llist_add_tail(&count->list, &parts->completed->list);
        } else {
            struct osmo_cbsp_fail_ent *failure = talloc_zero(owner, struct osmo_cbsp_fail_ent);
            failure->id_discr = kind;
            take_cell(&text, kind, &failure->cell_id);
            failure->cause = number(&text);
            llist_add_tail(&failure->list, parts->failures);
        }
    }
}

/* Takes a word of a broadcast, and returns whether it is one. */
static int take_broadcast(void *owner, const char *name, char *text, struct osmo_cbsp_write_replace *write)
{
    if (!strcmp(name, "ch"))
        write->u.cbs.channel_ind = number(&text);
    else if (!strcmp(name, "cat"))
        write->u.cbs.category = number(&text);
    else if (!strcmp(name, "per"))
        write->u.cbs.rep_period = number(&text);
    else if (!strcmp(name, "num"))
        write->u.cbs.num_bcast_req = number(&text);
    else if (!strcmp(name, "dcs"))
        write->u.cbs.dcs = number(&text);
    else if (!strcmp(name, "pg")) {
        struct osmo_cbsp_content *page = talloc_zero(owner, struct osmo_cbsp_content);
        page->user_len = number(&text);
        osmo_hexparse(text, page->data, PAGE);
        llist_add_tail(&page->list, &write->u.cbs.msg_content);
    } else
        return 0;
    return 1;
}

static void take_word(struct osmo_cbsp_decoded *message, const char *name, char *text)
{
    struct parts parts = parts_of(message);

    if (message->msg_type == 1 && take_broadcast(message, name, text, &message->u.write_replace))
        return;
    if (!strcmp(name, "id"))
        *parts.id = number(&text);
    else if (!strcmp(name, "new"))
        *parts.new_serial = number(&text);
    else if (!strcmp(name, "old") && parts.old_serial)
        *parts.old_serial = number(&text);
    else if (!strcmp(name, "old")) {
        *parts.old_if_any = talloc_zero(message, uint16_t);
        **parts.old_if_any = number(&text);
    } else if (!strcmp(name, "ch")) {
        *parts.channel = talloc_zero(message, enum cbsp_channel_ind);
        **parts.channel = number(&text);
    } else
        take_lists(message, name, text, &parts);
}

static void answer_write(void *owner, char *words)
{
    struct osmo_cbsp_decoded *message = NULL;
    struct msgb *octets;
    char *rest;

    for (char *word = strtok_r(words, " ", &rest); word; word = strtok_r(NULL, " ", &rest)) {
        char *text = strchr(word, '=');
        *text++ = 0;
        if (!message) {
            message = osmo_cbsp_decoded_alloc(owner, atoi(text));
            if (message->msg_type == 1) {
                message->u.write_replace.is_cbs = true;
                INIT_LLIST_HEAD(&message->u.write_replace.u.cbs.msg_content);
            }
        } else
            take_word(message, word, text);
    }
    octets = osmo_cbsp_encode(owner, message);
    if (octets) {
        for (unsigned place = 0; place < msgb_length(octets); place++)
            printf("%02x", msgb_data(octets)[place]);
        putchar('\n');
        msgb_free(octets);
    } else
        printf("- %s\n", osmo_cbsp_errstr ? osmo_cbsp_errstr : "not written");
    talloc_free(message);
}

static void answer_read(void *owner, const char *digits)
{
    struct msgb *octets = osmo_cbsp_msgb_alloc(owner, "octets");
    struct osmo_cbsp_decoded *message;
    int count = osmo_hexparse(digits, octets->tail, msgb_tailroom(octets));

    if (count < 4) {
        puts("- no header");
        msgb_free(octets);
        return;
    }
    msgb_put(octets, count);
    octets->l1h = octets->data;
    octets->l2h = octets->data + 4;
    message = osmo_cbsp_decode(owner, octets);
    if (message) {
        put_message(message);
        talloc_free(message);
    } else
        printf("- %s\n", osmo_cbsp_errstr ? osmo_cbsp_errstr : "not read");
    msgb_free(octets);
}

int main(void)
{
    static char line[LINE];
    void *owner = talloc_named_const(NULL, 0, "link_peer");

    while (fgets(line, sizeof(line), stdin)) {
        line[strcspn(line, "\n")] = 0;
        if (!strncmp(line, "write ", 6))
            answer_write(owner, line + 6);
        else if (!strncmp(line, "read ", 5))
            answer_read(owner, line + 5);
        else
            puts("- no such line");
        fflush(stdout);
    }
    return 0;
}
