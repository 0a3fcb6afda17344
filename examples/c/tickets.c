/*
 * Starts an archive of three servers with a salt of its own, writes tickets of two tenants, looks them up, keeps the table as an
 * image and goes on from it, goes on after writes that are cut off, and prints what it did and how many servers it opened for
 * each tenant.
 */
#include <stdio.h>
#include <stdlib.h>
#include "archive.h"

#define CAPACITY 100
#define SALT 12345
#define SERVERS 3
#define WORDS (ARCHIVE_SERVER_WORDS(CAPACITY) * SERVERS)

static uint32_t table[ARCHIVE_TABLE_WORDS], medium[WORDS], words[ARCHIVE_CALL_WORDS], reply[ARCHIVE_REPLY_WORDS];
static uint32_t image[ARCHIVE_IMAGE_WORDS(SERVERS)];

/* The words of a call. */
static void encode(uint32_t number, uint32_t tenant, uint32_t subject, uint32_t amount)
{
    words[ARCHIVE_CALL_NUMBER] = number;
    words[ARCHIVE_CALL_TENANT] = tenant;
    words[ARCHIVE_CALL_SUBJECT] = subject;
    words[ARCHIVE_CALL_AMOUNT] = amount;
}

/* One call; a refusal other than `absent` and `another club's ticket` ends the program. */
static uint32_t call(uint32_t number, uint32_t tenant, uint32_t subject, uint32_t amount)
{
    encode(number, tenant, subject, amount);
    uint32_t refusal = archive_call(table, ARCHIVE_TABLE_WORDS, medium, WORDS, words, ARCHIVE_CALL_WORDS, reply, ARCHIVE_REPLY_WORDS);
    if (refusal != ARCHIVE_ACCEPTED && refusal != ARCHIVE_NOT_FOUND && refusal != ARCHIVE_OTHER_TENANT) {
        fprintf(stderr, "call %u was refused: %u\n", (unsigned)number, (unsigned)refusal);
        exit(1);
    }
    return refusal;
}

/* A write by the ticket's own tenant. */
static void write_ticket(uint32_t id, uint32_t value)
{
    call(ARCHIVE_WRITE, ARCHIVE_TENANT_OF(id), id, value);
    printf("ticket %u: %u on server %u\n", (unsigned)id, (unsigned)value, (unsigned)reply[ARCHIVE_REPLY_SERVER]);
}

static void look_up(uint32_t tenant, uint32_t id)
{
    uint32_t refusal = call(ARCHIVE_LOOKUP, tenant, id, 0);
    if (refusal == ARCHIVE_OTHER_TENANT)
        printf("ticket %u: not of tenant %u\n", (unsigned)id, (unsigned)tenant);
    else if (refusal == ARCHIVE_NOT_FOUND)
        printf("ticket %u: absent, %u opened\n", (unsigned)id, (unsigned)reply[ARCHIVE_REPLY_OPENED]);
    else
        printf("ticket %u is worth %u, %u opened\n", (unsigned)id, (unsigned)reply[ARCHIVE_REPLY_VALUE], (unsigned)reply[ARCHIVE_REPLY_OPENED]);
}

/* What the lookups of a tenant opened in all, by the table. */
static void print_counter(uint32_t tenant)
{
    printf("tenant %u: %u opened in all\n", (unsigned)tenant, (unsigned)table[ARCHIVE_TABLE_COUNTERS + tenant]);
}

/* Keeps the table as an image, as between two runs; answers how many words it has. A refusal ends the program. */
static uint32_t keep(void)
{
    uint32_t length;
    uint32_t refusal = archive_encode(table, ARCHIVE_TABLE_WORDS, image, ARCHIVE_IMAGE_WORDS(SERVERS), &length, 1);
    if (refusal != ARCHIVE_ACCEPTED) {
        fprintf(stderr, "the table was refused: %u\n", (unsigned)refusal);
        exit(1);
    }
    printf("the table in %u words\n", (unsigned)length);
    return length;
}

/* The table from so many words of the image; a refusal leaves zeros, on which no call would go on. */
static void read_back(uint32_t length)
{
    uint32_t refusal = archive_decode(image, length, table, ARCHIVE_TABLE_WORDS);
    if (refusal == ARCHIVE_ACCEPTED)
        printf("the table from %u words\n", (unsigned)length);
    else
        printf("%u words are refused: %u\n", (unsigned)length, (unsigned)refusal);
}

/* A write by the ticket's own tenant that is cut off after so many burns, and what makes the table good for calls again. */
static void cut_off(uint32_t id, uint32_t value, uint32_t burns)
{
    encode(ARCHIVE_WRITE, ARCHIVE_TENANT_OF(id), id, value);
    words[ARCHIVE_CALL_BURNS] = burns;
    archive_call_some(table, ARCHIVE_TABLE_WORDS, medium, WORDS, words, ARCHIVE_CALL_WORDS, reply, ARCHIVE_REPLY_WORDS);
    uint32_t refusal = archive_recover(table, ARCHIVE_TABLE_WORDS, medium, WORDS);
    if (refusal != ARCHIVE_ACCEPTED) {
        fprintf(stderr, "recover was refused: %u\n", (unsigned)refusal);
        exit(1);
    }
    printf("ticket %u: %u, cut off after %u burns\n", (unsigned)id, (unsigned)value, (unsigned)burns);
}

int main(void)
{
    if (archive_abi() != ARCHIVE_ABI || archive_start(CAPACITY, SALT, table, ARCHIVE_TABLE_WORDS) != ARCHIVE_ACCEPTED)
        return 1;
    for (size_t i = 0; i < WORDS; i++)
        medium[i] = ARCHIVE_BLANK;
    for (uint32_t k = 0; k < SERVERS; k++)
        call(ARCHIVE_ADD_SERVER, 0, 0, 50);
    write_ticket(1001, 250);
    write_ticket(1002, 500);
    write_ticket(626627286, 75);
    write_ticket(1001, 300);
    look_up(0, 1001);
    look_up(4, 1001);
    look_up(4, 626627286);
    uint32_t length = keep();
    read_back(length - 1);
    read_back(length);
    cut_off(1001, 350, 1);
    look_up(0, 1001);
    cut_off(1001, 350, 2);
    look_up(0, 1001);
    call(ARCHIVE_DELETE, 0, 1002, 0);
    look_up(0, 1002);
    print_counter(0);
    print_counter(4);
    return 0;
}
