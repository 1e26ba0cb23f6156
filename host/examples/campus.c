/* Reads a campus file, prints its board, serves one GETINFO, and prints the outcome and the reply in hex.

       campus FILE [CLIENT]        CLIENT is an IPv4 address, 10.0.1.5 if it is left out

   Build it in the repository's root, after `tools/built embed_c`:

       cc -Ihost/include host/examples/campus.c target/staticlib/libembed.a -o target/campus */
#include "banshorra.h"
#include <arpa/inet.h>
#include <stdio.h>

/* Version 0, GETINFO, family 1, transaction id 1; Lease Identifier 00 41; Option Request List: scope list and time; Requested Language: de, in
   which the scopes' names are to be, where they have one; End. */
static const uint8_t getinfo[] = {0, 8, 0, 1, 0, 0, 0, 1, 0, 3, 0, 2, 0, 0x41, 0, 5, 0, 4, 0, 9, 0, 11, 0, 8, 0, 2, 'd', 'e', 0, 0, 0, 0};

int main(int count, char **words)
{
    /* One octet more than the longest file, so that a longer one is seen as such. */
    static uint8_t file[BANSHORRA_FILE_ROOM + 1];
    static uint8_t text[BANSHORRA_BOARD_ROOM];
    uint8_t reply[BANSHORRA_REPLY_ROOM];
    size_t file_length, reply_length, fault_offset, count_read;
    struct in_addr client;

    if (count < 2 || count > 3 || inet_pton(AF_INET, count == 3 ? words[2] : "10.0.1.5", &client) != 1) {
        fprintf(stderr, "usage: campus FILE [CLIENT]\n");
        return 2;
    }
    FILE *input = fopen(words[1], "rb");
    if (input == NULL) {
        perror(words[1]);
        return 2;
    }
    file_length = fread(file, 1, sizeof file, input);
    fclose(input);

    fwrite(text, 1, banshorra_board(file, file_length, text, sizeof text), stdout);

    /* A host passes time(NULL). 0 is before the file's clock, which stays, so that this prints the same every time. */
    uint8_t number = banshorra_serve(file, sizeof file, &file_length, getinfo, sizeof getinfo, ntohl(client.s_addr), 0, reply, sizeof reply,
                                     &reply_length, &fault_offset, &count_read);
    if (number > BANSHORRA_ERROR)
        return 1; /* the file is refused, as the board has said */
    printf("outcome %u\n", number);
    if (number == BANSHORRA_BAD_OPTIONS)
        printf("wrong at octet %zu\n", fault_offset);
    if (number == BANSHORRA_REPLY) {
        printf("reply ");
        for (size_t i = 0; i < reply_length; i++)
            printf("%02x", reply[i]);
        printf("\n");
    }
    return 0;
}
