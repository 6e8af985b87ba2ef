/* Starts c/examples/list.c, whose `main` is `list` here, with the words of a call: an emulated board gives none. */
int list(int count, char **words);

int main(void) {
    char name[] = "list", chunk[] = CHUNK, *words[] = {name, chunk, 0};
    return list(2, words);
}
