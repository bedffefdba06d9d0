// An empty program that takes 200,000 bytes of the stack. That is more than the loader needs, whose need would hide what is there when `main` begins.
int main(void) {
    volatile char taken[200000];
    for (int i = sizeof taken - 1; i >= 0; i--) taken[i] = 0; // downwards, so that no page is jumped over
    return taken[0];
}
