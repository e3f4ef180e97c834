/* Reads whole numbers, one after another, prints them in rising order and returns their median. */
int putchar(int c);
int getchar(void);

enum { MOST = 8 };

static int next;                /* the byte that was read last, or -1 at the end of the input */

static int is_digit(int c) {
    return c >= '0' && c <= '9';
}

static int read_number(void) {
    int n = 0;
    while (is_digit(next)) {
        n = n * 10 + (next - '0');
        next = getchar();
    }
    return n;
}

static int read_numbers(int *a) {
    int count = 0;
    next = getchar();
    while (next >= 0 && count < MOST) {
        if (is_digit(next))
            a[count++] = read_number();
        else
            next = getchar();
    }
    return count;
}

static void sort(int *a, int n) {
    for (int i = 1; i < n; i++) {
        int x = a[i];
        int j = i;
        while (j > 0 && a[j - 1] > x) {
            a[j] = a[j - 1];
            j--;
        }
        a[j] = x;
    }
}

static void print_number(int n) {
    if (n >= 10)
        print_number(n / 10);
    putchar('0' + n % 10);
}

int median(void) {
    int a[MOST];
    int n = read_numbers(a);
    sort(a, n);
    for (int i = 0; i < n; i++) {
        if (i > 0)
            putchar(' ');
        print_number(a[i]);
    }
    return n == 0 ? -1 : a[n / 2];
}
