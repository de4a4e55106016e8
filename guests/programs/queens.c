/* Queens that don't attack each other, on boards of 4 to 8 columns: how many ways there are, and the first one of 8. */
#include "guest.h"

static int column_of[8], ways;

static int is_free(int row, int column)
{
    for (int other = 0; other < row; other++) {
        int distance = column_of[other] - column;
        if (distance == 0 || distance == row - other || distance == other - row)
            return 0;
    }
    return 1;
}

static void show(int size)
{
    for (int row = 0; row < size; row++) {
        for (int column = 0; column < size; column++)
            put(column_of[row] == column ? 'Q' : '.');
        print("\n");
    }
}

static void place(int row, int size)
{
    if (row == size) {
        if (ways++ == 0 && size == 8)
            show(size);
        return;
    }
    for (int column = 0; column < size; column++)
        if (is_free(row, column)) {
            column_of[row] = column;
            place(row + 1, size);
        }
}

int main(void)
{
    for (int size = 4; size <= 8; size++) {
        ways = 0;
        place(0, size);
        print("%d queens: %d ways\n", size, ways);
    }
    return 0;
}
