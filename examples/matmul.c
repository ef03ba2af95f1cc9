/* c = a * b. The loops walk down the columns of b; with -DROWS they walk along the rows of all
   three matrices. -DPAD=N makes each row of b longer by N numbers. */
#define N 64
#ifndef PAD
#define PAD 0
#endif
double a[N][N], b[N][N + PAD], c[N][N];

int main(void) {
    for (int x = 0; x < N; x++)
        for (int y = 0; y < N; y++)
            for (int z = 0; z < N; z++)
#ifdef ROWS
                c[x][z] += a[x][y] * b[y][z];
#else
                c[x][y] += a[x][z] * b[z][y];
#endif
    return (int)c[0][0];
}
