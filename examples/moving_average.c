unsigned int w[16];

int main(void)
{
    unsigned int sum = 0;
    unsigned int p = 0;
    for (int n = 0; n < 40; n++) {
        unsigned int x = in();
        sum = sum - w[p] + x;
        w[p] = x;
        p = (p + 1) % 16;
        out(sum / 16);
    }
    return 0;
}
