int main(void)
{
    putchar(321);
    putchar(10);
    return 300;
}
