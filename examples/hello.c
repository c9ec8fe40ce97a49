int main(void)
{
    putchar(72); putchar(101); putchar(108); putchar(108); putchar(111);
    putchar(10);
    return 0;
}
