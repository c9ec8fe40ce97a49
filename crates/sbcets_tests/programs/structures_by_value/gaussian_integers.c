#include <stdio.h>

/* complex numbers with whole parts, by value */
struct complex { int re, im; };
struct divided { struct complex quotient, remainder; };

struct complex complex(int re, int im)
{
    struct complex z;
    z.re = re;
    z.im = im;
    return z;
}

struct complex difference(struct complex a, struct complex b)
{
    return complex(a.re - b.re, a.im - b.im);
}

struct complex product(struct complex a, struct complex b)
{
    return complex(a.re * b.re - a.im * b.im, a.re * b.im + a.im * b.re);
}

int norm(struct complex z)
{
    return z.re * z.re + z.im * z.im;
}

static int nearest(int a, int n)
{
    int twice = 2 * a + n;
    return twice >= 0 ? twice / (2 * n) : -((-twice + 2 * n - 1) / (2 * n));
}

struct divided divided(struct complex a, struct complex b)
{
    struct divided d;
    struct complex turned = {0, 0};
    turned.re = b.re;
    turned.im = -b.im;
    turned = product(a, turned);
    d.quotient = complex(nearest(turned.re, norm(b)), nearest(turned.im, norm(b)));
    d.remainder = difference(a, product(d.quotient, b));
    return d;
}

struct complex common(struct complex a, struct complex b)
{
    return norm(b) == 0 ? a : common(b, divided(a, b).remainder);
}

int is_prime(struct complex z)
{
    int a, b;
    for (a = 0; a * a <= norm(z); a++)
        for (b = 0; b <= a; b++) {
            struct complex d = complex(a, b);
            if (norm(d) > 1 && norm(d) < norm(z)
                && (norm(divided(z, d).remainder) == 0 || norm(divided(z, complex(b, a)).remainder) == 0))
                return 0;
        }
    return norm(z) > 1;
}

int main(void)
{
    struct complex g = common(complex(11, 3), complex(1, 8)), power = {1, 0}, all[3];
    struct divided d = divided(complex(27, -23), complex(8, 1));
    int x, y, i;
    printf("%d %d\n", g.re, g.im);
    printf("%d %d %d %d\n", d.quotient.re, d.quotient.im, d.remainder.re, d.remainder.im);
    for (i = 0; i < 12; i++) {
        power = product(power, complex(1, 2));
        all[i % 3] = power;
    }
    for (i = 0; i < 3; i++)
        printf("%d%s%di ", all[i].re, all[i].im < 0 ? "" : "+", all[i].im);
    puts("");
    for (y = 6; y >= 0; y--) {
        for (x = 0; x < 9; x++)
            putchar(is_prime(complex(x, y)) ? '#' : '.');
        puts("");
    }
    return norm(g);
}
