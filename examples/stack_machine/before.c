/* A small stack machine for whole numbers, as it runs now: a word of a program that isn't negative is pushed, any other
 * is an operation on the bottom and the top of the stack. */

struct machine {
    unsigned depth;
    int cells[16];
};

/* Of another unit. Code that leads to `report` is cold: the compiler puts it into a section of its own. */
__attribute__((cold)) void report(const char *what, int value);
int read_port(int port);

static unsigned long executed;

static const char *const names[] = {"add", "subtract", "multiply", "and", "or", "exclusive or", "shift left",
                                    "shift right", "read"};

int top(const struct machine *m)
{
    if (m->depth == 0) {
        report("nothing on the stack", 0);
        return 0;
    }
    return m->cells[m->depth - 1];
}

void push(struct machine *m, int value)
{
    if (m->depth == 16) {
        report("stack is full", value);
        return;
    }
    m->cells[m->depth++] = value;
}

int scaled(int value, int numerator, int denominator)
{
    if (denominator == 0) {
        report("division by zero", value);
        return 0;
    }
    return value * numerator / denominator;
}

int apply(int operation, int left, int right)
{
    switch (operation) {
    case 0: return left + right;
    case 1: return left - right;
    case 2: return left * right;
    case 3: return left & right;
    case 4: return left | right;
    case 5: return left ^ right;
    case 6: return left << (right & 31);
    case 7: return left >> (right & 31);
    case 8: return read_port(left);
    default:
        report("unknown operation", operation);
        return left;
    }
}

const char *name_of(unsigned operation)
{
    return operation < 9 ? names[operation] : "unknown";
}

unsigned long instructions(void)
{
    return executed;
}

int run(struct machine *m, const int *program, unsigned length)
{
    for (unsigned i = 0; i < length; i++) {
        executed++;
        if (program[i] >= 0)
            push(m, program[i]);
        else
            m->cells[0] = apply(~program[i], m->cells[0], top(m));
    }
    return top(m);
}
